"""The words of a command line: one name of a file behind -f. Words with --generate, which isn't built, have the same
answer as those that aren't taken at all."""

USAGE = {"nfacctd": "usage: nfacctd -f FILE | --generate NUMBER\n", "sfacctd": "usage: sfacctd -f FILE\n"}


class BadWords(Exception):
    """The words aren't taken."""


def read_words(words):
    """The name that the words give. A word is a text of one character for each octet."""
    if not all(is_utf8(word) for word in words):
        raise BadWords
    name = None
    rest = list(words)
    while rest:
        word = rest.pop(0)
        if word == "--" and not rest:
            # Two hyphens end the options.
            break
        if not word.startswith("-f") or name is not None:
            raise BadWords
        name = value_of_option(word[2:], rest)
    if name is None:
        raise BadWords
    return name


def value_of_option(attached, rest):
    """What is attached to the option, perhaps behind `=`, or else the next word: one hyphen, but no other option."""
    if attached:
        return attached[1:] if attached.startswith("=") else attached
    if not rest or (rest[0].startswith("-") and rest[0] != "-"):
        raise BadWords
    return rest.pop(0)


def is_utf8(word):
    """Whether the octets of a word are UTF-8."""
    try:
        word.encode("latin-1").decode("utf-8")
    except UnicodeDecodeError:
        return False
    return True
