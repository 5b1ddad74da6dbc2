"""Numbers in datagrams, lines of texts, and what both are refused for."""

import re


class Refused(Exception):
    """A datagram is refused; its only argument is the cause that the audit tells."""


class BadLine(Exception):
    """A line of a configuration or of a map is refused; line 0 is the text as a whole."""

    def __init__(self, line, cause):
        super().__init__(line, cause)
        self.line = line
        self.cause = cause


def number(octets, place=0, width=None):
    """The unsigned big-endian number at a place, `width` octets wide, or up to the end."""
    end = len(octets) if width is None else place + width
    return int.from_bytes(octets[place:end], "big")


def decimal(text, least, most):
    """The number that a text spells without sign and leading zeros, or None where it is out of range."""
    if not re.fullmatch("0|[1-9][0-9]*", text) or len(text) > 40:
        return None
    value = int(text)
    return value if least <= value <= most else None


def lines_of(octets):
    """Numbered lines that are neither empty nor comments, as texts of one character for each octet."""
    pieces = octets.decode("latin-1").split("\n")
    last = pieces.pop()
    # Only a line feed takes the carriage return before it along; at the end of the text it stays.
    lines = [piece[:-1] if piece.endswith("\r") else piece for piece in pieces]
    if last:
        lines.append(last)
    for position, line in enumerate(lines, 1):
        content = line.strip(" \t")
        if content and content[0] not in "!#":
            yield position, line


def is_text(line):
    """Whether a line has printable characters, spaces and tabs alone."""
    return all(character == "\t" or 32 <= ord(character) <= 126 for character in line)
