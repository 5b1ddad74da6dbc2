"""A folder before and behind a run. An entry is the octets of a file, FOLDER, or FULL: a file that nothing can be
written to, and that has zeros without end."""

FOLDER = "folder"
FULL = "full"


class CannotOpen(Exception):
    """A name can't be opened; its only argument is the name."""


class Place:
    """Entries by their names, relative to the folder of the run."""

    def __init__(self, entries):
        self.entries = dict(entries)

    def find(self, name):
        """The plain name of an entry that is there, or could be; its parents are folders."""
        parts = [part for part in name.split("/") if part not in ("", ".")]
        if "\0" in name or any(len(part) > 255 for part in parts) or not parts:
            raise CannotOpen(name)
        for count in range(1, len(parts)):
            if self.entries.get("/".join(parts[:count])) != FOLDER:
                raise CannotOpen(name)
        plain = "/".join(parts)
        if name.endswith("/") and self.entries.get(plain) != FOLDER:
            raise CannotOpen(name)
        return plain

    def read(self, name, limit):
        """The octets of a file, of one that has no end one more than the limit. A folder has none to read."""
        entry = self.entries.get(self.find(name))
        if entry in (None, FOLDER):
            raise CannotOpen(name)
        return bytes(limit + 1) if entry == FULL else entry

    def is_folder(self, name):
        """Whether a name is that of a folder, which opens but can't be read."""
        return self.entries.get(self.find(name)) == FOLDER

    def open_output(self, name, anew):
        """Opens an output: it is created, or begun anew, or keeps what it had."""
        plain = self.find(name)
        entry = self.entries.get(plain)
        if entry == FOLDER:
            raise CannotOpen(name)
        if entry != FULL:
            self.entries[plain] = b"" if anew or entry is None else entry

    def append(self, name, text):
        """Appends a text, and says whether that could be done."""
        plain = self.find(name)
        if self.entries[plain] == FULL:
            return not text
        self.entries[plain] += text.encode("latin-1")
        return True
