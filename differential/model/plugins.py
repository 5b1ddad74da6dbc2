"""Plugins: what each counts of the records, cut into slices by windows and by caches, and the purge of a slice."""

from typing import NamedTuple

from .columns import columns_of, key_of
from .layouts import purge_text

PRINT, MEMORY = "print", "memory"


class Counts(NamedTuple):
    """Sums over the records of one key."""

    bytes: int
    packets: int
    flows: int

    def plus(self, other):
        """The sums of both."""
        return Counts(self.bytes + other.bytes, self.packets + other.packets, self.flows + other.flows)


class Plugin:
    """One plugin at work: it takes records in order, and has the text of all its purges at the end."""

    def __init__(self, settings):
        self.settings = settings
        self.columns = columns_of(settings.aggregate)
        self.sums = {}
        self.window = None
        self.texts = []

    def take(self, moment, record, tags, rate):
        """Counts one record that came at a moment, in milliseconds, under its key."""
        length = 1000 * self.settings.refresh_time
        window = moment // length
        key = key_of(self.columns, record, tags, window * length)
        if self.settings.kind == PRINT and self.sums and self.begins_slice(window, key):
            self.purge()
        self.window = window
        counts = Counts(record.bytes * rate, record.packets * rate, 1)
        self.sums[key] = self.sums.get(key, Counts(0, 0, 0)).plus(counts)

    def begins_slice(self, window, key):
        """Whether a record is of another window than the one before, or of one key more than the cache holds."""
        return window != self.window or (key not in self.sums and len(self.sums) == self.settings.cache_entries)

    def purge(self):
        """Writes the rows of the slice, in the order of their keys, and begins anew."""
        self.texts.append(purge_text(self.settings, self.columns, sorted(self.sums.items())))
        self.sums = {}

    def end(self):
        """The text of all purges; without a record nothing is written."""
        if self.sums:
            self.purge()
        return "".join(self.texts)
