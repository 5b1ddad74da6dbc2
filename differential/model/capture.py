"""Captures of flows: datagrams with their moments and exporters, and how a capture ends."""

from typing import NamedTuple

from .octets import number

MAGIC = b"PMACAP01"


class Datagram(NamedTuple):
    """One datagram; its moment, in milliseconds, is the greatest stamp up to it."""

    moment: int
    exporter: tuple
    octets: bytes


def read_capture(octets):
    """The datagrams before the first fault, and that fault as the line tells it, or None."""
    datagrams = []
    if not octets.startswith(MAGIC):
        return datagrams, "bad at 0: magic"
    place = len(MAGIC)
    moment = 0
    while place < len(octets):
        kind = octets[place]
        if kind not in (4, 6):
            return datagrams, "bad at %d: kind" % place
        address_width = 4 if kind == 4 else 16
        header_width = 1 + 8 + address_width + 2 + 4
        if len(octets) - place < header_width:
            return datagrams, "torn at %d" % place
        length = number(octets, place + header_width - 4, 4)
        if length > 65535:
            return datagrams, "bad at %d: length" % place
        end = place + header_width + length
        if end > len(octets):
            return datagrams, "torn at %d" % place
        moment = max(moment, number(octets, place + 1, 8))
        exporter = kind, number(octets, place + 9, address_width)
        datagrams.append(Datagram(moment, exporter, octets[place + header_width:end]))
        place = end
    return datagrams, None
