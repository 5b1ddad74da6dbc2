"""NetFlow: which version a datagram has, and version 5 (Cisco's NetFlow export datagram format)."""

from . import sets
from .octets import Refused, number
from .records import Record

HEADER_WIDTHS = {5: 24, 9: 20, 10: 16}
RECORD_WIDTH = 48


class NetflowDecoder:
    """Decodes datagrams one behind the other, and keeps the templates and rates that they teach."""

    def __init__(self):
        self.known = sets.Known()

    def decode(self, exporter, octets):
        """Records and notices of a datagram, with the number of each notice's set. If it is refused it teaches
        nothing."""
        if len(octets) < 2:
            raise Refused("short")
        version = number(octets, 0, 2)
        if version not in HEADER_WIDTHS:
            raise Refused("version %d" % version)
        if len(octets) < HEADER_WIDTHS[version]:
            raise Refused("short")
        if version == 5:
            return decode_version_5(exporter, octets), []
        learning = self.known.copy()
        decoded = sets.decode_sets(learning, exporter, version, octets)
        self.known = learning
        return decoded


def decode_version_5(exporter, octets):
    """The records of a datagram of version 5; octets past those that its header counts are ignored."""
    count = number(octets, 2, 2)
    if not 1 <= count <= 30:
        raise Refused("v5-count")
    if len(octets) < HEADER_WIDTHS[5] + RECORD_WIDTH * count:
        raise Refused("v5-cut")
    # The source is the type and the number of the engine together.
    source_id = number(octets, 20, 2)
    # The two high bits are the sampling mode; the interval stands below them.
    interval = number(octets, 22, 2) & 0x3FFF
    records = []
    for position in range(count):
        start = HEADER_WIDTHS[5] + RECORD_WIDTH * position
        record = record_of_version_5(exporter, source_id, octets[start:start + RECORD_WIDTH])
        record.header_rate = interval if interval > 0 else None
        records.append(record)
    return records


def record_of_version_5(exporter, source_id, octets):
    """One record of 48 octets; its field nexthop is passed over."""
    return Record(
        exporter=exporter, source_id=source_id,
        source_address=(4, number(octets, 0, 4)), destination_address=(4, number(octets, 4, 4)),
        input_interface=number(octets, 12, 2), output_interface=number(octets, 14, 2),
        packets=number(octets, 16, 4), bytes=number(octets, 20, 4),
        source_port=number(octets, 32, 2), destination_port=number(octets, 34, 2),
        protocol=octets[38], type_of_service=octets[39],
        source_system=number(octets, 40, 2), destination_system=number(octets, 42, 2),
        source_mask=octets[44], destination_mask=octets[45])
