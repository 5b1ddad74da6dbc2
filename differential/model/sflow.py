"""sFlow version 5, as in the sFlow version 5 specification (sflow.org, 2004). All numbers have 32 bits; what is of
variable length is padded to a multiple of four octets."""

from .octets import Refused, number
from .records import Record
from .sampled_header import NOT_IP, Unread, read_sampled_header

FLOW_SAMPLE, EXPANDED_FLOW_SAMPLE = 1, 3
COUNTER_SAMPLES = (2, 4)
SAMPLED_HEADER, SAMPLED_IPV4, SAMPLED_IPV6, EXTENDED_SWITCH, EXTENDED_ROUTER = 1, 3, 4, 1001, 1002
# The octets that a record of each form has at least.
SHORTEST = {SAMPLED_HEADER: 16, SAMPLED_IPV4: 32, SAMPLED_IPV6: 56, EXTENDED_SWITCH: 16, EXTENDED_ROUTER: 4}
ADDRESS_WIDTHS = {1: 4, 2: 16}


class SflowDecoder:
    """Decodes datagrams, of which none teaches anything."""

    def decode(self, exporter, octets):
        """Records and notices of a datagram, each notice with its sample's number from 1."""
        source_id, count, place = read_header(octets)
        records, notices = [], []
        for position in range(1, count + 1):
            form, sample, place = read_block(octets, place, "sample-cut")
            if form in (FLOW_SAMPLE, EXPANDED_FLOW_SAMPLE):
                try:
                    records.append(read_flow_sample(exporter, source_id, form, sample))
                except Unread as unread:
                    notices.append((position, str(unread)))
            elif form not in COUNTER_SAMPLES:
                notices.append((position, "skipped %d" % form))
        return records, notices


def read_header(octets):
    """The sub-agent, the number of samples and the place of the first."""
    if len(octets) < 4:
        raise Refused("short")
    version = number(octets, 0, 4)
    if version != 5:
        raise Refused("version %d" % version)
    if len(octets) < 8:
        raise Refused("short")
    address_type = number(octets, 4, 4)
    if address_type not in ADDRESS_WIDTHS:
        raise Refused("sflow-address")
    place = 8 + ADDRESS_WIDTHS[address_type]
    if len(octets) < place + 16:
        raise Refused("short")
    return number(octets, place, 4), number(octets, place + 12, 4), place + 16


def read_block(octets, place, cause):
    """The form and the octets of a sample or record at a place, and the place behind its padding."""
    if len(octets) < place + 8:
        raise Refused(cause)
    form, length = number(octets, place, 4), number(octets, place + 4, 4)
    start = place + 8
    end = start + (length + 3) // 4 * 4
    if len(octets) < end:
        raise Refused(cause)
    return form, octets[start:start + length], end


def plain_interface(value):
    """The interface of a flow sample: its two high bits are a format, of which 0 alone means one interface."""
    return value if value < 2**30 else 0


def expanded_interface(interface_format, value):
    """The interface of an expanded flow sample, whose format is a number apart."""
    return value if interface_format == 0 else 0


def read_flow_sample(exporter, source_id, form, sample):
    """The record of a flow sample. Its records are all judged, also where none has a packet."""
    width = 32 if form == FLOW_SAMPLE else 44
    if len(sample) < width:
        raise Refused("record-cut")
    numbers = [number(sample, place, 4) for place in range(0, width, 4)]
    record = Record(exporter=exporter, source_id=source_id, packets=1)
    if form == FLOW_SAMPLE:
        record.own_rate = numbers[2]
        record.input_interface, record.output_interface = plain_interface(numbers[5]), plain_interface(numbers[6])
    else:
        record.own_rate = numbers[3]
        record.input_interface = expanded_interface(numbers[6], numbers[7])
        record.output_interface = expanded_interface(numbers[8], numbers[9])
    parts = read_flow_records(sample, width, numbers[-1])
    for name, value in parts.items():
        setattr(record, name, value)
    return record


def read_flow_records(sample, place, count):
    """The parts that the records of a sample give: the first packet, the first switch and the first router count."""
    packet, switch, router = None, None, None
    for _ in range(count):
        form, octets, place = read_block(sample, place, "record-cut")
        if len(octets) < SHORTEST.get(form, 0):
            raise Refused("record-cut")
        if form in (SAMPLED_HEADER, SAMPLED_IPV4, SAMPLED_IPV6):
            candidate = read_packet(form, octets)
            packet = candidate if packet is None else packet
        elif form == EXTENDED_SWITCH and switch is None:
            switch = {"vlan": number(octets, 0, 4)}
        elif form == EXTENDED_ROUTER:
            candidate = read_router(octets)
            router = candidate if router is None else router
    if packet is None:
        raise Unread(NOT_IP)
    if isinstance(packet, Unread):
        raise packet
    # The header's own VLAN wins over the switch's.
    return {**(switch or {}), **(router or {}), **packet}


def read_packet(form, octets):
    """The parts of a packet, or why its header gives none: that is told once all records were judged."""
    if form != SAMPLED_HEADER:
        return read_ip_form(octets, 4 if form == SAMPLED_IPV4 else 6)
    length = number(octets, 12, 4)
    if len(octets) < 16 + length:
        raise Refused("record-cut")
    try:
        return read_sampled_header(number(octets, 0, 4), octets[16:16 + length])
    except Unread as unread:
        return unread


def read_ip_form(octets, family):
    """The parts of a packet in the form of IPv4 or IPv6; TCP flags stand before the type of service."""
    width = 4 if family == 4 else 16
    ports = 8 + 2 * width
    return {
        "bytes": number(octets, 0, 4), "protocol": number(octets, 4, 4),
        "source_address": (family, number(octets, 8, width)),
        "destination_address": (family, number(octets, 8 + width, width)),
        "source_port": number(octets, ports, 4), "destination_port": number(octets, ports + 4, 4),
        "type_of_service": number(octets, ports + 12, 4)}


def read_router(octets):
    """The masks of an extended router record, behind the next hop. The next hop may be of no address."""
    address_type = number(octets, 0, 4)
    if address_type != 0 and address_type not in ADDRESS_WIDTHS:
        raise Refused("sflow-address")
    place = 4 + ADDRESS_WIDTHS.get(address_type, 0)
    if len(octets) < place + 8:
        raise Refused("record-cut")
    return {"source_mask": number(octets, place, 4), "destination_mask": number(octets, place + 4, 4)}
