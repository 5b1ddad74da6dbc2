"""Headers of sampled packets: Ethernet with VLAN tags (IEEE 802.1Q), IPv4 (RFC 791), IPv6 (RFC 8200), and ports."""

from .octets import number

HEADER_CUT = "header-cut"
NOT_IP = "not-ip"

# Header protocols of the sFlow version 5 specification.
ETHERNET, IPV4, IPV6 = 1, 11, 12
ETHERTYPES = {0x0800: IPV4, 0x86DD: IPV6}
VLAN_TAGS = (0x8100, 0x88A8)
# TCP, UDP and SCTP begin with the two ports.
WITH_PORTS = (6, 17, 132)


class Unread(Exception):
    """A header that gives no record; its only argument is the notice."""


def read_sampled_header(protocol, octets):
    """The parts of a record, by their names, that a header gives."""
    if protocol not in (ETHERNET, IPV4, IPV6):
        raise Unread(NOT_IP)
    parts, place = {}, 0
    if protocol == ETHERNET:
        parts, protocol, place = read_ethernet(octets)
    packet = octets[place:]
    parts.update(read_ipv4(packet) if protocol == IPV4 else read_ipv6(packet))
    return parts


def read_ethernet(octets):
    """MAC addresses and the VLAN of the first tag, the protocol behind them, and its place."""
    if len(octets) < 14:
        raise Unread(HEADER_CUT)
    parts = {"destination_mac": number(octets, 0, 6), "source_mac": number(octets, 6, 6)}
    place = 12
    tags = 0
    while number(octets, place, 2) in VLAN_TAGS and tags < 2:
        if len(octets) < place + 6:
            raise Unread(HEADER_CUT)
        # The low 12 bits of a tag are its VLAN.
        parts.setdefault("vlan", number(octets, place + 2, 2) & 0xFFF)
        place += 4
        tags += 1
    ethertype = number(octets, place, 2)
    if ethertype not in ETHERTYPES:
        raise Unread(NOT_IP)
    return parts, ETHERTYPES[ethertype], place + 2


def read_ipv4(packet):
    """The parts of an IPv4 header (RFC 791, section 3.1); a fragment behind the first has no ports."""
    if len(packet) < 20:
        raise Unread(HEADER_CUT)
    words = packet[0] & 15
    if packet[0] >> 4 != 4 or words < 5:
        raise Unread(NOT_IP)
    is_first_fragment = number(packet, 6, 2) & 0x1FFF == 0
    parts = {
        "type_of_service": packet[1], "bytes": number(packet, 2, 2), "protocol": packet[9],
        "source_address": (4, number(packet, 12, 4)), "destination_address": (4, number(packet, 16, 4))}
    parts.update(read_ports(packet, 4 * words, is_first_fragment and packet[9] in WITH_PORTS))
    return parts


def read_ipv6(packet):
    """The parts of an IPv6 header (RFC 8200, section 3). Its length doesn't count its own 40 octets."""
    if len(packet) < 40:
        raise Unread(HEADER_CUT)
    if packet[0] >> 4 != 6:
        raise Unread(NOT_IP)
    parts = {
        "type_of_service": number(packet, 0, 2) >> 4 & 255, "bytes": number(packet, 4, 2) + 40, "protocol": packet[6],
        "source_address": (6, number(packet, 8, 16)), "destination_address": (6, number(packet, 24, 16))}
    parts.update(read_ports(packet, 40, packet[6] in WITH_PORTS))
    return parts


def read_ports(packet, place, are_there):
    """The ports behind an IP header; they are 0 where there are none, or they are cut off."""
    whole = are_there and len(packet) >= place + 4
    return {"source_port": number(packet, place, 2) if whole else 0,
            "destination_port": number(packet, place + 2, 2) if whole else 0}
