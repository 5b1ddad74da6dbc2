"""The columns that records are added up by: a key is the values of those asked for, in the order of this table."""

from typing import Callable, NamedTuple

from .addresses import UNSPECIFIED, address_text, network

NO_MASK = 0


class Column(NamedTuple):
    """A column: its name in a configuration, its heading, its name in JSON, its width in characters, and its text."""

    name: str
    heading: str
    json_name: str
    width: int
    text_of: Callable
    value_of: Callable


def mac_text(value):
    """A MAC address as six pairs of hexadecimal digits."""
    return ":".join("%02x" % octet for octet in value.to_bytes(6, "big"))


def of_number(part):
    """The value of a number of a record, 0 where it lacks it."""
    return lambda record, tags, window: getattr(record, part) or 0


def of_address(part):
    """The value of an address of a record, 0.0.0.0 where it lacks it."""
    return lambda record, tags, window: getattr(record, part) or UNSPECIFIED


def of_network(address_part, mask_part):
    """An address with the bits past its mask 0; where the mask is lacking all are."""
    return lambda record, tags, window: network(getattr(record, address_part) or UNSPECIFIED,
                                                getattr(record, mask_part) or NO_MASK)


def of_tag(position):
    """A tag or the label."""
    return lambda record, tags, window: tags[position]


def of_nothing(value):
    """What only routes would tell: no number, no words."""
    return lambda record, tags, window: value


COLUMNS = [
    Column("tag", "TAG", "tag", 20, str, of_tag(0)),
    Column("tag2", "TAG2", "tag2", 20, str, of_tag(1)),
    Column("label", "LABEL", "label", 24, str, of_tag(2)),
    Column("acct_window", "WINDOW", "window", 20, str, lambda record, tags, window: window),
    Column("src_mac", "SRC_MAC", "mac_src", 17, mac_text, of_number("source_mac")),
    Column("dst_mac", "DST_MAC", "mac_dst", 17, mac_text, of_number("destination_mac")),
    Column("vlan", "VLAN", "vlan", 5, str, of_number("vlan")),
    Column("src_as", "SRC_AS", "as_src", 10, str, of_number("source_system")),
    Column("dst_as", "DST_AS", "as_dst", 10, str, of_number("destination_system")),
    Column("std_comm", "COMMS", "comms", 24, str, of_nothing("")),
    Column("as_path", "AS_PATH", "as_path", 24, str, of_nothing("")),
    Column("local_pref", "LOCAL_PREF", "local_pref", 10, str, of_nothing(0)),
    Column("med", "MED", "med", 10, str, of_nothing(0)),
    Column("peer_dst_as", "PEER_DST_AS", "peer_as_dst", 11, str, of_nothing(0)),
    Column("peer_src_ip", "PEER_SRC_IP", "peer_ip_src", 39, address_text, of_address("exporter")),
    Column("peer_dst_ip", "PEER_DST_IP", "peer_ip_dst", 39, address_text, of_address("next_hop")),
    Column("in_iface", "IN_IFACE", "iface_in", 10, str, of_number("input_interface")),
    Column("out_iface", "OUT_IFACE", "iface_out", 10, str, of_number("output_interface")),
    Column("src_host", "SRC_IP", "ip_src", 39, address_text, of_address("source_address")),
    Column("dst_host", "DST_IP", "ip_dst", 39, address_text, of_address("destination_address")),
    Column("src_net", "SRC_NET", "net_src", 39, address_text, of_network("source_address", "source_mask")),
    Column("dst_net", "DST_NET", "net_dst", 39, address_text, of_network("destination_address", "destination_mask")),
    Column("src_mask", "SRC_MASK", "mask_src", 8, str, of_number("source_mask")),
    Column("dst_mask", "DST_MASK", "mask_dst", 8, str, of_number("destination_mask")),
    Column("src_port", "SRC_PORT", "port_src", 8, str, of_number("source_port")),
    Column("dst_port", "DST_PORT", "port_dst", 8, str, of_number("destination_port")),
    Column("proto", "PROTOCOL", "ip_proto", 8, str, of_number("protocol")),
    Column("tos", "TOS", "tos", 3, str, of_number("type_of_service"))]

# Asked for among the columns, but no part of the key.
FLOWS = "flows"
NAMES = [column.name for column in COLUMNS] + [FLOWS]


def columns_of(asked):
    """The columns that are asked for, in their order."""
    return [column for column in COLUMNS if column.name in asked]


def key_of(columns, record, tags, window):
    """The key of a record, in the window whose first moment is given in milliseconds."""
    return tuple(column.value_of(record, tags, window) for column in columns)
