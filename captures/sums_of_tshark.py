#!/usr/bin/env python3
"""Sums what tshark reads in a packet capture of exports, so that a collector can be compared with another decoder.

    tshark -r EXPORTS.pcap -V | sums_of_tshark.py [MORE.csv] > NAME.csv

writes a line for each different source, destination, both ports and protocol, in order, with the sums of packets, flows and octets,
those of the lines in MORE.csv among them. A field that tshark doesn't show counts as 0. Flows of NetFlow and IPFIX are told by their
own fields, and those of sFlow by the packet that was sampled, which counts once, with the length of its IP packet.
"""

import ipaddress
import re
import sys

HEADER = "SRC_IP,DST_IP,SRC_PORT,DST_PORT,PROTOCOL,PACKETS,FLOWS,BYTES"
# A flow begins at one of these lines, and ends where a line stands no deeper.
BEGINNING = re.compile(r"pdu \d+/\d+$|Flow \d+$|Flow sample, seq \d+$")
FIELDS = {
    "SrcAddr": "source", "Source Address": "source", "DstAddr": "destination", "Destination Address": "destination",
    "SrcPort": "source_port", "Source Port": "source_port", "DstPort": "destination_port",
    "Destination Port": "destination_port", "Protocol": "protocol", "Packets": "packets", "Octets": "octets",
    "Total Length": "octets"}


def number(value):
    """The number of a value, which is in parentheses where tshark has a name for it."""
    return int(re.search(r"\((\d+)\)$", value).group(1) if value.endswith(")") else value)


def flows(lines):
    """The fields of each flow."""
    fields, depth = None, 0
    for line in lines:
        text = line.strip()
        here = len(line) - len(line.lstrip())
        if fields is not None and text and here <= depth:
            yield fields
            fields = None
        if BEGINNING.match(text):
            fields, depth = {}, here
        elif fields is not None:
            name, colon, value = text.partition(": ")
            if colon and name in FIELDS:
                fields.setdefault(FIELDS[name], value)
    if fields is not None:
        yield fields


def row_of(fields):
    """The row of a flow: its addresses, its three numbers, and its packets, flows and octets."""
    numbers = [number(fields.get(name, "0")) for name in ("source_port", "destination_port", "protocol")]
    counts = [number(fields.get("packets", "1")), 1, number(fields["octets"])]
    return [fields["source"], fields["destination"]] + numbers + counts


def key_of(row):
    """What a row is counted under; addresses of version 4 come before those of version 6."""
    addresses = [ipaddress.ip_address(text) for text in row[:2]]
    return [(address.version, address) for address in addresses] + [int(number) for number in row[2:5]]


def main():
    """Reads tshark's text, and the rows in the files that are named, and writes the sums."""
    # What an exporter tells of itself has no source.
    rows = [row_of(fields) for fields in flows(sys.stdin) if "source" in fields]
    for name in sys.argv[1:]:
        with open(name, encoding="ascii") as more:
            rows += [line.strip().split(",") for line in more]
    sums = {}
    for row in rows:
        key = tuple(map(str, row[:5]))
        sums[key] = [had + int(count) for had, count in zip(sums.get(key, [0, 0, 0]), row[5:])]
    print(HEADER)
    for key in sorted(sums, key=key_of):
        print(",".join(list(key) + list(map(str, sums[key]))))


if __name__ == "__main__":
    main()
