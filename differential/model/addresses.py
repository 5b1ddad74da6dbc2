"""Addresses are pairs of a family, 4 or 6, and a number, which sort as keys do: IPv4 before IPv6, then by number. A
prefix is a pair of an address and a length in bits."""

import re

from .octets import decimal

UNSPECIFIED = (4, 0)


def bits_of(family):
    """The number of bits of an address."""
    return 32 if family == 4 else 128


def read_address(text):
    """The address that a text spells, or None. An IPv6 address has no dotted tail."""
    return read_version_4(text) if "." in text else read_version_6(text)


def read_version_4(text):
    """The IPv4 address that four decimal numbers spell, or None."""
    numbers = [decimal(part, 0, 255) for part in text.split(".")]
    if len(numbers) != 4 or None in numbers:
        return None
    return 4, int.from_bytes(bytes(numbers), "big")


def read_version_6(text):
    """The IPv6 address that groups of hexadecimal digits spell, or None (RFC 4291, section 2.2, forms 1 and 2)."""
    halves = text.split("::")
    groups = [half.split(":") if half else [] for half in halves]
    count = sum(len(half) for half in groups)
    if len(halves) > 2 or (count != 8 if len(halves) == 1 else count > 7):
        return None
    if not all(re.fullmatch("[0-9A-Fa-f]{1,4}", group) for half in groups for group in half):
        return None
    if len(halves) == 2:
        groups.insert(1, ["0"] * (8 - count))
    value = 0
    for half in groups:
        for group in half:
            value = value * 65536 + int(group, 16)
    return 6, value


def read_prefix(text):
    """The prefix that a text spells, or None; an address alone is a prefix of full length."""
    address_part, slash, length_part = text.partition("/")
    address = read_address(address_part)
    if address is None:
        return None
    full = bits_of(address[0])
    length = decimal(length_part, 0, full) if slash else full
    return None if length is None else (address, length)


def network(address, mask):
    """The address with its bits past the mask 0; a mask above its bits clears none."""
    family, value = address
    cleared = max(bits_of(family) - mask, 0)
    return family, value >> cleared << cleared


def covers(prefix, address):
    """Whether an address lies in a prefix of its own family."""
    base, length = prefix
    return base[0] == address[0] and network(base, length) == network(address, length)


def address_text(address):
    """The text of an address, IPv6 as RFC 5952, sections 4.1 to 4.3, says."""
    family, value = address
    if family == 4:
        return ".".join(str(octet) for octet in value.to_bytes(4, "big"))
    groups = [value >> shift & 65535 for shift in range(112, -1, -16)]
    start, length = longest_zeros(groups)
    texts = ["%x" % group for group in groups]
    if length < 2:
        return ":".join(texts)
    return ":".join(texts[:start]) + "::" + ":".join(texts[start + length:])


def longest_zeros(groups):
    """Start and length of the first longest run of groups that are 0."""
    best_start, best_length, length = 0, 0, 0
    for position, group in enumerate(groups):
        length = length + 1 if group == 0 else 0
        if length > best_length:
            best_start, best_length = position - length + 1, length
    return best_start, best_length
