"""Maps: lines of conditions and actions. A rule is a dictionary of its members' values."""

import re

from .addresses import UNSPECIFIED, covers, read_prefix
from .octets import BadLine, decimal, is_text, lines_of

LONGEST_TEXT = 1048576
MOST_RULES = 4096
MOST = 2**64 - 1
ACTIONS = ("set_tag", "set_tag2", "set_label")
PRE_TAG, SAMPLING = "pre_tag_map", "sampling_map"


def read_number(text):
    """A number of 64 bits, or None."""
    return decimal(text, 0, MOST)


def read_rate(text):
    """A sampling rate, or None."""
    return decimal(text, 1, 2**32 - 1)


def read_label(text):
    """A label: 1 to 64 printable characters but comma, quote, equals sign and backslash, or None."""
    return text if re.fullmatch(r'[!-~]{1,64}', text) and not re.search(r'[,"=\\]', text) else None


VALUES = {
    PRE_TAG: {
        "ip": read_prefix, "in": read_number, "out": read_number, "source_id": read_number, "src_as": read_number,
        "dst_as": read_number, "src_net": read_prefix, "dst_net": read_prefix, "set_tag": read_number,
        "set_tag2": read_number, "set_label": read_label},
    SAMPLING: {"ip": read_prefix, "sampling_rate": read_rate, "in": read_number, "out": read_number}}


def read_map(kind, octets):
    """The rules of a map, in order."""
    if len(octets) > LONGEST_TEXT:
        raise BadLine(0, "too-long")
    rules = []
    for position, line in lines_of(octets):
        rule, cause = read_rule(kind, line)
        if cause is None and len(rules) == MOST_RULES:
            cause = "too-many-rules"
        if cause is not None:
            raise BadLine(position, cause)
        rules.append(rule)
    return rules


def read_rule(kind, line):
    """The rule of a line and None, or None and the line's first cause."""
    if not is_text(line):
        return None, "not-text"
    members = [member.partition("=") for member in re.split("[ \t]+", line) if member]
    keys = [key for key, _, _ in members]
    if any(not sign for _, sign, _ in members):
        return None, "no-equals"
    if any(key not in VALUES[kind] for key in keys):
        return None, "unknown-key"
    if len(set(keys)) < len(keys):
        return None, "repeated"
    rule = {key: VALUES[kind][key](value) for key, _, value in members}
    if None in rule.values():
        return None, "bad-value"
    if kind == SAMPLING and not ("ip" in rule and "sampling_rate" in rule):
        return None, "missing-key"
    if kind == PRE_TAG and not any(action in rule for action in ACTIONS):
        return None, "no-action"
    return rule, None


def tags_of(rules, record):
    """The two tags and the label that the first rule gives whose conditions all hold."""
    for rule in rules:
        if all(holds(key, value, record) for key, value in rule.items() if key not in ACTIONS):
            return rule.get("set_tag", 0), rule.get("set_tag2", 0), rule.get("set_label", "")
    return 0, 0, ""


def holds(key, value, record):
    """Whether a condition holds of a record; what the record lacks is compared as 0."""
    prefixes = {"ip": record.exporter, "src_net": record.source_address, "dst_net": record.destination_address}
    if key in prefixes:
        return covers(value, prefixes[key] or UNSPECIFIED)
    numbers = {"in": record.input_interface, "out": record.output_interface, "source_id": record.source_id,
               "src_as": record.source_system, "dst_as": record.destination_system}
    return value == (numbers[key] or 0)
