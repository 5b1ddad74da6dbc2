"""Templates and options templates: NetFlow version 9 (RFC 3954, sections 5.2 and 6.1) and IPFIX (RFC 7011, sections
3.4.1 and 3.4.2)."""

from typing import List, NamedTuple, Optional

from .octets import Refused, number

NETFLOW_9 = 9
IPFIX = 10

# The ids of the sets that hold them (RFC 3954, sections 5.2 and 6.1; RFC 7011, section 3.3.2).
TEMPLATE_SET = {NETFLOW_9: 0, IPFIX: 2}
OPTIONS_TEMPLATE_SET = {NETFLOW_9: 1, IPFIX: 3}

# A width that says that each record tells its own (RFC 7011, section 7).
VARIABLE = 65535

# Numbers may be shorter than they are in the registry (RFC 7011, section 6.2).
NUMBERS = {1, 2, 4, 5, 7, 9, 10, 11, 13, 14, 16, 17, 23, 24, 29, 30, 34, 48, 50, 58}
IPFIX_NUMBERS = {85, 86, 302, 305, 306}
ADDRESS_WIDTHS = {8: 4, 12: 4, 18: 4, 27: 16, 28: 16, 63: 16, 56: 6, 80: 6}

ALL = "all"


class Field(NamedTuple):
    """A field of a template: its element, None if skipped, and its width in octets, None if variable."""

    element: Optional[int]
    width: Optional[int]


class Template(NamedTuple):
    """The fields of records, and whether they are options records."""

    is_options: bool
    fields: List[Field]

    def shortest_record(self):
        """The octets of the shortest record; a variable field has at least the octet of its length."""
        return sum(1 if field.width is None else field.width for field in self.fields)


def is_read(version, element):
    """Whether something is read of an element in this version."""
    return element in NUMBERS or element in ADDRESS_WIDTHS or (version == IPFIX and element in IPFIX_NUMBERS)


def fits(element, width):
    """Whether an element that is read may have a width."""
    if element in ADDRESS_WIDTHS:
        return width == ADDRESS_WIDTHS[element]
    return width is not None and 1 <= width <= 8


def template_changes(body, version, is_options):
    """What the records of a set teach, in order: pairs of an id, or ALL of the set's kind, and a template, or None
    where it is withdrawn (RFC 7011, section 8.1)."""
    place = 0
    set_id = (OPTIONS_TEMPLATE_SET if is_options else TEMPLATE_SET)[version]
    # What is shorter than the head of a record is padding.
    while len(body) - place >= 4:
        template_id = number(body, place, 2)
        withdraws = version == IPFIX and number(body, place + 2, 2) == 0
        if withdraws and template_id == set_id:
            yield ALL, None
            place += 4
        elif template_id < 256:
            raise Refused("template-id")
        elif withdraws:
            yield template_id, None
            place += 4
        else:
            template, place = read_template(body, place, version, is_options)
            yield template_id, template


def read_template(body, place, version, is_options):
    """The template whose record begins at a place, and the place behind it."""
    skipped, count, place = read_counts(body, place, version, is_options)
    fields = []
    for position in range(count):
        field, place = read_field(body, place, version)
        fields.append(Field(None, field.width) if position < skipped else field)
    if any(field.element is not None and not fits(field.element, field.width) for field in fields):
        raise Refused("field-width")
    template = Template(is_options, fields)
    if template.shortest_record() == 0:
        raise Refused("template-empty")
    return template, place


def read_counts(body, place, version, is_options):
    """The number of fields skipped as scopes of version 9, the number of all fields, and the place of the first."""
    if not is_options:
        return 0, number(body, place + 2, 2), place + 4
    if len(body) - place < 6:
        raise Refused("template-cut")
    first, second = number(body, place + 2, 2), number(body, place + 4, 2)
    if version == IPFIX:
        # Scopes are fields as all others there: the first ones, at least one.
        if not 1 <= second <= first:
            raise Refused("scope-count")
        return 0, first, place + 6
    # Version 9 counts the octets of scopes and of options, four a field.
    if first == 0 and second == 0:
        raise Refused("template-empty")
    if first % 4 or second % 4:
        raise Refused("template-cut")
    return first // 4, (first + second) // 4, place + 6


def read_field(body, place, version):
    """The field specifier at a place, and the place behind it (RFC 7011, section 3.2)."""
    of_enterprise = version == IPFIX and number(body, place, 2) >= 0x8000
    end = place + (8 if of_enterprise else 4)
    if end > len(body):
        raise Refused("template-cut")
    element, width = number(body, place, 2), number(body, place + 2, 2)
    if version == IPFIX and width == VARIABLE:
        width = None
    known = not of_enterprise and is_read(version, element)
    return Field(element if known else None, width), end
