"""The sets of NetFlow version 9 (RFC 3954) and of IPFIX (RFC 7011), which are read alike."""

from .octets import Refused, number
from .rates import learned_rate, sampler_of, taught_rate
from .records import Record
from .templates import ALL, IPFIX, OPTIONS_TEMPLATE_SET, TEMPLATE_SET, template_changes

# Which elements give a part of a record: the first of them that is there.
PARTS = {
    "packets": (2, 86, 24), "bytes": (1, 85, 23),
    "protocol": (4,), "type_of_service": (5,), "source_port": (7,), "destination_port": (11,),
    "source_mask": (9, 29), "destination_mask": (13, 30), "input_interface": (10,), "output_interface": (14,),
    "source_system": (16,), "destination_system": (17,), "source_mac": (56,), "destination_mac": (80,),
    "vlan": (58,), "own_rate": (34,)}
ADDRESSES = {"source_address": (8, 27), "destination_address": (12, 28), "next_hop": (18, 63)}


class Known:
    """What datagrams taught. A source is an exporter, a version and a source id or observation domain."""

    def __init__(self, templates=None, rates=None):
        self.templates = dict(templates or {})
        self.rates = dict(rates or {})

    def copy(self):
        """The same, to be changed apart."""
        return Known(self.templates, self.rates)

    def change(self, source, is_options, template_id, template):
        """One template is defined or withdrawn, or all of one kind are withdrawn."""
        if template is not None:
            self.templates[source, template_id] = template
        elif template_id == ALL:
            self.templates = {key: kept for key, kept in self.templates.items()
                              if key[0] != source or kept.is_options != is_options}
        else:
            self.templates.pop((source, template_id), None)


def decode_sets(known, exporter, version, octets):
    """Records and notices of a datagram whose header is whole (RFC 3954, section 5.1; RFC 7011, section 3.1)."""
    end = len(octets)
    if version == IPFIX:
        end = number(octets, 2, 2)
        if not 16 <= end <= len(octets):
            raise Refused("ipfix-length")
    place = 16 if version == IPFIX else 20
    source = exporter, version, number(octets, place - 4, 4)
    records, notices, position = [], [], 0
    while place < end:
        position += 1
        length = number(octets, place + 2, 2)
        if end - place < 4 or length < 4 or length > end - place:
            raise Refused("set-length")
        notice = decode_set(known, source, number(octets, place, 2), octets[place + 4:place + length], records)
        if notice is not None:
            notices.append((position, notice))
        place += length
    return records, notices


def decode_set(known, source, set_id, body, records):
    """Learns from one set, or adds its records to the list; the answer is its notice, or None."""
    version = source[1]
    is_options = set_id == OPTIONS_TEMPLATE_SET[version]
    if is_options or set_id == TEMPLATE_SET[version]:
        for template_id, template in template_changes(body, version, is_options):
            known.change(source, is_options, template_id, template)
    elif set_id < 256:
        return "reserved-set %d" % set_id
    elif (source, set_id) not in known.templates:
        return "no-template %d" % set_id
    else:
        template = known.templates[source, set_id]
        for elements in data_records(template, body):
            if template.is_options:
                learn_rate(known, source, elements)
            else:
                records.append(flow_record(known, source, elements))
    return None


def data_records(template, body):
    """The elements of each record of a data set (RFC 3954, section 5.3; RFC 7011, section 3.4.3)."""
    place = 0
    # What is shorter than the shortest record is padding.
    while len(body) - place >= template.shortest_record():
        elements = {}
        for field in template.fields:
            width = field.width
            if width is None:
                width, place = variable_width(body, place)
            if place + width > len(body):
                raise Refused("var-cut")
            if field.element is not None:
                # Of an element that comes twice the first counts.
                elements.setdefault(field.element, number(body, place, width))
            place += width
        yield elements


def variable_width(body, place):
    """The length of a variable field, in one octet or, behind 255, in two, and the next place (RFC 7011, section 7)."""
    if place + 1 > len(body):
        raise Refused("var-cut")
    if body[place] < 255:
        return body[place], place + 1
    if place + 3 > len(body):
        raise Refused("var-cut")
    return number(body, place + 1, 2), place + 3


def learn_rate(known, source, elements):
    """An options record teaches a rate to the records behind it."""
    rate = taught_rate(elements)
    if rate is not None:
        known.rates[source, sampler_of(elements)] = rate


def flow_record(known, source, elements):
    """The record of the elements of a data record, with the rate that its source taught before."""
    record = Record(exporter=source[0], source_id=source[2])
    for part, candidates in PARTS.items():
        for element in candidates:
            if element in elements:
                setattr(record, part, elements[element])
                break
    for part, (version_4, version_6) in ADDRESSES.items():
        if version_4 in elements:
            setattr(record, part, (4, elements[version_4]))
        elif version_6 in elements:
            setattr(record, part, (6, elements[version_6]))
    record.learned_rate = learned_rate(known.rates, source, sampler_of(elements))
    return record
