"""NetFlow version 9 and IPFIX: `make_sets` has faults everywhere and all elements; `make_rates` is a machine of states
over few ids, mostly well formed: templates replaced and withdrawn, rates learned, and refusals that are to teach
nothing."""

from ..model.columns import NAMES
from ..model.maps import PRE_TAG, SAMPLING
from ..model.netflow import NetflowDecoder
from ..model.octets import Refused
from ..model.sets import Known, decode_sets
from ..model.templates import ADDRESS_WIDTHS, IPFIX_NUMBERS, NUMBERS
from .common import (CAPTURE, CONFIGURATION, EXPORTERS, PRE_TAG_MAP, SAMPLING_MAP, WORDS, Case, capture, configuration,
                     event, long, octets, short, version_5)
from .maps import map_text

READ = sorted(NUMBERS | IPFIX_NUMBERS | set(ADDRESS_WIDTHS))
SKIPPED = [0, 3, 6, 15, 21, 22, 33, 35, 49, 51, 57, 59, 61, 82, 84, 87, 301, 303, 304, 307, 999, 0x7FFF]
# Sets for which a datagram is refused, whatever stood before them.
REFUSED_SETS = {
    9: [short(5, 3), short(256, 99), bytes(3), short(0, 8, 255, 1), short(0, 12, 257, 1, 1, 9),
        short(1, 10, 259, 1, 2)],
    10: [short(5, 3), short(256, 99), bytes(3), short(2, 8, 255, 1), short(3, 10, 259, 1, 2),
         short(2, 16, 256, 2, 82, 65535, 8, 4, 256, 9) + b"\xff\0\0\0\0"]}
TEACHING = [34, 34, 50, 305, 306, 302, 48]


class Machine:
    """Makes the datagrams of a few sources, and knows which templates are in force."""

    def __init__(self, random, faults):
        self.random = random
        # The chance that something is wrong, at each of many places.
        self.faults = faults
        self.decoder = NetflowDecoder()
        self.seen = {}
        self.exporters = random.sample(EXPORTERS, random.choice([1, 2, 3]))
        self.domains = random.sample([0, 1, 2**32 - 1], random.choice([1, 2]))
        self.versions = random.choice([[9], [10], [9, 10]])

    def fails(self):
        """Whether something is to be wrong here."""
        return self.random.random() < self.faults

    def field(self, version, is_options, few):
        """A field specifier: of any element, or of the few that rates are about."""
        random = self.random
        element = random.choice([random.choice(READ), random.choice(READ), random.choice(SKIPPED)])
        if is_options and random.random() < 0.8:
            element = random.choice(TEACHING)
        elif few:
            element = random.choice([10, 14, 2, 1, 24, 23, 48, 48, 302, 302, 34, 82])
        width = ADDRESS_WIDTHS.get(element, random.choice([1, 1, 2, 4, 8, 3, 5, 7]))
        if element in SKIPPED and version == 10 and random.random() < 0.5:
            width = 65535
        if self.fails():
            width = random.choice([0, 4, 6, 8, 9, 16, 17, 65535])
        if version == 10 and random.random() < 0.06:
            return short(element | 0x8000, random.choice([width, 0, 65535])) + long(9)
        return short(element, width)

    def template(self, version, is_options, few):
        """A template record, or a withdrawal."""
        random = self.random
        template_id = random.choice([0, 2, 3, 255] if self.fails() else [256, 257, 258, 259])
        if version == 10 and random.random() < 0.18:
            return short(random.choice([template_id, 3 if is_options else 2, 2 if self.fails() else template_id]), 0)
        count = random.choice([1, 2, 3, 4, 6] if few else [1, 1, 2, 4, 9, 14])
        fields = b"".join(self.field(version, is_options, few) for _ in range(count))
        scopes = random.randrange(version == 10, count + 1)
        told = random.choice([0, count + 1, count - 1, 65535]) if self.fails() else count
        if not is_options:
            return short(template_id, told) + fields
        if version == 10:
            return short(template_id, told, random.choice([0, told + 1]) if self.fails() else scopes) + fields
        scopes = min(scopes, random.choice([0, 1, count]))
        lengths = [4 * scopes, 4 * (count - scopes)]
        if self.fails():
            lengths = random.choice([[0, 0], [2, 2], [lengths[0] + 1, lengths[1]],
                                     [lengths[0], lengths[1] + 2], [lengths[0], lengths[1] + 4], [65532, 0]])
        return short(template_id, *lengths) + fields

    def record(self, template, few):
        """A data record of a template."""
        random, made = self.random, b""
        for field in template.fields:
            if field.width is None:
                length = random.choice([0, 1, 2, 254, 255, 256] if self.fails() else [0, 1, 3])
                in_one_octet = length < 255 and random.random() < 0.7
                made += (bytes([length]) if in_one_octet else b"\xff" + short(length)) + bytes(length)
            elif few and field.element in (48, 302, 10, 14, 305):
                made += random.choice([0, 1, 1, 2]).to_bytes(field.width, "big")
            else:
                values = [0, 1, 3, 7, 24, 33, 128, 255, 2**16 - 1, 2**32 - 1, 2**32, 2**64 - 1, 0x20010DB8 << 96 | 1,
                          0x00010002000300000005000600070008, 0x00010000000000040005000000000008, 1 << 112 | 1]
                value = random.choice(values + [random.getrandbits(8 * field.width + 1)])
                made += (value % 256**field.width).to_bytes(field.width, "big")
        return made[:20000]

    def one_set(self, known, source, few):
        """A set: templates, options templates, data of a template in force, or what has none."""
        random, version = self.random, source[1]
        chance = random.random()
        live = {key[1]: template for key, template in known.templates.items() if key[0] == source}
        seen = self.seen.setdefault(source, {})
        seen.update(live)
        # Data come at times of a template that isn't in force any more.
        live = list((live if random.random() < 0.85 else seen).items())
        if chance < 0.4 or not live:
            is_options = random.random() < 0.45
            body = b"".join(self.template(version, is_options, few) for _ in range(random.choice([1, 1, 2])))
            set_id = (0 if version == 9 else 2) + is_options
        elif chance < 0.46:
            set_id, body = random.choice([0, 1, 2, 3, 4, 128, 255, 256, 300]), bytes(random.randrange(4))
        else:
            options = [pair for pair in live if pair[1].is_options]
            set_id, template = random.choice(options if options and random.random() < 0.5 else live)
            body = b"".join(self.record(template, few) for _ in range(random.choice([1, 1, 2, 3])))
            body = body[:random.randrange(len(body) + 1)] if self.fails() else body
        body += bytes(random.choice([0, 0, 0, 1, 3]))
        length = random.choice([0, 3, 4, len(body) + 3, len(body) + 5, 65535]) if self.fails() else len(body) + 4
        return short(set_id, length) + body

    def datagram(self, few):
        """A datagram of one source, and its exporter."""
        random = self.random
        source = random.choice(self.exporters), random.choice(self.versions), random.choice(self.domains)
        exporter, version, domain = source
        sets, known = [], Known(self.decoder.known.templates, {})
        for _ in range(random.choice([1, 1, 2, 3, 4, 6])):
            sets.append(self.one_set(known, source, few))
            try:
                decode_sets(known, exporter, version, header(version, domain, len(sets[-1])) + sets[-1])
            except Refused:
                pass
        if few and random.random() < 0.2:
            sets.append(random.choice(REFUSED_SETS[version]))
        body = b"".join(sets)[:60000]
        wrong = random.choice([-1, 1, -4, -len(body)]) if self.fails() else 0
        whole = header(version, domain, len(body) + wrong) + body
        if self.fails():
            place = random.randrange(len(whole))
            whole = whole[:place] + octets(random, random.randrange(2)) + whole[place + random.randrange(3):]
        if version == 10 and random.random() < 0.1:
            whole += octets(random, random.randrange(9))
        return exporter, whole


def header(version, domain, length):
    """The header of a datagram whose sets have a length in octets."""
    return short(9, 1) + bytes(12) + long(domain) if version == 9 else short(10, 16 + length) + bytes(8) + long(domain)


def events(random, machine, few):
    """Events of a machine, with some of version 5 between."""
    for _ in range(random.choice([3, 8, 20, 40])):
        exporter, datagram = machine.datagram(few)
        if random.random() < 0.05:
            datagram = version_5(random, 1)
        try:
            machine.decoder.decode(exporter, datagram)
        except Refused:
            pass
        yield event(random.choice([0, 1000, 60000]), exporter, datagram)


def case(random, machine, few, columns):
    """A case of a machine, perhaps with maps."""
    lines, entries = [], {CAPTURE: capture(events(random, machine, few))}
    for kind, name in ((PRE_TAG, PRE_TAG_MAP), (SAMPLING, SAMPLING_MAP)):
        if random.random() < 0.3:
            lines.append("%s: %s" % (kind, name))
            entries[name] = map_text(random, kind, 0)
    entries[CONFIGURATION] = configuration("nfacctd", random, columns, *lines)
    return Case("nfacctd", WORDS, entries)


def make_sets(random):
    """All elements and columns, and faults."""
    return case(random, Machine(random, random.choice([0, 0.005, 0.02, 0.1])), False, NAMES)


def make_rates(random):
    """Rates, samplers and withdrawals."""
    columns = ["peer_src_ip", "in_iface", "out_iface", "flows"]
    return case(random, Machine(random, random.choice([0, 0, 0.005])), True, columns)
