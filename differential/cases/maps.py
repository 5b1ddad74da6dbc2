"""Maps, with and without faults: spellings of numbers, prefixes and labels, and rules that meet records."""

from ..model.maps import PRE_TAG, SAMPLING, VALUES
from .common import (CAPTURE, CONFIGURATION, EXPORTERS, PRE_TAG_MAP, SAMPLING_MAP, WORDS, Case, capture, configuration,
                     event, version_5)

PREFIXES = """192.0.2.1 192.0.2.0/24 192.0.2.2/31 0.0.0.0/0 0.0.0.0 10.0.0.0/8 10.0.0.2/31 10.0.1.5 10.0.0.255/24 ::/0
    2001:DB8::9 2001:db8::/32 ::ffff:c000:201 0:0:0:0:0:0:c000:201/128 ::C000:0/112""".split()
BAD_PREFIXES = [""] + """1.2.3 1.2.3.4.5 256.0.0.1 01.2.3.4 1..2.3 ::1.2.3.4 ::: 1::2::3 1:2:3:4:5:6:7 :1 1: ::/129 ::/
::%0 1:2:3:4:5:6:7:8:9 1:2:3:4::5:6:7:8 12345:: g:: 192.0.2.0/33 10.0.0.0/08 /8 1.2.3.4/8/8 10.0.0.0/+8 10.0.0.0/264
    1:2:3:4:5:6:7:: ::2:3:4:5:6:7:8 0::0""".split()
NUMBERS = "0 1 2 7 255 256 64512 65535 18446744073709551615".split()
BAD_NUMBERS = [""] + "00 01 +1 -1 a 1.0 4294967295 4294967296 18446744073709551616 99999999999999999999999".split()
LABELS = ["a", "Z9", "x" * 64, "it's", "~", "!", "#", "a:b", "{}/;|"]
BAD_LABELS = ["", "x" * 65, "a,b", 'a"b', "a=b", "a\\b", "=", "a\x7f", "\xe9"]
STRANGE_LINES = ["", " \t", "! c", "#x=\x80", "  ! x", "in", "in =1", "what=1", "set_tag=1 #c", "\x00",
                 "jeq=1 set_tag=1", "=1"]


def value(random, key, chance):
    """A value of a key, which with some chance isn't one."""
    strange = random.random() < chance
    if key in ("ip", "src_net", "dst_net"):
        return random.choice(BAD_PREFIXES if strange else PREFIXES)
    if key == "set_label":
        return random.choice(BAD_LABELS if strange else LABELS)
    if key == "sampling_rate" and not strange:
        return random.choice(["1", "2", "1024", "4294967295"])
    return random.choice(BAD_NUMBERS if strange else NUMBERS)


def line(random, kind, chance):
    """A line of a map; each part of it is wrong with some chance."""
    if random.random() < chance / 4:
        return random.choice(STRANGE_LINES)
    keys = random.sample(list(VALUES[kind]), random.choice([0, 1, 1, 2, 3]))
    if random.random() >= chance:
        keys += ["ip", "sampling_rate"] if kind == SAMPLING else [random.choice(["set_tag", "set_tag2", "set_label"])]
    keys = list(dict.fromkeys(keys))
    if random.random() < chance / 2:
        keys.append(random.choice(["set_tag", "ip", "in", "sampling_rate", "IP", "bgp_ip"]))
    random.shuffle(keys)
    members = ["%s=%s" % (key, value(random, key, chance)) for key in keys]
    blank = random.choice([" ", "\t", "  ", " \t"])
    return random.choice(["", "", " "]) + blank.join(members) + random.choice(["", "", "\t"])


def one_value(random, kind):
    """The octets of a map of one line, in which one value alone is wrong, if any."""
    key = random.choice(["ip", "set_label" if kind == PRE_TAG else "sampling_rate", random.choice(list(VALUES[kind]))])
    members = {"ip": "::/0", "sampling_rate": "7"} if kind == SAMPLING else {"set_tag": "1"}
    members[key] = value(random, key, 0.9)
    return " ".join("%s=%s" % member for member in members.items()).encode("latin-1")


def map_text(random, kind, chance, most=6):
    """The octets of a map."""
    end = random.choice(["\n", "\n", "\r\n"])
    lines = [line(random, kind, chance) for _ in range(random.randrange(most + 1))]
    last = random.choice([end, end, "", "\r"]) if chance else ""
    return (end.join(lines) + last).encode("latin-1")


def make(random):
    """A case with both maps."""
    chance = random.choice([0, 0, 0.04, 0.1])
    columns = ["tag", "tag2", "label", "in_iface", "src_host", "dst_host", "peer_src_ip", "src_as", "flows"]
    lines = ["pre_tag_map: " + PRE_TAG_MAP] if random.random() < 0.9 else []
    lines += ["sampling_map: " + SAMPLING_MAP] if random.random() < 0.8 else []
    events = [event(0, random.choice(EXPORTERS), version_5(random)) for _ in range(random.choice([1, 3, 5]))]
    pre_tag = map_text(random, PRE_TAG, chance)
    if random.random() < 0.02:
        pre_tag = b"set_tag=1\n" * random.choice([4096, 4097])
    entries = {CONFIGURATION: configuration("nfacctd", random, columns, *lines), CAPTURE: capture(events),
               PRE_TAG_MAP: pre_tag,
               SAMPLING_MAP: map_text(random, SAMPLING, chance)}
    if random.random() < 0.5:
        kind, name = random.choice([(PRE_TAG, PRE_TAG_MAP), (SAMPLING, SAMPLING_MAP)])
        entries[name] = one_value(random, kind)
    return Case("nfacctd", WORDS, entries)
