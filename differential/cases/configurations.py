"""Configurations with faults: wrong keys, names, values and lines, files that aren't there, and strange words."""

from ..model.columns import NAMES
from ..model.places import FOLDER, FULL
from ..model.values import ONCE, OF_PLUGINS, PASSED_OVER
from .common import CAPTURE, CONFIGURATION, EXPORTERS, PRE_TAG_MAP, SAMPLING_MAP, WORDS, Case, capture, event, version_5

PORT = ("1 65535", "0 65536 01")
TRUTH = ("true false", "True 1 yes")
FILE = ("audit.txt x " + "n" * 255, "n" * 256)
# Values that a key takes, and values that it doesn't, about its limits.
VALUES = {
    "aggregate": ("flows tag,flows src_host,src_host", "src_host, SRC_HOST none"),
    "print_output": ("formatted csv json", "avro CSV"), "print_output_file_append": ("true", "false True"),
    "print_output_file": ("o0 o1 audit.txt", "n" * 256), "acct_memory_file": ("o0 o1 audit.txt", "n" * 256),
    "print_refresh_time": ("1 86400", "0 86401 01"), "acct_cache_entries": ("1 65536", "0 65537"),
    "acct_ring_records": ("1 65536", "0 65537"), "acct_ring_wait": TRUTH, "acct_threads": TRUTH,
    "nfacctd_port": PORT, "sfacctd_port": PORT, "bgp_daemon_port": PORT, "bmp_daemon_port": PORT,
    "nfacctd_renormalize": TRUTH, "sfacctd_renormalize": TRUTH,
    "bgp_daemon": ("false", "True"), "bmp_daemon": ("false", "1"),
    "nfacctd_as": ("netflow", "longest file sflow"), "sfacctd_as": ("sflow", "longest file netflow"),
    "pre_tag_map": (PRE_TAG_MAP, "n" * 256), "sampling_map": (SAMPLING_MAP, "n" * 256),
    "acct_audit_file": FILE, "acct_dump_file": FILE, "acct_bgp_hold": ("0 3 65535", "1 2 65536 00"),
    "acct_replay_lag": ("0 4294967295", "-1 4294967296"), "acct_stop_after": ("1 4294967295", "0 4294967296"),
    "acct_bgp_id": ("0.0.0.1 255.255.255.255", "0.0.0.0 256.0.0.1 01.2.3.4 ::1 1.2.3")}
BAD_PLUGINS = [
    "kafka[p]", "sqlite3, foo", "print[p],print[p]", "print[p],", "print[]", "print[a b]", "print[%s]" % ("x" * 33),
    "[p]", "print [p]", "Print", ",".join("memory[m%d]" % number for number in range(9)), "foo, tee", "print[p][q]", "",
    "memory, memory[memory]"]
STRANGE = ["", "a:b", "x y", ",", "#", "\x7f", "9" * 50]
WHOLE_LINES = ["%s: %s" % (key, value) for key, values in {
    "bgp_daemon": "true", "bmp_daemon": "true", "acct_route_capture": "routes.cap flows.cap", "nfacctd_as": "bgp",
    "sfacctd_as": "bmp", "bgp_agent_map": "missing", "pre_tag_map": "missing bad.map folder o0",
    "sampling_map": "bad.map", "acct_audit_file": "o0 c.conf missing/a folder/a folder", "plugins[p]": "print kafka",
    "acct_flow_capture": "o0 missing folder full", "aggregate[zz]": "none proto",
    "print_output[zz]": "avro"}.items() for value in values.split()]
WORD_LISTS = [line.split(" ") for line in (
    "-fc.conf;-f=c.conf;-f -;-f-;-f;-f==x;-f -x;-- -f c.conf;-f c.conf --;-f c.conf ;-f c.conf x;-f= x;-f=;-f ;-f --;"
    "-f c.conf -f c.conf;-f=missing;-f folder;-f \xff;-f \xc3\xa9;-f ./c.conf;-f c.conf/;-ff;--generate 3;-h;--help;"
    "--generate=3 -f c.conf;-f c.conf --generate 3;c.conf;--f c.conf;-f c.conf -x").split(";")]


def value(random, key, good):
    """A value that a key takes, or one that it doesn't."""
    if key == "plugins" and not good:
        return random.choice(BAD_PLUGINS)
    return random.choice(VALUES[key][not good].split() if key in VALUES else STRANGE)


def insert(random, lines, line, chance=1.0):
    """Puts a line somewhere, with some chance in place of the one that has its key and name."""
    left = line.partition(":")[0]
    if random.random() < chance:
        lines[:] = [other for other in lines if other.partition(":")[0].strip() != left.strip()]
    lines.insert(random.randrange(len(lines) + 1), line)


def good_lines(random):
    """The lines of a configuration without a cause."""
    names = random.sample(["p", "q", "all", "a-b_C9", "x" * 32, "n1", "n2", "n3"], random.choice([1, 2, 3, 8]))
    kinds = [random.choice(["print", "memory"]) for _ in names]
    lines = ["plugins: " + ", ".join("%s[%s]" % pair for pair in zip(kinds, names)), "print_output_file_append: true",
             "acct_flow_capture: " + CAPTURE]
    for number, (kind, name) in enumerate(zip(kinds, names)):
        lines.append("%s[%s]: o%d" % ("print_output_file" if kind == "print" else "acct_memory_file", name, number))
        if random.random() < 0.5:
            lines.append("aggregate[%s]: %s" % (name, " ,\t".join(random.sample(NAMES, random.choice([1, 2, 5])))))
        if random.random() < 0.5:
            lines.append("print_output[%s] : %s" % (name, random.choice(["csv", "json", "formatted"])))
    for more in ("pre_tag_map: " + PRE_TAG_MAP, "sampling_map: " + SAMPLING_MAP, "aggregate: proto",
                 "print_refresh_time: 1", "debug[zz]: x:",
                 "acct_audit_file: a.txt", " ! c\x00", "\t#:", ""):
        if random.random() < 0.2:
            lines.append(more)
    for key in random.sample(list(VALUES), 8):
        if not key.endswith(("_file", "_map")):
            insert(random, lines, key + ": " + value(random, key, True))
    return lines


def spoil(random, lines):
    """Changes one line: one goes, comes twice, has another value, another key, or one wrong octet."""
    way, line = random.randrange(11), random.choice(lines or [""])
    middle = random.randrange(len(line) + 1)
    key = random.choice(list(ONCE) + 4 * list(OF_PLUGINS) + 2 * ["plugins", "acct_bgp_hold", "acct_bgp_id"]
                        + list(PASSED_OVER) + ["unknown"])
    name = random.choice(["", "", "", "[p]", "[q]", "[n1]", "[zz]"] if random.random() < 0.95
                         else ["[]", " [p]", "[p][q]", "[%s]" % ("y" * 33)])
    left = line.partition(":")[0].strip()
    if way == 0 and lines:
        lines.remove(line)
    elif way == 1:
        lines.append(line)
    elif way == 2:
        insert(random, lines, left + ": " + value(random, left.partition("[")[0], random.random() < 0.3), 0.8)
    elif way == 3:
        lines.append(line[:middle] + chr(random.randrange(256)) + line[middle + random.randrange(2):])
        lines.remove(line)
    elif way < 7:
        insert(random, lines, random.choice(WHOLE_LINES), 0.8)
    else:
        insert(random, lines, key + name + random.choice([":", ": ", " :\t"])
               + value(random, key, random.random() < 0.3), 0.8)


def make(random):
    """A case with up to two changes to a good configuration."""
    lines = good_lines(random)
    for _ in range(random.choice([0, 1, 1, 1, 1, 2])):
        spoil(random, lines)
    if random.random() < 0.5:
        random.shuffle(lines)
    end = random.choice(["\n"] * 5 + ["\r\n"])
    octets = (end.join(lines) + random.choice([end, end, "", "\n\n"])).encode("latin-1")
    if random.random() < 0.004:
        octets += b"\n" * (1048576 + random.randrange(2) - len(octets))
    flows = capture(event(random.choice([0, 999, 60000]), random.choice(EXPORTERS), version_5(random))
                    for _ in range(random.randrange(4)))
    entries = {CONFIGURATION: octets, CAPTURE: flows, "routes.cap": b"PMACAP01", "folder": FOLDER, "full": FULL,
               "bad.map": b"\nfoo\n", PRE_TAG_MAP: b"set_tag=5 ip=192.0.2.1 in=1\nset_tag2=9 set_label=l1\n",
               SAMPLING_MAP: b"ip=0.0.0.0/0 sampling_rate=7\n"}
    if random.random() < 0.3:
        for name in random.sample(["o0", "o1", "audit.txt"], random.choice([1, 2])):
            entries[name] = random.choice([b"old\n", b"old", FOLDER, FULL, FULL, FULL])
    return Case(random.choice(["nfacctd", "sfacctd"]), WORDS, entries)


def make_words(random):
    """The same with other words, and with files of strange names."""
    case = make(random)
    case.entries.update((name, case.entries[CONFIGURATION]) for name in ("-", "=x", "x", "\xc3\xa9"))
    return case._replace(words=random.choice(WORD_LISTS))
