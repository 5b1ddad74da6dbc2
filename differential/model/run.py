"""A run of a collector: from its words and a folder to its status, its line and the folder behind it."""

from . import maps
from .audit import Audit
from .capture import read_capture
from .configuration import LONGEST_TEXT, read_configuration
from .netflow import NetflowDecoder
from .octets import BadLine, Refused
from .places import CannotOpen, Place
from .plugins import MEMORY, Plugin
from .rates import rate_of
from .sflow import SflowDecoder
from .words import USAGE, BadWords, read_words

DONE, BAD_WORDS, BAD_TEXT, NOT_OPENED, NOT_READ, BAD_CAPTURE, NOT_WRITTEN = 0, 1, 2, 3, 4, 5, 6
DECODERS = {"nfacctd": NetflowDecoder, "sfacctd": SflowDecoder}
NOT_BUILT = ("bgp_daemon", "bmp_daemon", "bgp_agent_map")


class Faulty(Exception):
    """A text is refused at a line of a file, for a cause."""

    def __init__(self, name, bad):
        super().__init__("%s:%d: %s" % (name, bad.line, bad.cause))


def run(tool, words, entries):
    """The status, the line on standard output and the entries behind a run."""
    place = Place(entries)
    try:
        name = read_words(words)
        configuration = prepare(tool, name, place)
        rules = read_maps(configuration, place)
        status, line = account(tool, name, configuration, rules, place)
    except BadWords:
        return BAD_WORDS, USAGE[tool], place.entries
    except Faulty as faulty:
        status, line = BAD_TEXT, str(faulty)
    except CannotOpen as cannot:
        status, line = NOT_OPENED, "cannot open " + str(cannot)
    return status, "%s: %s\n" % (tool, line), place.entries


def prepare(tool, name, place):
    """The configuration of a run, as far as it can be told before its maps are read."""
    octets = place.read(name, LONGEST_TEXT)
    try:
        configuration = read_configuration(tool, octets)
        if any(configuration.values.get(key) for key in NOT_BUILT):
            raise BadLine(0, "not-in-profile")
        if name in configuration.outputs():
            raise BadLine(0, "same-name")
    except BadLine as bad:
        raise Faulty(name, bad) from bad
    return configuration


def read_maps(configuration, place):
    """The rules of both maps; a map that isn't named has none."""
    rules = {}
    for kind in (maps.PRE_TAG, maps.SAMPLING):
        rules[kind] = []
        name = configuration.values.get(kind)
        if name is not None:
            octets = place.read(name, maps.LONGEST_TEXT)
            try:
                rules[kind] = maps.read_map(kind, octets)
            except BadLine as bad:
                raise Faulty(name, bad) from bad
    return rules


def account(tool, name, configuration, rules, place):
    """Reads the capture, opens the outputs and writes them: the status and the line without the tool's name."""
    capture = configuration.flow_capture
    if capture is None:
        # A live run, which isn't built.
        raise Faulty(name, BadLine(0, "missing-key"))
    unreadable = place.is_folder(capture)
    datagrams, fault = ([], None) if unreadable else read_capture(place.read(capture, LONGEST_TEXT))
    for plugin in configuration.plugins:
        place.open_output(plugin.output, anew=plugin.kind == MEMORY)
    place.open_output(configuration.audit, anew=True)
    texts = texts_of(tool, configuration, rules, datagrams)
    unwritten = [output for output, text in zip(configuration.outputs(), texts) if not place.append(output, text)]
    if unreadable:
        return NOT_READ, "flow input failed"
    if fault is not None:
        return BAD_CAPTURE, "flow capture " + fault
    if unwritten:
        return NOT_WRITTEN, "cannot write " + unwritten[0]
    return DONE, "done"


def texts_of(tool, configuration, rules, datagrams):
    """The text of each plugin's purges, and the audit."""
    decoder = DECODERS[tool]()
    plugins = [Plugin(settings) for settings in configuration.plugins]
    audit = Audit()
    for datagram in datagrams:
        try:
            records, notices = decoder.decode(datagram.exporter, datagram.octets)
        except Refused as refused:
            audit.refuse(str(refused))
            continue
        audit.take(records, notices)
        for record in records:
            rate = rate_of(rules[maps.SAMPLING], record) if configuration.renormalizes else 1
            tags = maps.tags_of(rules[maps.PRE_TAG], record)
            for plugin in plugins:
                plugin.take(datagram.moment, record, tags, rate)
    return [plugin.end() for plugin in plugins] + [audit.text()]
