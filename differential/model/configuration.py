"""Configurations: their lines, the first cause to refuse one, and what holds of each plugin by names and defaults."""

import re
from typing import Dict, List, NamedTuple, Optional, Set

from .octets import BadLine, is_text, lines_of
from .values import BadValue, NAME, ONCE, OF_PLUGINS, PASSED_OVER, read_plugins

LONGEST_TEXT = 1048576


class Settings(NamedTuple):
    """What holds of one plugin; the refresh time in seconds."""

    kind: str
    aggregate: Set[str]
    layout: str
    output: str
    refresh_time: int
    cache_entries: int


class Configuration(NamedTuple):
    """What holds of a run."""

    plugins: List[Settings]
    values: Dict[str, object]
    audit: str
    renormalizes: bool
    flow_capture: Optional[str]

    def outputs(self):
        """The names of outputs in the order in which they are opened."""
        return [plugin.output for plugin in self.plugins] + [self.audit]


class Line(NamedTuple):
    """A line that isn't empty: the key and the name before its first colon, and the value behind it."""

    text: str
    key: Optional[str]
    name: Optional[str]
    value: Optional[str]


def split_line(text):
    """The parts of a line. The key of a malformed name is none."""
    left, colon, right = text.partition(":")
    if not colon:
        return Line(text, None, None, None)
    match = re.fullmatch(r"([^\[\]]*)(?:\[(%s)\])?" % NAME, left.strip(" \t"))
    key, name = match.groups() if match else (None, None)
    return Line(text, key, name, right.strip(" \t"))


def read_configuration(tool, octets):
    """The configuration that a text spells for a tool."""
    if len(octets) > LONGEST_TEXT:
        raise BadLine(0, "too-long")
    lines = [(position, split_line(text)) for position, text in lines_of(octets)]
    plugin_names = names_of_plugins([line for _, line in lines])
    values, seen = {}, set()
    for position, line in lines:
        cause, value = judge_line(line, seen, plugin_names)
        if cause is not None:
            raise BadLine(position, cause)
        seen.add((line.key, line.name))
        if line.key not in PASSED_OVER:
            values[line.key, line.name] = value
    return build(tool, values)


def names_of_plugins(lines):
    """The names that the first line `plugins` gives, wherever it stands, or None where it has a cause itself."""
    for line in lines:
        if line.key == "plugins":
            try:
                plugins = read_plugins(line.value)
            except BadValue:
                return None
            return {name for _, name in plugins} if is_text(line.text) and line.name is None else None
    return None


def judge_line(line, seen, plugin_names):
    """The first cause of a line and no value, or None and its value."""
    if not is_text(line.text):
        return "not-text", None
    if line.value is None:
        return "no-colon", None
    if line.key not in ONCE and line.key not in OF_PLUGINS and line.key not in PASSED_OVER:
        return "unknown-key", None
    cause, value = judge_value(line)
    if cause == "not-in-profile" or (line.key in ONCE and line.name is not None):
        return "not-in-profile", None
    if (line.key, line.name) in seen:
        return "repeated", None
    if line.key in OF_PLUGINS and line.name is not None and plugin_names is not None and line.name not in plugin_names:
        return "unknown-plugin", None
    return cause, value


def judge_value(line):
    """The cause of a line's value alone and no value, or None and the value."""
    if line.key in PASSED_OVER:
        return None, None
    read = ONCE.get(line.key) or OF_PLUGINS[line.key]
    try:
        return None, read(line.value)
    except BadValue as bad:
        return str(bad), None


def build(tool, values):
    """The configuration of lines without a cause, or the cause of line 0."""
    once = {key: value for (key, name), value in values.items() if key in ONCE}
    if "plugins" not in once:
        raise BadLine(0, "missing-key")
    plugins = [settings_of(values, kind, name) for kind, name in once["plugins"]]
    configuration = Configuration(
        plugins, once, once.get("acct_audit_file", "audit.txt"), once.get(tool + "_renormalize", False),
        once.get("acct_flow_capture"))
    if lacks_key(tool, once):
        raise BadLine(0, "missing-key")
    if names_twice(configuration):
        raise BadLine(0, "same-name")
    return configuration


def settings_of(values, kind, name):
    """What holds of a plugin: a key with its name wins over the key without one, and that over the default."""
    def value_of(key, default=None):
        """The value of a key for this plugin."""
        return values.get((key, name), values.get((key, None), default))

    output = value_of("print_output_file" if kind == "print" else "acct_memory_file")
    if output is None or (kind == "print" and value_of("print_output_file_append") is None):
        raise BadLine(0, "missing-key")
    return Settings(
        kind=kind, aggregate=value_of("aggregate", {"src_host"}), layout=value_of("print_output", "formatted"),
        output=output, refresh_time=value_of("print_refresh_time", 60),
        cache_entries=value_of("acct_cache_entries", 16384))


def lacks_key(tool, once):
    """Whether routing parts want a daemon that isn't on, or the captures don't go together."""
    daemons = {"bgp": once.get("bgp_daemon", False), "bmp": once.get("bmp_daemon", False)}
    if not daemons.get(once.get(tool + "_as"), True):
        return True
    has_routes = "acct_route_capture" in once
    if "acct_flow_capture" in once:
        return any(daemons.values()) and not has_routes
    return has_routes


def names_twice(configuration):
    """Whether two outputs have one name, or the two captures, or an output has that of a capture or of a map."""
    outputs = configuration.outputs()
    keys = ("acct_flow_capture", "acct_route_capture", "pre_tag_map", "bgp_agent_map", "sampling_map")
    inputs = [configuration.values[key] for key in keys if key in configuration.values]
    captures = [name for key, name in configuration.values.items() if key in keys[:2]]
    return (len(set(outputs)) < len(outputs) or len(set(captures)) < len(captures)
            or not set(outputs).isdisjoint(inputs))
