"""The keys of a configuration, and the values that each takes."""

import re

from .addresses import read_version_4
from .columns import NAMES
from .octets import decimal

MOST_PLUGINS = 8
NAME = "[A-Za-z0-9_-]{1,32}"
LEFT_OUT_PLUGINS = {"sqlite3", "mysql", "pgsql", "kafka", "amqp", "tee", "nfprobe", "sfprobe"}
PASSED_OVER = set("""daemonize debug logfile pidfile syslog imt_path plugin_buffer_size plugin_pipe_size nfacctd_ip
    sfacctd_ip bgp_daemon_ip bmp_daemon_ip bgp_daemon_max_peers core_proc_name files_umask nfacctd_pipe_size""".split())


class BadValue(Exception):
    """A key doesn't take a value; its only argument is the cause."""


def numbers(least, most, also=None):
    """Numbers of a range, and perhaps one more."""
    def read(text):
        value = decimal(text, 0, most)
        if value is None or (value < least and value != also):
            raise BadValue("bad-value")
        return value
    return read


def choices(values, left_out=()):
    """One of some words; those that this project leaves out have a cause of their own."""
    def read(text):
        if text in left_out:
            raise BadValue("not-in-profile")
        if text not in values:
            raise BadValue("bad-value")
        return values[text]
    return read


def same(*words):
    """Words that are their own values."""
    return {word: word for word in words}


def read_file_name(text):
    """A name of a file."""
    if not 1 <= len(text) <= 255:
        raise BadValue("bad-value")
    return text


def read_router_id(text):
    """An IPv4 address but 0.0.0.0."""
    address = read_version_4(text)
    if address is None or address[1] == 0:
        raise BadValue("bad-value")
    return address


def read_plugins(text):
    """Pairs of a kind and a name, which without one is the kind's own."""
    matches = [re.fullmatch(r"([a-z0-9]+)(?:\[(%s)\])?" % NAME, member.strip(" \t")) for member in text.split(",")]
    if any(match and match[1] in LEFT_OUT_PLUGINS for match in matches):
        raise BadValue("not-in-profile")
    if not all(match and match[1] in ("print", "memory") for match in matches):
        raise BadValue("bad-value")
    plugins = [(match[1], match[2] or match[1]) for match in matches]
    if len({name for _, name in plugins}) < len(plugins):
        raise BadValue("bad-value")
    if len(plugins) > MOST_PLUGINS:
        raise BadValue("too-many-plugins")
    return plugins


def read_aggregate(text):
    """The columns that are asked for."""
    members = {member.strip(" \t") for member in text.split(",")}
    if not members <= set(NAMES):
        raise BadValue("unknown-primitive")
    return members


read_truth = choices({"true": True, "false": False})
read_port = numbers(1, 65535)

# Keys that hold for a plugin, and may have its name.
OF_PLUGINS = {
    "aggregate": read_aggregate,
    "print_output": choices(same("formatted", "csv", "json"), ("avro",)),
    "print_output_file": read_file_name, "acct_memory_file": read_file_name,
    "print_output_file_append": choices({"true": True}, ("false",)),
    "print_refresh_time": numbers(1, 86400), "acct_cache_entries": numbers(1, 65536),
    "acct_ring_records": numbers(1, 65536), "acct_ring_wait": read_truth}

# Keys that stand once, without a name.
ONCE = {
    "plugins": read_plugins,
    "nfacctd_port": read_port, "sfacctd_port": read_port, "bgp_daemon_port": read_port, "bmp_daemon_port": read_port,
    "nfacctd_renormalize": read_truth, "sfacctd_renormalize": read_truth, "acct_threads": read_truth,
    "nfacctd_as": choices(same("netflow", "bgp", "bmp"), ("longest", "file")),
    "sfacctd_as": choices(same("sflow", "bgp", "bmp"), ("longest", "file")),
    "pre_tag_map": read_file_name, "bgp_agent_map": read_file_name, "sampling_map": read_file_name,
    "bgp_daemon": read_truth, "bmp_daemon": read_truth,
    "acct_flow_capture": read_file_name, "acct_route_capture": read_file_name,
    "acct_audit_file": read_file_name, "acct_dump_file": read_file_name,
    "acct_replay_lag": numbers(0, 2**32 - 1), "acct_stop_after": numbers(1, 2**32 - 1),
    "acct_bgp_hold": numbers(3, 65535, also=0), "acct_bgp_id": read_router_id}
