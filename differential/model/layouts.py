"""The three layouts of a purge: formatted, csv and JSON."""

from .columns import FLOWS

FORMATTED, CSV, JSON = "formatted", "csv", "json"
WIDTH_OF_COUNTS = 20
GREATEST_JSON_NUMBER = 2**64 - 1


def purge_text(settings, columns, rows):
    """The text of rows, pairs of a key and its sums."""
    with_flows = FLOWS in settings.aggregate
    if settings.layout == JSON:
        return "".join(json_line(columns, key, counts, with_flows) for key, counts in rows)
    headings = [column.heading for column in columns] + ["PACKETS"] + ["FLOWS"] * with_flows + ["BYTES"]
    widths = [column.width for column in columns] + [WIDTH_OF_COUNTS] * (1 + with_flows)
    lines = [table_line(settings.layout, widths, headings)]
    for key, counts in rows:
        cells = [column.text_of(value) for column, value in zip(columns, key)]
        cells += [str(counts.packets)] + [str(counts.flows)] * with_flows + [str(counts.bytes)]
        lines.append(table_line(settings.layout, widths, cells))
    return "".join(lines)


def table_line(layout, widths, cells):
    """A line of cells: with commas, or each but the last padded to its width."""
    if layout == CSV:
        return ",".join(cells) + "\n"
    padded = [cell.ljust(width) for cell, width in zip(cells, widths)]
    return "  ".join(padded + cells[-1:]) + "\n"


def json_line(columns, key, counts, with_flows):
    """An object with its members in alphabetical order; what has no number's text is a string (RFC 8259, section 7)."""
    members = {}
    for column, value in zip(columns, key):
        text = column.text_of(value)
        is_number = column.text_of is str and isinstance(value, int)
        members[column.json_name] = text if is_number else '"%s"' % text
    members["packets"] = json_count(counts.packets)
    members["bytes"] = json_count(counts.bytes)
    if with_flows:
        members["flows"] = json_count(counts.flows)
    return "{" + ",".join('"%s":%s' % (name, members[name]) for name in sorted(members)) + "}\n"


def json_count(count):
    """A count, a string of its digits where it is above 64 bits."""
    return str(count) if count <= GREATEST_JSON_NUMBER else '"%d"' % count
