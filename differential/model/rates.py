"""Sampling rates: where one is learned, which one holds for a record, and how it multiplies."""

from .addresses import covers

GREATEST_RATE = 2**32 - 1


def within_limits(rate):
    """A rate of 0 counts as 1, one above 32 bits as the greatest of them."""
    return min(max(rate, 1), GREATEST_RATE)


def taught_rate(elements):
    """The rate that an options record teaches, or None: samplingInterval (34), samplerRandomInterval (50), or
    samplingPacketInterval (305) and samplingPacketSpace (306), RFC 5477, section 8.2."""
    if 34 in elements:
        return elements[34]
    if 50 in elements:
        return elements[50]
    if elements.get(305, 0) > 0 and 306 in elements:
        return (elements[305] + elements[306]) // elements[305]
    return None


def sampler_of(elements):
    """The selector (302) or else the sampler (48) that a record names, or None."""
    return elements.get(302, elements.get(48))


def learned_rate(rates, source, sampler):
    """The rate learned last from a source for a sampler, or else without one, or None."""
    if (source, sampler) in rates:
        return rates[source, sampler]
    return rates.get((source, None))


def mapped_rate(rules, record):
    """The rate of the first line of the sampling map that holds, or None."""
    for rule in rules:
        if (covers(rule["ip"], record.exporter)
                and rule.get("in", record.input_interface or 0) == (record.input_interface or 0)
                and rule.get("out", record.output_interface or 0) == (record.output_interface or 0)):
            return rule["sampling_rate"]
    return None


def rate_of(rules, record):
    """The rate by which bytes and packets of a record are multiplied: the first that is there."""
    for rate in (record.own_rate, record.learned_rate, mapped_rate(rules, record), record.header_rate):
        if rate is not None:
            return within_limits(rate)
    return 1
