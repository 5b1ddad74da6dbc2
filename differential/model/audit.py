"""The audit: a line for each datagram refused and each notice, and the totals."""


class Audit:
    """Lines and totals of one run, in the order of its datagrams."""

    def __init__(self):
        self.lines = []
        self.datagrams = 0
        self.refused = 0
        self.records = 0

    def refuse(self, cause):
        """The next datagram is refused."""
        self.datagrams += 1
        self.refused += 1
        self.lines.append("refused %d %s\n" % (self.datagrams, cause))

    def take(self, records, notices):
        """The next datagram is decoded; a notice has the number of its set or sample."""
        self.datagrams += 1
        self.records += len(records)
        for position, notice in notices:
            self.lines.append("notice %d %d %s\n" % (self.datagrams, position, notice))

    def text(self):
        """The whole audit. Dropped records, routing messages and closed sessions are 0 today."""
        totals = "end %d %d %d 0 0 0\n" % (self.datagrams, self.refused, self.records)
        return "".join(self.lines) + totals
