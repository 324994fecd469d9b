"""A desk, which is a client: "What a desk does" of FORMAT.md. The refusals of a call stand in the page's order."""

from typing import NamedTuple

from message import MAX_16, MAX_32, MAX_VALUE, REPLY, REQUEST, START
from message import Message, Pair, Register, join, read, refuse, write


class Operation(NamedTuple):
    """A read, or a write of a value."""

    kind: str  # "read" or "write"
    value: bytes  # to be written; empty for a read
    note: int
    phase: int = 1
    answered: frozenset = frozenset()  # servers, in this round
    restarts: int = 0
    chosen: Register = START  # in phase 2


class Desk:
    def __init__(self, cluster, number):
        refuse(1, where=not 1 <= number <= MAX_16)
        self.cluster = cluster
        self.number = number
        self.pair = cluster.fresh_pair
        self.round = 0
        self.running = None  # an operation
        self.ended = None  # an operation, of which the result is kept

    def begin(self, kind, note, value=b""):
        """Begin a read, or a write of a value. A note of 0 is none."""
        refuse(14, where=len(value) > MAX_VALUE)
        refuse(8, where=self.running)
        self.next_round()  # 12
        self.running = Operation(kind, value, note)
        self.ended = None

    def next_round(self):
        refuse(12, where=self.round == MAX_32)
        self.round += 1

    def ask(self, server, buffer, place):
        """Write a request to a server. The place after it, or 13."""
        refuse(9, where=not self.running)
        refuse(1, where=server >= self.cluster.n)
        request = Message(REQUEST, server, self.number, self.round, self.pair, self.running.note)
        return write(request, buffer, place)

    def hear(self, data):
        """Take a message: "ok" or "late"."""
        reply = read(self.cluster, data)  # 2, 3, 4, 5
        refuse(7, where=reply.kind != REPLY or reply.desk != self.number)
        if not self.running or reply.round != self.round:
            return "late"
        joined = join(self.cluster, self.pair, reply.pair)  # 6
        counts = [(theirs.count, own.count) for theirs, own in zip(reply.pair.sheet, self.pair.sheet)]
        refuse(6, where=any(theirs < own for theirs, own in counts))
        if any(theirs > own for theirs, own in counts):
            self.start_over(joined)
        else:
            self.count_answer(reply.server, joined)
        return "ok"

    def start_over(self, joined):
        """Begin the phase again in another round, by the joined sheet."""
        self.next_round()  # 12
        self.pair = joined
        self.running = self.running._replace(answered=frozenset(), restarts=self.running.restarts + 1)

    def count_answer(self, server, joined):
        """A server has answered by the desk's own sheet; a quorum of them ends the phase."""
        operation = self.running._replace(answered=self.running.answered | {server})
        if self.cluster.margin(joined.sheet, operation.answered) <= 0:
            self.pair = joined
            self.running = operation
        elif operation.phase == 1:
            self.choose(joined)
        else:
            self.pair = joined
            self.running = None
            self.ended = operation

    def choose(self, joined):
        """Choose the register that phase 2 carries to a quorum, and begin phase 2."""
        chosen = joined.register
        if self.running.kind == "write":
            stamp = chosen.tag[0]
            refuse(12, where=stamp == MAX_32)
            chosen = Register((stamp + 1, self.number), self.running.value)
        self.next_round()  # 12
        self.pair = Pair(joined.sheet, chosen)
        self.running = self.running._replace(phase=2, answered=frozenset(), chosen=chosen)

    def result(self):
        """The operation that ended: its kind, chosen register and restarts."""
        refuse(9, where=not self.ended)
        return self.ended

    def margin(self):
        """How far the running operation is from a quorum: the margin of the servers that answered in this round."""
        refuse(9, where=not self.running)
        return self.cluster.margin(self.pair.sheet, self.running.answered)

    def drop(self):
        """End the running operation without a result."""
        refuse(9, where=not self.running)
        self.running = None
