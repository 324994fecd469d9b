"""Answers the lines of the conformance files: "Commands", "Records" and "Test vectors" of SCRIPTS.md.

    python3 -B conformance/example/lines.py < conformance/server.in | diff - conformance/server.out
"""

import sys

from desk import Desk, Operation
from message import Cluster, Refused, read, refuse, write
from server import Server


class House:
    """One cluster, with all its servers, and with desks as they are first named. A method for each step and question."""

    def __init__(self, cluster):
        self.cluster = cluster
        self.servers = [Server(self.cluster, number) for number in range(self.cluster.n)]
        self.desks = {}

    def server(self, i):
        refuse(1, where=int(i) >= self.cluster.n)
        return self.servers[int(i)]

    def desk(self, d):
        if int(d) not in self.desks:
            self.desks[int(d)] = Desk(self.cluster, int(d))  # 1
        return self.desks[int(d)]

    def serve(self, i, at, length, *hex_words):
        buffer = bytearray(int(length))
        after = self.server(i).serve(from_hex(hex_words), buffer, int(at))
        return "ok" if after is None else written_words(buffer, at, after)

    def share(self, i, at, length):
        buffer = bytearray(int(length))
        return written_words(buffer, at, self.server(i).share(buffer, int(at)))

    def transfer(self, i, j, amount):
        self.server(i).transfer(int(j), int(amount))
        return "ok"

    def begin(self, d, kind, note, *hex_words):
        self.desk(d).begin(kind, int(note), from_hex(hex_words))
        return "ok"

    def ask(self, d, i, at, length):
        buffer = bytearray(int(length))
        return written_words(buffer, at, self.desk(d).ask(int(i), buffer, int(at)))

    def hear(self, d, *hex_words):
        return self.desk(d).hear(from_hex(hex_words))

    def result(self, d):
        ended = self.desk(d).result()
        return f"ok {ended.kind} {tag_words(ended.chosen)} {ended.restarts} {to_hex(ended.chosen.value)}"

    def margin(self, d):
        return f"ok {self.desk(d).margin()}"

    def drop(self, d):
        self.desk(d).drop()
        return "ok"

    def record(self, party, number):
        if party == "server":
            return f"server {number} {pair_words(self.server(number))}"
        desk = self.desk(number)
        return f"desk {number} {pair_words(desk)} round {desk.round} operation {operation_words(desk)}"


def cluster_of(words):
    """The cluster that a line gives by N F [starts W,W,...], 1 or 15; and the words after it."""
    n, f, *rest = words
    if rest[:1] != ["starts"]:
        return Cluster(int(n), int(f)), rest
    starts = [] if rest[1] == "-" else [int(start) for start in rest[1].split(",")]
    return Cluster(int(n), int(f), starts), rest[2:]


def from_hex(words):
    return b"" if list(words) == ["-"] else bytes.fromhex("".join(words))


def to_hex(data):
    return data.hex().upper() or "-"


def written_words(buffer, at, after):
    return f"ok {after} {to_hex(buffer[int(at):after])}"


def tag_words(register):
    return "{} {}".format(*register.tag)


def weight_words(cluster, sheet):
    return " ".join(str(cluster.weigh(sheet, server)) for server in range(cluster.n))


def pair_words(party):
    cluster, (sheet, register) = party.cluster, party.pair
    starts = ",".join(map(str, cluster.starts))
    counts = " ".join(str(row.count) for row in sheet)
    cells = [f"{i}>{j}:{cell}" for i, row in enumerate(sheet) for j, cell in enumerate(row.cells) if cell]
    return (f"n {cluster.n} f {cluster.f} starts {starts} tag {tag_words(register)} value {to_hex(register.value)}"
            f" weights {weight_words(cluster, sheet)} counts {counts} cells {' '.join(cells) or '-'}")


def operation_words(desk):
    state, shown = "none", Operation("none", b"", 0, phase=0)
    if desk.running:
        state, shown = "running", desk.running
    elif desk.ended:
        state, shown = "ended", desk.ended._replace(value=b"", note=0, phase=0, answered=frozenset())
    answered = ",".join(str(server) for server in sorted(shown.answered)) or "-"
    return (f"{state} {shown.kind} phase {shown.phase} note {shown.note} restarts {shown.restarts}"
            f" answered {answered} writing {to_hex(shown.value)}"
            f" chosen {tag_words(shown.chosen)} {to_hex(shown.chosen.value)}")


def fault(call, *arguments):
    """The number by which a call is refused; 0 where it isn't."""
    try:
        call(*arguments)
        return 0
    except Refused as refused:
        return refused.number


def written_again(message, data):
    """Whether the writer makes these bytes, leaves those around them alone and refuses a buffer a byte short."""
    buffer = bytearray(b"\xaa" * (len(data) + 2))
    write(message, buffer, 1)
    return buffer == b"\xaa" + data + b"\xaa" and fault(write, message, bytearray(len(data) - 1), 0) == 13


def vector_words(words):
    """All that reader and writer make of a message, in a cluster of its own."""
    cluster, hex_words = cluster_of(words)  # 1, 15
    data = from_hex(hex_words)
    message = read(cluster, data)
    sheet, register = message.pair
    cut = sum(fault(read, cluster, data[:length]) == 2 for length in range(len(data)))
    again = "same" if written_again(message, data) else "other"
    return (f"ok kind {message.kind} server {message.server} desk {message.desk} round {message.round}"
            f" tag {tag_words(register)} note {message.note} value {to_hex(register.value)}"
            f" weights {weight_words(cluster, sheet)} cut {cut} of {len(data)}"
            f" longer {fault(read, cluster, data + bytes(1))} again {again}")


STEPS = {
    "serve": House.serve, "transfer": House.transfer, "share": House.share, "begin": House.begin, "ask": House.ask,
    "hear": House.hear, "result": House.result, "margin": House.margin, "drop": House.drop, "record": House.record,
}


def main():
    house = None
    for line in sys.stdin:
        command, *words = line.split()
        try:
            if command == "message":
                answer = vector_words(words)
            elif command == "house":
                house, answer = House(cluster_of(words)[0]), "ok"
            else:
                refuse(1, where=house is None)
                answer = STEPS[command](house, *words)
        except Refused as refused:
            answer = f"no {refused.number}"
        print(answer)


main()
