"""The cluster, sheets, registers and pairs, and the bytes of a message.

Renders "What is spoken of", "The table", "The checks of a message, in order", "Where a message is written"
and "How two pairs join" of FORMAT.md. A refusal is an exception with its number of "The numbers".
"""

from collections import namedtuple

MAX_16 = 65_535
MAX_32 = 4_294_967_295
MAX_VALUE = 64
MAX_WEIGHT = 16_000  # of all servers together
REQUEST, REPLY, SHARE = 1, 2, 3
DESK, ROUND, REGISTER, SHEET, NOTE = 4, 8, 16, 32, 64  # bits 2 to 6 of a message's map

# None of these is ever changed, only replaced, so a call that is refused has changed nothing.
Row = namedtuple("Row", "count cells")  # of one giver: how many transfers, and what it gave each server in all
Register = namedtuple("Register", "tag value")  # a tag is (stamp, desk), which compares as tags do
Pair = namedtuple("Pair", "sheet register")  # a sheet is a tuple of n rows
Message = namedtuple("Message", "kind server desk round pair note")  # desk, round and note are 0 where absent

START = Register((0, 0), b"")


class Refused(Exception):
    """A call is refused, by this number."""

    def __init__(self, number):
        super().__init__(number)
        self.number = number


def refuse(number, where):
    if where:
        raise Refused(number)


class Cluster:
    """n servers, of which f may crash, what each weighs at the start, and what follows from that for a sheet."""

    def __init__(self, n, f, starts=None):
        """Without start weights the cluster is level."""
        refuse(1, where=not (1 <= n <= 16 and 0 <= 2 * f < n))
        self.n = n
        self.f = f
        self.starts = [1_000] * n if starts is None else starts
        self.all_weight = sum(self.starts)
        refuse(15, where=len(self.starts) != n or self.all_weight > MAX_WEIGHT)
        refuse(15, where=not all(map(self.above_floor, self.starts)))
        self.fresh_pair = Pair((Row(0, (0,) * n),) * n, START)

    def above_floor(self, weight):
        return weight * 2 * (self.n - self.f) > self.all_weight

    def weigh(self, sheet, server):
        """A server's weight by a sheet: what it started with and what it received, less what it gave."""
        return self.starts[server] + sum(row.cells[server] for row in sheet) - sum(sheet[server].cells)

    def is_light(self, sheet):
        return not all(self.above_floor(self.weigh(sheet, server)) for server in range(self.n))

    def margin(self, sheet, servers):
        """Twice the weight of some servers, less that of all: above 0 they are a quorum."""
        return 2 * sum(self.weigh(sheet, server) for server in servers) - self.all_weight


def rows_agree(one, other):
    """Whether both can be rows of one giver, of which the one with the larger count is the later."""
    if one.count == other.count:
        return one.cells == other.cells
    earlier, later = sorted((one, other))
    return all(before <= after for before, after in zip(earlier.cells, later.cells))


def join(cluster, one, other):
    """The joined pair, or 6 where the two clash."""
    refuse(6, where=not all(map(rows_agree, one.sheet, other.sheet)))
    refuse(6, where=one.register.tag == other.register.tag and one.register.value != other.register.value)
    sheet = tuple(map(max, one.sheet, other.sheet))  # rows that agree compare by their counts
    refuse(6, where=cluster.is_light(sheet))
    return Pair(sheet, max(one.register, other.register))  # and registers by their tags


class Reader:
    """Works through the bytes of a message once."""

    def __init__(self, cluster, data):
        self.cluster = cluster
        self.data = data
        self.at = 0

    def take(self, length):
        """The next bytes; 2 where they are not all there."""
        start, self.at = self.at, self.at + length
        refuse(2, where=self.at > len(self.data))
        return self.data[start : self.at]

    def number(self, length, low, high):
        """The next number, of so many bytes; 4 where it is out of its range."""
        number = int.from_bytes(self.take(length), "big")
        refuse(4, where=not low <= number <= high)
        return number

    def servers(self):
        """The servers that a map marks, upward; 4 where it is 0 or has a bit from n on."""
        marks = self.number(2, 1, (1 << self.cluster.n) - 1)
        return [server for server in range(self.cluster.n) if marks >> server & 1]

    def register(self):
        tag = self.number(4, 1, MAX_32), self.number(2, 1, MAX_16)
        return Register(tag, self.take(self.number(1, 0, MAX_VALUE)))

    def sheet(self):
        rows = list(self.cluster.fresh_pair.sheet)
        for giver in self.servers():
            rows[giver] = self.row(giver)
        return tuple(rows)

    def row(self, giver):
        count = self.number(2, 1, MAX_16)
        takers = self.servers()
        refuse(4, where=giver in takers)
        cells = [0] * self.cluster.n
        for taker in takers:
            cells[taker] = self.number(4, 1, MAX_32)
        refuse(4, where=not count <= sum(cells) <= 16_000 * count)
        return Row(count, tuple(cells))


def read(cluster, data):
    """The message that these bytes are, or the number of their first fault."""
    reader = Reader(cluster, data)
    marks = reader.number(2, 0, MAX_16)
    refuse(3, where=marks >> 7 or marks & 3 != 3)
    kind = reader.number(1, REQUEST, SHARE)
    if kind == SHARE:
        refuse(3, where=marks & (DESK | ROUND | NOTE))
    else:
        refuse(3, where=not (marks & DESK and marks & ROUND))
    server = reader.number(1, 0, cluster.n - 1)
    desk = reader.number(2, 1, MAX_16) if marks & DESK else 0
    round = reader.number(4, 1, MAX_32) if marks & ROUND else 0
    register = reader.register() if marks & REGISTER else START
    sheet = reader.sheet() if marks & SHEET else cluster.fresh_pair.sheet
    note = reader.number(4, 1, MAX_32) if marks & NOTE else 0
    refuse(2, where=reader.at < len(data))
    refuse(5, where=cluster.is_light(sheet))
    return Message(kind, server, desk, round, Pair(sheet, register), note)


def number_bytes(number, length):
    """A number, high byte first; no bytes for 0, which is never written but as a server or a length."""
    return number.to_bytes(length, "big") if number else b""


def marked(parts):
    """A map, and then in bit order the parts that aren't empty; no bytes where all are."""
    marks = sum(1 << bit for bit, part in enumerate(parts) if part)
    return number_bytes(marks, 2) + b"".join(parts)


def row_bytes(row):
    return number_bytes(row.count, 2) + marked([number_bytes(cell, 4) for cell in row.cells])


def register_bytes(register):
    (stamp, desk), value = register
    return number_bytes(stamp, 4) + number_bytes(desk, 2) + bytes([len(value)]) + value if stamp else b""


def write(message, buffer, place):
    """Write a message, whose fields the reader would take, into a buffer from a place on. The place after it, or 13."""
    data = marked([
        bytes([message.kind]),
        bytes([message.server]),
        number_bytes(message.desk, 2),
        number_bytes(message.round, 4),
        register_bytes(message.pair.register),
        marked([row_bytes(row) for row in message.pair.sheet]),
        number_bytes(message.note, 4),
    ])
    after = place + len(data)
    refuse(13, where=after > len(buffer))
    buffer[place:after] = data
    return after
