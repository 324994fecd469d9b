"""A server: "What a server does" of FORMAT.md. The refusals of a call stand in the page's order."""

from message import MAX_16, REPLY, REQUEST, SHARE, Message, Row, join, read, refuse, write


class Server:
    def __init__(self, cluster, number):
        refuse(1, where=number >= cluster.n)
        self.cluster = cluster
        self.number = number
        self.pair = cluster.fresh_pair

    def serve(self, data, buffer, place):
        """Take a message. The place after the reply that was written to a request; None for a share."""
        message = read(self.cluster, data)  # 2, 3, 4, 5
        refuse(7, where=message.kind == REPLY or message.kind == REQUEST and message.server != self.number)
        own = self.number
        joined = join(self.cluster, self.pair, message.pair)  # 6
        refuse(6, where=message.pair.sheet[own].count > self.pair.sheet[own].count)  # nobody else can have made them
        after = None
        if message.kind == REQUEST:
            reply = message._replace(kind=REPLY, pair=joined)  # with the request's desk, round and note
            after = write(reply, buffer, place)  # 13
        self.pair = joined
        return after

    def transfer(self, taker, amount):
        """Give another server some of this server's weight."""
        own, rows = self.number, list(self.pair.sheet)
        count, cells = rows[own].count, list(rows[own].cells)
        refuse(11, where=taker == own or taker >= self.cluster.n or amount == 0)
        refuse(12, where=count == MAX_16)
        refuse(10, where=not self.cluster.above_floor(self.cluster.weigh(rows, own) - amount))
        cells[taker] += amount
        rows[own] = Row(count + 1, tuple(cells))
        self.pair = self.pair._replace(sheet=tuple(rows))

    def share(self, buffer, place):
        """Write a share. The place after it, or 13."""
        return write(Message(SHARE, self.number, 0, 0, self.pair, 0), buffer, place)
