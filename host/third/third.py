#!/usr/bin/env python3
"""The third program: the program `turns` once more, written from docs/RULES.md, without a look at crates/ or host/second.

A turn file comes in on standard input, lines go out on standard output. Numbers in brackets are those of docs/RULES.md.
It is here to see whether docs/RULES.md says enough; host/third/check holds it to the second program. No turn file meets
refusal 3, and only one of more than 2^32 records refusal 11: they are written here, and not run.
"""

import os
import signal
import struct

MAX_COUNT = 2**32 - 1
LENT_WORDS, LENT_RECORDS = 4355, 64  # (O2)

CURRENT, CALLS, LAST, HEADS = 0, 1, 2, 3  # words of the store (C2)
LINK, TIME, TICKET, PATH, ORDER, DISTANCE, EPOCH, STANDING, NODE_WORDS = range(9)  # words of a node (C3)
PUT, TAKE = 0, 1  # kinds of a call (D2)


class Refused(Exception):
    """An operation, or the rest of a turn file, is refused by a number (E)."""

    def __init__(self, number):
        super().__init__(number)
        self.number = number


class Record:
    """A worker's nine fields (D2)."""

    def __init__(self):
        self.stage = self.kind = self.own = self.bucket = self.left = 0
        self.right = self.seen = self.current = self.ticket = 0


class Pool:
    """A shape and lent memory (A7)."""

    def __init__(self):
        self.store = [0] * LENT_WORDS
        self.table = [Record() for _ in range(LENT_RECORDS)]
        self.set_shape(0, 0, 0, 0)  # (N9)

    def set_shape(self, workers, nodes, buckets, width):
        self.workers, self.nodes, self.buckets, self.width = workers, nodes, buckets, width

    # Places.

    def at(self, node, field):
        """The word of a node's field (C2)."""
        return HEADS + self.buckets + NODE_WORDS * node + field

    def get(self, node, field):
        return self.store[self.at(node, field)]

    def set(self, node, field, value):
        self.store[self.at(node, field)] = value

    def cell(self, cell):
        """The word that a cell lies in (C5)."""
        return HEADS + cell if cell < self.buckets else self.at(cell - self.buckets, LINK)

    def key(self, node):
        """(B10)"""
        return self.get(node, TIME), self.get(node, ORDER), self.get(node, TICKET)

    def bucket_of(self, time):
        """The last bucket takes the tail too (B9)."""
        return min(time // self.width, self.buckets - 1)

    def swap(self, word, old, new):
        """(I4)"""
        if self.store[word] != old:
            return False
        self.store[word] = new
        return True

    # Refusals.

    def look_at_shape(self, workers, nodes, buckets, width):
        """1 and 2 (E4, E5)."""
        if not (1 <= workers <= 64 and 1 <= nodes <= 4096 and 1 <= buckets <= 256 and 1 <= width <= 65535):
            raise Refused(1)
        if len(self.store) < HEADS + buckets + NODE_WORDS * nodes or len(self.table) < workers:
            raise Refused(2)

    def look(self, worker):
        """1 to 4 (E4 to E7)."""
        self.look_at_shape(self.workers, self.nodes, self.buckets, self.width)
        if not (self.store_in_range() and all(self.record_in_range(r) for r in self.table[: self.workers])):
            raise Refused(3)
        if worker >= self.workers:
            raise Refused(4)

    def store_in_range(self):
        """(C2, C3)"""
        store, first = self.store, self.at(0, 0)
        link, time, ticket, path, order, distance, epoch, standing = (
            store[first + field : first + NODE_WORDS * self.nodes : NODE_WORDS] for field in range(NODE_WORDS)
        )
        return (
            store[CURRENT] >> 32 < self.buckets
            and store[CALLS] <= MAX_COUNT
            and store[LAST] < self.nodes
            and all(head % 2 == 0 and head // 2 <= self.nodes for head in store[HEADS:first])
            and max(link) // 2 <= self.nodes
            and max(time) <= MAX_COUNT
            and max(ticket) <= MAX_COUNT
            and max(path) <= 65535
            and max(order) <= 63
            and max(distance) <= 1024
            and all(d >= 1 or s == 0 for d, s in zip(distance, standing))
            and max(epoch) <= MAX_COUNT
            and max(standing) <= 2**32 + 1
        )

    def record_in_range(self, r):
        """(D2)"""
        return (
            r.stage <= 13
            and (r.kind <= TAKE)
            and not (4 <= r.stage <= 7 and r.kind != PUT)
            and not (8 <= r.stage and r.kind != TAKE)
            and r.own < self.nodes
            and r.bucket < self.buckets
            and not (r.stage == 12 and r.bucket == self.buckets - 1)
            and r.left < self.buckets + self.nodes
            and r.right <= self.nodes
            and not (r.stage in (2, 3, 10, 11) and r.right == self.nodes)
            and r.seen // 2 <= self.nodes
            and r.current >> 32 < self.buckets
            and r.ticket <= MAX_COUNT
        )

    def look_at_start(self, worker):
        """9, and 11 of a start (E12, E14)."""
        if self.table[worker].stage != 0:
            raise Refused(9)
        if self.store[CALLS] == MAX_COUNT:
            raise Refused(11)

    def first_free(self):
        """The node that a put gets, or refusal 12 (G, E15)."""
        tickets = [r.ticket for r in self.table[: self.workers] if r.stage != 0]
        last = self.store[LAST]
        for node in [*range(last + 1, self.nodes), *range(last + 1)]:
            standing = self.get(node, STANDING)
            if standing == 0 or standing >= 2 and all(ticket > standing - 2 for ticket in tickets):
                return node
        raise Refused(12)

    # Operations. Each gives its line (N11 to N17).

    def open(self, workers, nodes, buckets, width):
        """(F)"""
        self.look_at_shape(workers, nodes, buckets, width)
        self.set_shape(workers, nodes, buckets, width)
        heads = [2 * nodes] * buckets
        layout = [0, 0, nodes - 1] + heads + [0] * (NODE_WORDS * nodes)
        self.store[: len(layout)] = layout
        self.table[:workers] = [Record() for _ in range(workers)]
        return "open"

    def put_start(self, worker, time, path, order, distance):
        """(H)"""
        self.look(worker)
        if order > 63 or not 1 <= distance <= 1024 or path > 65535:
            raise Refused(5)
        self.look_at_start(worker)
        node, r = self.first_free(), self.table[worker]
        ticket = self.store[CALLS] + 1
        self.store[CALLS], self.store[LAST] = ticket, node
        for field, value in (TIME, time), (TICKET, ticket), (PATH, path), (ORDER, order), (DISTANCE, distance), (STANDING, 1):
            self.set(node, field, value)
        r.stage, r.kind, r.own, r.bucket, r.ticket = 1, PUT, node, self.bucket_of(time), ticket
        return f"begun {ticket}"

    def take_start(self, worker):
        """(H)"""
        self.look(worker)
        self.look_at_start(worker)
        r = self.table[worker]
        ticket = self.store[CALLS] + 1
        self.store[CALLS] = ticket
        r.stage, r.kind, r.ticket = 8, TAKE, ticket
        return f"begun {ticket}"

    def turn(self, worker):
        """A stage gives the stage that follows, or the line that answers the call (I1 to I3)."""
        self.look(worker)
        r = self.table[worker]
        if r.stage == 0:
            raise Refused(10)
        then = STAGES[r.stage](self, r)
        r.stage = then if isinstance(then, int) else 0
        return "on" if isinstance(then, int) else then

    # The search (I).

    def settle(self, r):
        return self.found(r) if r.right == self.nodes else 2

    def found(self, r):
        if r.kind == PUT:
            return 4
        time, path, order, distance = (self.get(r.own, field) for field in (TIME, PATH, ORDER, DISTANCE))
        energy = 2**24 // (distance * distance) if distance else 0  # (M3)
        return f"took {time} {path} {order} {energy}"

    def stage_1(self, r):
        r.left, r.right = r.bucket, self.store[self.cell(r.bucket)] // 2
        return self.settle(r)

    def stage_2(self, r):
        r.seen = self.get(r.right, LINK)
        if r.seen % 2 == 1:
            return 3
        if not self.key(r.right) < self.key(r.own):
            return self.found(r)
        r.left, r.right = self.buckets + r.right, r.seen // 2
        return self.settle(r)

    def stage_3(self, r):
        if not self.swap(self.cell(r.left), 2 * r.right, 2 * (r.seen // 2)):
            return 1
        self.set(r.right, STANDING, 2 + self.store[CALLS])
        r.right = r.seen // 2
        return self.settle(r)

    # A put (J).

    def stage_4(self, r):
        r.current = self.store[CURRENT]
        self.set(r.own, EPOCH, r.current % 2**32)
        self.set(r.own, LINK, 2 * r.right)
        return 5

    def stage_5(self, r):
        return 6 if self.swap(self.cell(r.left), 2 * r.right, 2 * r.own) else 1

    def stage_6(self, r):
        r.current = self.store[CURRENT]
        return f"stored {r.ticket}" if r.current >> 32 < r.bucket else 7

    def stage_7(self, r):
        epoch = r.current % 2**32
        if self.store[CURRENT] == r.current and epoch == MAX_COUNT:
            raise Refused(11)
        return f"stored {r.ticket}" if self.swap(CURRENT, r.current, (r.bucket << 32) + epoch + 1) else 6

    # A take (K).

    def walk(self, r):
        if r.right < self.nodes:
            return 10
        return 12 if r.bucket + 1 < self.buckets else 13

    def stage_8(self, r):
        r.current = self.store[CURRENT]
        r.bucket = r.current >> 32
        return 9

    def stage_9(self, r):
        r.right = self.store[self.cell(r.bucket)] // 2
        return self.walk(r)

    def stage_10(self, r):
        r.seen = self.get(r.right, LINK)
        if r.seen % 2 == 1:
            r.right = r.seen // 2
            return self.walk(r)
        return 8 if self.get(r.right, EPOCH) > r.current % 2**32 else 11

    def stage_11(self, r):
        if not self.swap(self.at(r.right, LINK), r.seen, 2 * (r.seen // 2) + 1):
            return 10
        r.own = r.right
        return 1

    def stage_12(self, r):
        epoch = r.current % 2**32
        moved = (r.bucket + 1 << 32) + epoch
        if not self.swap(CURRENT, (r.bucket << 32) + epoch, moved):
            return 8
        r.bucket, r.current = r.bucket + 1, moved
        return 9

    def stage_13(self, r):
        return "empty" if self.store[CURRENT] == (r.bucket << 32) + r.current % 2**32 else 8


STAGES = [None] + [getattr(Pool, f"stage_{stage}") for stage in range(1, 14)]

RECORDS = {  # (N1 to N3)
    b"OP": (struct.Struct("<BHHH"), Pool.open),
    b"PU": (struct.Struct("<BIHBH"), Pool.put_start),
    b"TA": (struct.Struct("<B"), Pool.take_start),
    b"TU": (struct.Struct("<B"), Pool.turn),
}


def work(pool, data, is_all):
    """Works through the whole turn-file records of the data (N4 to N8). Gives lines, the bytes left, and whether the run ends."""
    lines, place = [], 0
    while place < len(data):
        letters = data[place : place + 2]
        if len(letters) == 2 and letters not in RECORDS:
            return lines + ["no 7"], b"", True
        fields, operation = RECORDS.get(letters, (None, None))
        if fields is None or len(data) - place < 2 + fields.size:
            return (lines + ["no 8"], b"", True) if is_all else (lines, data[place:], False)
        try:
            lines.append(operation(pool, *fields.unpack_from(data, place + 2)))
        except Refused as refused:
            lines.append(f"no {refused.number}")
        place += 2 + fields.size
    return lines, b"", is_all


def write(text):
    while text:
        text = text[os.write(1, text) :]


def main():
    """(O)"""
    signal.signal(signal.SIGPIPE, signal.SIG_DFL)
    pool, data, ends = Pool(), b"", False
    while not ends:
        try:
            piece = os.read(0, 65536)
        except OSError:
            piece = b""
        lines, data, ends = work(pool, data + piece, not piece)
        try:
            write("".join(line + "\n" for line in lines).encode())
        except OSError:
            return


if __name__ == "__main__":
    main()
