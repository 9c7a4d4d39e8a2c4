"""Streams of characters drawn by a seed, right and wrong, for an end of a line that no peer may break.

A stream is a list of steps. A step is a frame that is to be sent by the block transfer; or characters that are poured
onto the line whatever the other end does, and the seconds of silence behind them.
"""
import random

from drawn import OTHERS, REPORTED, SPOOLED, SPOOLING, TABLES, Drawing
from frames import frame, frames
from spelling import CODES, headed, list_of, spelled

ENQ, CONTROLS = b"\x05", bytes([5, 4, 6, 0x15])
EVERY, PAIRS = 27, 128 * 256
MAX_BODY = 65536
# Beyond T1 and T2 of the plan, and below.
PAUSES = [0, 0, 0, 0.01, 0.05, 0.15, 0.25]
KNOWN = [(1, 1), (1, 3), (1, 11), (1, 13), (1, 15), (1, 17), (2, 13), (2, 15), (2, 29), (2, 33), (2, 35), (2, 37),
         (2, 39), (2, 41), (2, 43), (5, 3), (5, 5), (5, 7), (6, 5), (6, 6), (6, 15), (6, 19), (6, 23), (10, 3), (10, 5),
         (1, 2), (1, 14), (5, 2), (6, 12), (6, 2), (6, 24), (9, 3), (5, 1), (6, 11), (6, 1), (10, 1)]


class Streams:
    """What one peer sends: to the tool or, as the tool, to the host; with S2F23 among it or not."""

    def __init__(self, seed, is_tool, has_traces):
        self.seed, self.rng, self.is_tool, self.has_traces = seed, random.Random(seed), is_tool, has_traces

    def stream(self, number):
        if number % 4 == 0:
            return self.every(number // 4)
        ways = [(12, self.right), (8, self.nested), (12, self.wrong), (10, self.half), (10, self.noise),
                (2, self.flood), (4, self.opened), (0 if self.is_tool else 8, self.asked)]
        weights, calls = zip(*ways)
        return self.rng.choices(calls, weights)[0]()

    def every(self, turn):
        """So many messages of one stream and function after the other. A peer's seed says which, so that peers of
        seeds in a row come through all of them."""
        first = (self.seed // 2 * 2 + turn) * EVERY
        pairs = [divmod((first + each) % PAIRS, 256) for each in range(EVERY)]
        return [("send", one) for pair in pairs if self.may_be(*pair)
                for one in self.message(*pair, self.rng.choice([b"", b"", self.item(2)]))]

    def may_be(self, stream, function):
        return self.has_traces or (stream, function) != (2, 23)

    def message(self, stream, function, body, **more):
        # Few system bytes, so that some are those of a request of the other end.
        system = self.rng.choice([self.rng.randrange(70), 4096 + self.rng.randrange(70), self.rng.getrandbits(32)])
        waits = self.rng.random() < 0.7
        return frames(stream, function, system, body, **{"is_tool": self.is_tool, "waits": waits, **more})

    def right(self):
        """Messages that the tool knows, or of a known name with any item."""
        steps = []
        for _ in range(self.rng.randrange(1, 9)):
            stream, function, body = self.known()
            steps += self.steps(self.message(stream, function, body))
        return steps

    def known(self):
        pick = self.rng.choice
        if self.is_tool or self.rng.random() < 0.3:
            return (*pick(KNOWN), pick([b"", self.item(3), self.item(3)]))
        reported = [line.removeprefix("host send ") for line in REPORTED + SPOOLED if line.startswith("host send ")]
        traces = [Drawing(self.rng).trace()[0].removeprefix("host send ")] if self.has_traces else reported
        name, text = pick(pick([reported, TABLES, SPOOLING, OTHERS, traces])).split(" ", 1)
        text = text.removeprefix("W ")
        stream, function = name[1:].split("F")
        return int(stream), int(function), b"" if text == "-" else spelled(text)[1]

    def steps(self, whole):
        """The frames by the block transfer, or poured, each behind its ENQ, without a look at what comes back."""
        if self.rng.random() < 0.6:
            return [("send", one) for one in whole]
        return [("pour", ENQ + one, 0) for one in whole[:-1]] + [("pour", ENQ + whole[-1], self.rng.choice(PAUSES))]

    def item(self, depth):
        rng, kind = self.rng, self.rng.choice(list(CODES))
        if kind == "L":
            return list_of([self.item(depth - 1) for _ in range(rng.randrange(5))]) if depth else list_of([])
        count = rng.choice([0, 1, 1, 1, 2, 3, 20, 300]) * (int(kind[1]) if kind[0] in "IUF" else 1)
        return headed(kind, count, rng.randbytes(count))

    def nested(self):
        """Lists in lists, at the limit of 64 and past it, and lengths that lie."""
        rng, pick = self.rng, self.rng.choice
        depth = pick([1, 10, 62, 63, 64, 65, 66, 200, 5000, 20000])
        body = pick([b"\x01\x01" * depth + b"\x01\x00", b"\x01\x02" * depth, b"\x01\x01\x41\x00" * depth,
                     b"\x01\xff" * depth, b"\x03\xff\xff\xff" + b"\x01\x00" * depth, b"\x43\xff\xff\xff" + b"A" * depth,
                     bytes([rng.randrange(256)]) + b"\xff\xff\xff", b"\x02\xff\xff" + b"\x21\x00" * depth])
        return self.steps(self.message(*pick(KNOWN), body[:MAX_BODY + pick([-300, 0, 0, 1, 300])]))

    def wrong(self):
        """Right frames with something wrong, or of another device or of this end's own side."""
        pick = self.rng.choice
        body = pick([b"", self.item(2), self.rng.randbytes(1000)])
        whole = self.message(*pick(KNOWN), body, is_tool=pick([self.is_tool] * 3 + [not self.is_tool]),
                             device=pick([0, 0, 0, 1, 0x7FFF]))
        for _ in range(self.rng.randrange(1, 4)):
            if whole:
                self.spoil(whole)
        return self.steps(whole) if whole else []

    def spoil(self, whole):
        """Changes any byte of a frame, its length or its sum, leaves one out, doubles one, or mixes all."""
        rng, at, way = self.rng, self.rng.randrange(len(whole)), self.rng.randrange(6)
        if way < 3:
            one = bytearray(whole[at])
            one[[rng.randrange(len(one)), 0, -1][way]] ^= rng.randrange(1, 256)
            whole[at] = bytes(one)
        elif way == 3:
            del whole[at]
        elif way == 4:
            whole.insert(at, whole[at])
        else:
            rng.shuffle(whole)

    def half(self):
        """Fronts of a frame, each with a silence behind it."""
        steps = []
        for _ in range(self.rng.randrange(1, 4)):
            one = self.rng.choice(self.message(*self.rng.choice(KNOWN), self.item(3)))
            steps.append(("pour", ENQ + one[:self.rng.randrange(len(one))], self.rng.choice(PAUSES)))
        return steps

    def noise(self):
        rng = self.rng
        size = rng.choice([1, 2, 10, 100, 3000])
        some = rng.choice([rng.randbytes(size), bytes(rng.choices(CONTROLS, k=size)),
                           bytes(rng.choices(CONTROLS + bytes([10, 14, 254, 0]), k=size))])
        return [("pour", some, rng.choice(PAUSES))]

    def flood(self):
        """1 MiB at once."""
        rng, size = self.rng, 1 << 20
        whole = b"".join(ENQ + one for _ in range(9) for one in self.message(*rng.choice(KNOWN), self.item(3)))
        some = rng.choice([lambda: rng.randbytes(size), lambda: bytes([rng.choice(CONTROLS)]) * size,
                           lambda: bytes(rng.choices(CONTROLS, k=size)), lambda: whole * (size // len(whole) + 1)])()
        return [("pour", some[:size], rng.choice(PAUSES))]

    def opened(self):
        """First blocks of many messages that have no last one, up to the longest text and past it."""
        rng = self.rng
        count, blocks = rng.choice([(17, 1), (40, 3), (16, 268), (3, 270)])
        characters = b""
        for number in range(1, blocks + 1):
            for system in range(count):
                characters += ENQ + frame(6, 11, 0xA0000000 + system, rng.randbytes(244), number, False,
                                          is_tool=self.is_tool)
        return [("pour", characters, rng.choice(PAUSES))]

    def asked(self):
        """Questions of one message for far more than a message may have, and reports of that size."""
        rng, pick = self.rng, self.rng.choice
        count = pick([17, 300, 5000, 21000])
        variables = b"".join(headed("U1", 1, bytes([rng.randrange(1, 17)])) for _ in range(count))
        listed = b"\x03" + count.to_bytes(3, "big") + variables
        report = headed("U1", 1, bytes([rng.randrange(30, 40)]))
        zero, one = headed("U1", 1, b"\x00"), headed("U1", 1, b"\x01")
        defined = list_of([zero, list_of([list_of([report, listed])])])
        linked = list_of([zero, list_of([list_of([one, list_of([report])])])])
        messages = [[(1, 3, listed)], [(1, 11, listed)], [(2, 33, defined), (6, 19, report)],
                    [(2, 33, defined), (2, 35, linked), (2, 37, list_of([headed("BOOLEAN", 1, b"\x01"), list_of([])])),
                     (6, 15, one)]]
        steps = []
        for stream, function, body in pick(messages):
            steps += self.steps(self.message(stream, function, body))
        return steps
