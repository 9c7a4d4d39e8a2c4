"""A trace as a story: its lines in order, with what has become of the characters that they write. `Told` finds that in
the trace alone; replayed.py follows the schedule."""
import re
import sys
from bisect import bisect_left

OTHER = {"E": "H", "H": "E"}
ENQ, EOT, ACK, NAK = 0x05, 0x04, 0x06, 0x15
CONTROLS = {ENQ: "ENQ", EOT: "EOT", ACK: "ACK", NAK: "NAK"}
FRAME = "a frame"
# The lines that have a block's header.
HEADED = ("duplicate", "unexpected", "foreign", "toolong", "crowded", "t4")
# The form of each line behind its moment, as docs/PROFILE.md has it.
FORMS = (
    "end", "X start len=N base=N", "E setup N", "H start", "X power", "X closed", "X sent NAME SYS BODY",
    "X rx NAME SYS BODY", "X tx HEX",
    "X comms (DISABLED|WAIT-CRA|WAIT-DELAY|NOT-COMMUNICATING|COMMUNICATING)",
    "E control (EQUIPMENT-OFF-LINE|ATTEMPT-ON-LINE|HOST-OFF-LINE|LOCAL|REMOTE)", "E spool (ACTIVE|INACTIVE)",
    "E set N", "E event N N", "E alarm N (set|clear)", "E command .*", "E display N BODY", "E refused",
    "E (keeping|kept) NAME", "E storing N NAME", "E stored N", "E leaving N (confirmed|purged|overwritten)", "E gone N",
    "H listing N NAME", "H listed N",
    "E try N SYS", "X (duplicate|unexpected|foreign|toolong|crowded|t4) HEADER", "X (failed|t3|stranger) NAME SYS",
    "X (dropped|denied|discarded|toolong|full) NAME", "X slip (N|-) FRAME",
)
PARTS = {"X": "[EH]", "N": "[0-9]+", "NAME": "S[0-9]+F[0-9]+( W)?", "SYS": "[0-9A-F]{8}", "HEADER": "[0-9A-F]{20}",
         "HEX": "([0-9A-F]{2})+", "FRAME": "([0-9A-F]{2}){13,}", "BODY": "(([0-9A-F]{2})+|-)"}
FORM = re.compile("|".join(re.sub(r"\b[A-Z]+\b", lambda part: PARTS.get(part[0], part[0]), form) for form in FORMS))


def refuse(text):
    """Ends with this on standard error, and the status 1."""
    sys.exit(f"ladder: {text}")


class Line:
    """A line of a trace. That of the end has no side."""

    def __init__(self, number, moment, side, text):
        self.number, self.moment, self.side, self.text = number, moment, side, text
        self.kind, *self.words = text.split(" ")
        self.raw = bytes.fromhex(self.words[0]) if self.kind == "tx" else b""

    def header(self):
        """The header in the line, where it has one: `toolong` has it of a block, and a name of a message."""
        is_headed = self.kind in HEADED and re.fullmatch(PARTS["HEADER"], self.words[0])
        return bytes.fromhex(self.words[0]) if is_headed else None

    def tells_block(self):
        """Whether it tells of a block that has come."""
        return self.kind in ("rx", "slip") or self.kind != "t4" and self.header() is not None

    def starts_with(self, what):
        """Whether it is `tx` of this character, or of a frame."""
        first = first_of(self.raw)
        return bool(self.raw) and (is_frame(first) if what == FRAME else first == bytes([what]))

    def is_primary(self):
        """Whether it names a message whose function is odd."""
        return bool(re.match("S[0-9]+F[0-9]*[13579]$", " ".join(self.words[:1])))


def read_trace(name, text):
    """The lines of a trace. One that is none is refused by its number."""
    lines = []
    for number, line in enumerate(text.split("\n"), 1):
        if not line:
            continue
        moment, _, rest = line.partition(" ")
        if not re.fullmatch("[0-9]+", moment) or not FORM.fullmatch(rest):
            refuse(f"{name}, line {number}: this is no line of a trace: {line[:40]!r}")
        if lines and (lines[-1].text == "end" or int(moment) < lines[-1].moment):
            refuse(f"{name}, line {number}: it can't follow the line before it")
        side, text = (None, rest) if rest == "end" else rest.split(" ", 1)
        lines.append(Line(number, int(moment), side, text))
    return lines


def first_of(raw):
    """The first of what a step has written: a control character or a frame. A 15 is NAK unless a frame follows."""
    if raw[:1] and raw[0] in CONTROLS and not (raw[0] == NAK and len(raw) >= NAK + 3):
        return raw[:1]
    return raw[:raw[0] + 3] if raw else raw


def is_frame(raw):
    """Whether these are all characters of a block, from its length to its sum."""
    return len(raw) == raw[0] + 3 > 12


class Piece:
    """A control character, a frame, or noise, on its way from this side. Places are those of items."""

    def __init__(self, side, raw, at, is_noise=False):
        self.side, self.raw, self.at, self.is_noise = side, raw, at, is_noise
        self.left = len(raw)    # how many characters of it are on their way
        self.marks = []         # where some of them were lost, or one was changed
        self.end = self.moment = None   # where and when it has ended
        self.fate = None        # how: taken, lost, or broken, where it came and was no whole frame
        self.blocks = None      # of how many blocks its message is, where a later one tells it
        self.is_again = False   # whether this end's frame before it was the same

    def is_frame(self):
        return is_frame(self.raw)

    def is_answer(self):
        """Whether it answers a block."""
        return not self.is_frame() and self.raw[0] in (ACK, NAK)

    def ends(self, place, moment, fate):
        """What has become of it, and where."""
        self.end, self.moment, self.fate = place, moment, fate

    def name(self):
        """What it is: a message's block, or the characters."""
        if self.is_frame():
            return header_name(self.raw[1:11], self.blocks)
        return self.raw.hex().upper() if self.is_noise else CONTROLS.get(self.raw[0], self.raw.hex().upper())


def block_of(header):
    """A block's number, and whether it is the last one of its message."""
    return (header[4] & 127) << 8 | header[5], header[4] > 127


def header_name(header, blocks=None):
    """What a header says: the message's name and system bytes, and the block where it isn't the only one, of how many
    where the last one tells it."""
    name = f"S{header[2] & 127}F{header[3]}{' W' if header[2] & 128 else ''} {header[6:10].hex().upper()}"
    number, is_last = block_of(header)
    if is_last and number <= 1:
        return name
    blocks = number if is_last else blocks
    return f"{name} block {number}{f'/{blocks}' if blocks else ''}"


class Item:
    """Something that has a row of its own in the picture, or a part of one: a line of the trace, what the schedule does
    to characters on their way to `side` (a deed), or a moment at which only silent things happen (a clock)."""

    def __init__(self, kind, moment, side=None, text="", line=None):
        self.kind, self.moment, self.side, self.text, self.line = kind, moment, side, text, line
        self.pieces = []


class Story:
    """The items in their order, with the fate of each piece."""

    def __init__(self, lines):
        self.lines, self.items, self.now = lines, [], 0
        self.newest = {}        # the newest frame of each end
        self.frames = {side: [(at, line.raw) for at, line in enumerate(lines)
                              if line.side == side and line.starts_with(FRAME)] for side in "EH"}
        self.blocks = {line: number for side in "EH" for line, number in self.counted(side)}

    def counted(self, side):
        """The lines with a frame of this end, each with the number of the last block of its message."""
        counts = {}
        for at, raw in reversed(self.frames[side]):
            key, (number, is_last) = raw[1:5] + raw[7:11], block_of(raw[1:11])
            if is_last:
                counts[key] = number
            yield self.lines[at], counts.get(key)

    def add(self, item):
        """Adds an item; a clock of its moment in front of it is needless."""
        if self.items and self.items[-1].kind == "clock" and self.items[-1].moment == item.moment:
            self.items.pop()
        self.items.append(item)
        return item

    def add_line(self, line):
        """Adds a line, with the pieces that it writes."""
        item = self.add(Item("tx" if line.raw else line.kind, line.moment, line.side, line.text, line))
        rest = line.raw
        while rest:
            piece = Piece(line.side, first_of(rest), len(self.items) - 1)
            if piece.is_frame():
                piece.blocks, piece.is_again = self.blocks.get(line), piece.raw == self.newest.get(line.side)
                self.newest[line.side] = piece.raw
            item.pieces.append(piece)
            rest = rest[len(piece.raw):]
        return item

    def has_frame(self, side, at):
        """Whether this end writes a frame from this line on."""
        return bool(self.frames[side]) and self.frames[side][-1][0] >= at

    def is_again(self, side, at):
        """Whether the first frame of this end from this line on is the one before it, or none is there."""
        frames = self.frames[side]
        behind = bisect_left(frames, (at, b""))
        return behind == len(frames) or behind > 0 and frames[behind][1] == frames[behind - 1][1]

    def is_replied(self, side, at):
        """Whether a reply to this end's newest message comes from this line on, before its next frame. It cancels the
        message's block, so no line tells whether the ACK of that was lost."""
        frames = self.frames[side]
        behind = bisect_left(frames, (at, b""))
        system = frames[behind - 1][1][7:11].hex().upper() if behind else None
        return any(line.side == side and line.kind == "rx" and line.words[-2] == system
                   for line in self.lines[at:frames[behind][0] if behind < len(frames) else None])

    def place(self):
        """The place of the next item. Where none has come at this moment, one is made."""
        if not self.items or self.items[-1].moment != self.now:
            self.items.append(Item("clock", self.now))
        return len(self.items) - (self.items[-1].kind == "clock")


class Told(Story):
    """A piece is taken where the other end has answered it. What came before it on the same way has gone, too. What no
    line tells stays open."""

    def follow(self):
        """The items of the story, each piece with its fate."""
        way = {"E": [], "H": []}
        both = len({line.side for line in self.lines if line.side}) == 2
        begin = 0
        for at, line in enumerate(self.lines):
            self.now = line.moment
            item = self.add_line(line)
            before = self.items[at - 1] if at else item
            if before.side != item.side or before.moment != item.moment or before.kind == "tx":
                begin = at
            if line.tells_block():
                self.hears(at, way[line.side], "broken" if line.kind == "slip" else "taken")
            if line.kind == "power" or not line.side:
                for piece in way["E"] + way["H"]:
                    if piece.is_frame() and piece.end is None and both:
                        piece.ends(at, self.now, "lost")
                way = {"E": [], "H": []}
            for piece in item.pieces:
                self.answers(piece, begin, at, way[line.side], both)
            way[OTHER.get(line.side, "E")] += item.pieces
        return self.items

    def hears(self, at, way, fate):
        """A block has come: the newest one on its way."""
        frames = [piece for piece in way if piece.is_frame()]
        if frames and frames[-1].end is None:
            frames[-1].ends(at, self.now, fate)

    def answers(self, piece, begin, at, way, both):
        """This end has written a piece: what is taken of those on the way to it."""
        wanted = {ENQ: None, EOT: ENQ, ACK: FRAME, NAK: FRAME}.get(piece.raw[0] if not piece.is_frame() else None, EOT)
        if wanted is None:
            is_open = self.is_replied(piece.side, at)
            if is_open or not self.is_again(piece.side, at):
                for other in way:
                    if other.is_answer() and not is_open:
                        other.ends(at, self.now, "taken")
                way[:] = [other for other in way if not other.is_answer()]
            return
        fits = [other for other in way if (FRAME if other.is_frame() else other.raw[0]) == wanted]
        if not fits:
            return
        for other in way[:way.index(fits[-1])]:
            if other.is_frame() and both:
                other.ends(other.at + 1, self.now, "lost")
            elif other.is_answer() and not (piece.is_again and other.raw[0] == ACK):
                other.ends(begin, self.now, "taken")
        if fits[-1].end is None:
            is_broken = piece.raw[0] == NAK and not piece.is_frame()
            fits[-1].ends(at, self.now, "broken" if is_broken else "taken")
        del way[:way.index(fits[-1]) + 1]


def spool_lengths(items):
    """How many messages the spool has from each of these places on."""
    lengths, length, cause = [], 0, None
    for at, item in enumerate(items):
        before = length
        if item.kind == "start" and item.side == "E":
            length = int(item.line.words[0].removeprefix("len="))
        elif item.kind == "stored":
            length += 1
        elif item.kind == "leaving":
            cause = item.line.words[-1]
        elif item.kind == "gone":
            length = 0 if cause == "purged" else max(length - 1, 0)
        if length != before:
            lengths.append((at, length))
    return lengths


def spool_actives(items):
    """From where to where the spool is active; the last one may have no end."""
    spans, since = [], None
    for at, item in enumerate(items):
        words = item.line.words if item.line and item.side == "E" else []
        if since is None and (words == ["ACTIVE"] or item.kind == "start" and words and words[0] != "len=0"):
            since = at
        elif since is not None and (item.kind == "power" and item.side == "E" or words == ["INACTIVE"]):
            spans.append((since, at))
            since = None
    return spans if since is None else [*spans, (since, None)]
