"""What has become of the characters of a trace, by the schedule that was replayed."""
import re
from collections import deque

from story import ACK, ENQ, EOT, FRAME, NAK, OTHER, Item, Piece, Story, refuse

IDLE, AWAIT_EOT, AWAIT_ACK, AWAIT_LENGTH, GATHERING, SETTLING = range(6)
# How a command begins what it notes.
BEGINS = {
    "set": ("set", "refused"), "event": ("event", "refused"), "alarm": ("alarm", "refused"),
    "terminal": ("sent", "dropped", "storing", "toolong", "full", "discarded", "leaving"),
    "send": ("sent", "dropped", "toolong", "full"),
    "enable": ("comms",), "disable": ("failed", "dropped", "comms"),
    **dict.fromkeys(("online", "offline", "local", "remote"), ("control",)),
}
LIMIT = 65_536
T2 = 10_000     # of a plan that doesn't name it


class Lost(Exception):
    """The power is lost: nothing more of the event is carried out."""


class Over(Exception):
    """The trace has ended."""


def read_schedule(name, text):
    """The lines of a schedule, each with its number. One that is none is refused by it."""
    forms = ("to [EH] N", "settle", "wait N", "lose [EH] N", "change [EH] N B", "add [EH] B", "tool .+", "host .+",
             "h?cut N (old|new|fill B|first N)")
    form = "|".join(forms).replace("N", "[0-9]{1,10}").replace("B", "[0-9A-Fa-f]{2}")
    events = []
    for number, line in enumerate(text.split("\n"), 1):
        if line and line[0] != "#":
            if not re.fullmatch(form, line):
                refuse(f"{name}, line {number}: this is no line of a schedule: {line[:40]!r}")
            events.append((number, line))
    return events


class Replayed(Story):
    """Carries out the schedule over the line alone: each end goes by the table of the block transfer, and the lines of
    the trace say what it does where that table leaves it open."""

    def __init__(self, lines, events, t2=T2):
        super().__init__(lines)
        self.events, self.event, self.next, self.cut, self.t2 = events, -1, 0, None, t2
        self.wrote = {"E": 0, "H": 0}               # when an end has written last
        self.way = {"E": deque(), "H": deque()}     # the characters on their way to an end: piece, place, byte
        self.phase = {"E": IDLE, "H": IDLE}
        self.got = {"E": [], "H": []}               # what has come of a frame
        self.comms = {"E": "DISABLED", "H": "DISABLED"}

    def follow(self):
        """The items of the story, by the events of the schedule."""
        try:
            for side in "EH":
                self.take_line(side, "start")
            self.pass_time("E", "enable")
            self.pass_time("H", "enable")
            for self.event, (_, event) in enumerate(self.events):
                self.happen(event.split(" ", 1))
            if self.next < len(self.lines):
                self.take_line(None, "end")
        except Over:
            pass
        if self.next < len(self.lines):
            self.misfit()
        return self.items

    def misfit(self):
        """Refuses the trace: it is of another schedule."""
        number = self.events[self.event][0] if self.event >= 0 else 0
        refuse(f"line {self.lines[self.next].number} of the trace isn't what the schedule brings by its line {number}")

    def happen(self, event):
        """One line of the schedule."""
        kind, words = event[0], event[-1].split(" ")
        if kind in ("cut", "hcut"):
            self.cut = " ".join(event)
            return
        cut = self.cut
        try:
            getattr(self, f"event_{kind}")(*words if len(event) > 1 else ())
            if self.cut:
                self.lose_power()
        except Lost:
            pass
        if cut:
            self.cut = None

    # The lines of the trace.

    def peek(self, side):
        """The next line, where it is this end's at this moment."""
        if self.next < len(self.lines):
            line = self.lines[self.next]
            if line.side == side and (line.moment == self.now or side is None):
                return line
        return None

    def take(self):
        """Takes the next line of the trace; what it writes is on its way then."""
        line = self.lines[self.next]
        self.next += 1
        if line.kind == "comms":
            self.comms[line.side] = " ".join(line.words)
        item = self.add_line(line)
        if line.kind == "power":
            item.text += f", by {self.cut}"
        if line.raw:
            self.wrote[line.side] = self.now
        for piece in item.pieces:
            self.way[OTHER[line.side]].extend((piece, at, byte) for at, byte in enumerate(piece.raw))
            self.phase[line.side] = AWAIT_ACK if piece.is_frame() else \
                {ENQ: AWAIT_EOT, EOT: AWAIT_LENGTH}.get(piece.raw[0], IDLE)
        return line

    def take_line(self, side, kind):
        """Takes the next line, which must be of this kind, unless the trace has ended."""
        line = self.peek(side)
        if self.next == len(self.lines):
            raise Over
        if not line or line.kind != kind:
            self.misfit()
        self.take()

    def takes_notes(self, side, is_else=lambda line: False):
        """Takes the notes of a step, and answers their kinds."""
        kinds = []
        while (line := self.peek(side)) and line.kind not in ("tx", "power", "end") and not is_else(line):
            kinds.append(self.take().kind)
        return kinds

    def is_next(self, side, *what):
        """Whether this end writes one of these next."""
        line = self.peek(side)
        return bool(line) and any(line.starts_with(one) for one in what)

    def writes(self, side, *what):
        """A step that may write one of these."""
        if self.is_next(side, *what):
            self.take()

    def answers(self, side, what):
        """A step that surely writes this, unless the power goes in it."""
        self.takes_notes(side)
        if self.is_next(side, what):
            self.take()
        else:
            self.may_lose_power(side)
            if self.items and self.items[-1].kind == "slip" or self.next == len(self.lines):
                raise Over
            self.misfit()

    def is_of_else(self, side, command=""):
        """Whether a line is of another step of this end: of a block that has come, or of another command."""
        def is_else(line):
            before = self.lines[self.next - 1]
            if line.tells_block() or line.kind in ("stranger", "command", "display"):
                return True
            if line.kind in ("failed", "t3", "t4"):
                return command not in ("", "disable")
            if line.kind == "comms":
                return command not in ("enable", "disable") and "DISABLED" in (*line.words, self.comms[side])
            if side == "H":
                return line.kind in BEGINS["send"] and line.is_primary()
            if line.kind in ("sent", "dropped", "full"):
                return line.words[:1] == ["S10F1"] and before.kind != "try"
            return line.kind in ("set", "event", "alarm", "refused") or line.words == ["ATTEMPT-ON-LINE"]
        return is_else

    # The steps.

    def pass_time(self, side, command=""):
        """A step with time alone. The first one of a start may enable the communication, as a command does."""
        phase, is_else = self.phase[side], self.is_of_else(side, command)
        if phase == AWAIT_ACK and self.is_by_hearing(side):
            self.takes_notes(side, lambda line: is_else(line) or line.kind in ("failed", "comms"))
            return
        kinds = self.takes_notes(side, is_else)
        self.may_lose_power(side)
        if phase in (AWAIT_LENGTH, GATHERING, SETTLING):
            self.writes(side, NAK)
        elif phase == IDLE:
            if "sent" in kinds:
                self.writes(side, ENQ)
        else:
            if not self.is_next(side, ENQ) and ("failed" in kinds or "comms" in kinds):
                self.phase[side] = IDLE
            self.writes(side, ENQ)

    def is_by_hearing(self, side):
        """Whether what an end does that awaits ACK comes of a character that it is to hear at this moment, and not of
        T2. Where it sends the same block again though ACK is on its way, T2 has run out."""
        byte = self.next_heard(side)
        if byte == ACK and self.has_frame(side, self.next):
            return not self.is_again(side, self.next)
        return byte is not None and self.now - self.wrote[side] < self.t2

    def next_heard(self, side):
        """The first that this end hears at this moment of what is on its way."""
        bytes_left = [byte for _, _, byte in self.way[side]]
        for _, event in self.events[self.event + 1:]:
            if event.startswith(f"lose {side}"):
                del bytes_left[:int(event[7:])]
            if not bytes_left or event.startswith("wait") and int(event[5:]):
                break
            if event.startswith(("settle", f"to {side}")):
                return bytes_left[0]
        return None

    def do(self, side, words):
        """A step with a command."""
        command = words[0]
        if command not in BEGINS:
            self.misfit()
        begins, is_else = BEGINS[command], self.is_of_else(side, command)
        line, kinds = self.peek(side), []
        if line and line.kind in begins and (command != "alarm" or line.words in ([], list(words[1:]))):
            kinds = [self.take().kind] + self.takes_notes(side, is_else)
        elif command in ("set", "event", "send") and self.next < len(self.lines) and not self.cut:
            self.misfit()
        self.may_lose_power(side)
        if "sent" in kinds and (self.phase[side] in (IDLE, AWAIT_EOT) or not self.way[side]):
            self.writes(side, ENQ)

    def hear(self, side):
        """A step with the next character."""
        char = piece, _, byte = self.way[side].popleft()
        phase, got = self.phase[side], self.got[side]
        piece.left -= 1
        if piece.left == 0:
            piece.ends(self.place(), self.now, "broken" if piece.is_frame() else "taken")
        if phase == AWAIT_EOT and byte == EOT:
            self.answers(side, FRAME)
        elif byte == ENQ and phase < AWAIT_LENGTH and (phase == IDLE or phase == AWAIT_EOT and side == "H"
                                                       or self.is_next(side, EOT)):
            self.answers(side, EOT)
        elif phase == AWAIT_ACK:
            self.phase[side] = IDLE
            if byte != ACK:
                self.takes_notes(side, self.is_of_else(side))
                self.may_lose_power(side)
            self.writes(side, ENQ)
        elif phase == AWAIT_LENGTH:
            self.phase[side] = GATHERING if 10 <= byte <= 254 else SETTLING
            got[:] = [char]
        elif phase == GATHERING:
            got.append(char)
            if len(got) == got[0][2] + 3:
                self.gathered(side, got)

    def gathered(self, side, got):
        """All characters of a frame have come: it is answered where its sum is right."""
        raw = bytes(byte for _, _, byte in got)
        if sum(raw[1:-2]) & 0xFFFF != int.from_bytes(raw[-2:], "big"):
            self.phase[side] = SETTLING
            return
        piece = got[-1][0]
        if raw == piece.raw and all(char[:2] == (piece, at) for at, char in enumerate(got)):
            piece.fate = "taken"
        self.answers(side, ACK)

    def may_lose_power(self, side):
        """Ends the event where a cut has stopped this step."""
        line = self.peek(side)
        if self.cut and line and line.kind == "power":
            self.lose_power()
            raise Lost

    def lose_power(self):
        """An end's power goes: the line is emptied both ways, and that end starts anew."""
        side = "H" if self.cut.startswith("hcut") else "E"
        self.take_line(side, "power")
        for piece in {char[0]: None for chars in self.way.values() for char in chars}:
            piece.ends(len(self.items) - 1, self.now, "lost")
        for chars in self.way.values():
            chars.clear()
        self.phase[side], self.comms[side], self.cut = IDLE, "DISABLED", None
        if self.next == len(self.lines):
            raise Over
        self.take_line(side, "start")
        self.pass_time(side, "enable")

    # The events.

    def event_settle(self):
        for _ in range(LIMIT):
            if not (self.way["E"] or self.way["H"]):
                break
            self.hear("E" if self.way["E"] else "H")

    def event_to(self, side, count):
        for _ in range(int(count)):
            if not self.way[side]:
                break
            self.hear(side)

    def event_wait(self, time):
        self.now += int(time)
        self.pass_time("E")
        self.pass_time("H")

    def event_tool(self, *words):
        self.do("E", words)

    def event_host(self, *words):
        self.do("H", words)

    def event_lose(self, side, count):
        lost = {}
        for _ in range(min(int(count), len(self.way[side]))):
            piece = self.way[side].popleft()[0]
            piece.left -= 1
            lost[piece] = lost.get(piece, 0) + 1
        if not lost:
            return
        told = [piece.name() if number == len(piece.raw) else f"{number} of {len(piece.raw)} of {piece.name()}"
                for piece, number in lost.items()]
        self.add(Item("deed", self.now, side, f"lost: {', '.join(told)}"))
        for piece in lost:
            if piece.left:
                piece.marks.append(len(self.items) - 1)
            else:
                piece.ends(len(self.items) - 1, self.now, "lost")

    def event_change(self, side, at, byte):
        chars, at, byte = self.way[side], int(at), int(byte, 16)
        if at < len(chars) and chars[at][2] != byte:
            piece, place, before = chars[at]
            chars[at] = piece, place, byte
            self.add(Item("deed", self.now, side, f"changed: {before:02X} to {byte:02X} in {piece.name()}"))
            piece.marks.append(len(self.items) - 1)

    def event_add(self, side, byte):
        item = self.add(Item("deed", self.now, side, f"added: {byte.upper()}"))
        piece = Piece(OTHER[side], bytes.fromhex(byte), len(self.items) - 1, is_noise=True)
        item.pieces.append(piece)
        self.way[side].appendleft((piece, 0, piece.raw[0]))
