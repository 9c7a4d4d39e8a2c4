"""A reading of trace data: what the tool is to answer S2F23, and which S6F1 its samples bring.

A sample is taken in the first step that is late enough: the one that a `wait` makes. It has the values that stand
before that step. So the moments of a schedule and the lines so far say which S6F1 are due in it. Each of these has one
line in that step, in the order in which the traces were set: it goes, alone or behind the S6F5 that asks leave for it,
or it is dropped, too long, or full.
"""
import re

from spelling import headed, leave_for, list_of, parsed, u4

MOST_TRACES, MOST_VARIABLES, MOST_VALUES = 16, 256, 4096
MOST_OPEN = 64
BLOCK = 244
GRANTED = "210100"
S6F1 = ["S6F1", "W"]
# What a step may note before its samples: what its timers bring, with what is stored then.
MOVES = ("storing", "leaving")
BY_TIMERS = ("t4", "t3", "failed", "dropped", "denied", "comms", "control", "spool", "sent", "full", "power", "toolong",
             "discarded", "stored", "gone", *MOVES)


def moments_of(schedule):
    """The moments to which the clock moves."""
    now, moments = 0, []
    for line in schedule.splitlines():
        if line.startswith("wait ") and int(line[5:]) > 0:
            now += int(line[5:])
            moments.append(now)
    return moments


def period_of(text):
    """The period in milliseconds, of hhmmss or hhmmsscc."""
    if not re.fullmatch(rb"[0-9]{2}([0-5][0-9]){2}([0-9]{2})?", text):
        return None
    hours, minutes, seconds, hundredths = (int(text[at:at + 2] or b"0") for at in (0, 2, 4, 6))
    return ((hours * 60 + minutes) * 60 + seconds) * 1000 + hundredths * 10


class Trace:
    def __init__(self, number, period, total, group, variables, now):
        self.number, self.period, self.total, self.group, self.variables = number, period, total, group, variables
        self.last, self.taken, self.held = now, 0, []

    def sample(self, now, values):
        """The S6F1 that is due with this sample, if one is."""
        self.last, self.taken = now, self.taken + 1
        self.held += [values[variable] for variable in self.variables]
        if self.taken % self.group and self.taken < self.total:
            return None
        body = list_of([u4(self.number), u4(self.taken), headed("A", 0, b""), list_of(self.held)])
        self.held = []
        return Due(body)


class Due:
    """An S6F1 that a sample has brought."""

    def __init__(self, body):
        self.body, self.text, self.is_long = body, body.hex().upper(), len(body) > BLOCK
        self.inquiry = leave_for(body).hex().upper()


class Tracing:
    """The traces of one start of the tool, and the S6F1 that they bring."""

    def __init__(self, plan):
        self.plan, self.running = plan, []
        self.due, self.is_begun = [], False         # what the newest samples have brought, and whether one has its line
        self.inquired = {}                          # what waits for leave, by the system bytes of its S6F5
        self.left = None                            # what has just stopped waiting, and the lines that it may have

    # Requests.

    def set(self, body, now):
        """Carries out an S2F23. The answer is TIAACK."""
        number, text, total, group, variables = parsed(body)
        others = [trace for trace in self.running if trace.number != number]
        code = self.code(others, period_of(text), total, group, variables)
        if code == 0:
            self.running = others
        if code == 0 and total > 0:
            self.running.append(Trace(number, period_of(text), total, group, variables, now))
        return code

    def code(self, others, period, total, group, variables):
        if total == 0:
            return 0
        if period is None or period < 100:
            return 3
        if not 0 < group <= total or group * len(variables) > MOST_VALUES:
            return 5
        if len(variables) > MOST_VARIABLES:
            return 1
        if not set(variables) <= set(self.plan.variables):
            return 4
        return 2 if len(others) >= MOST_TRACES else 0

    # Samples.

    def sample(self, now, values):
        """The step of this moment takes its samples."""
        late = [trace for trace in self.running if now >= trace.last + trace.period]
        self.due = [due for due in (trace.sample(now, values) for trace in late) if due]
        self.is_begun = False
        self.running = [trace for trace in self.running if trace.taken < trace.total]

    def missing(self):
        """What is wrong where no S6F1 of the newest samples can come any more."""
        due, self.due = self.due, []
        return f"{len(due)} S6F1 that were due have no line, at first {due[0].text}" if due else None

    # Lines.

    def read(self, kind, words, before, tool):
        """What is wrong with this line of the tool. `before` is the one before it."""
        if self.left:
            return self.read_left(kind, words, tool)
        if self.due and is_new(kind, words, before):
            return self.read_due(self.due.pop(0), kind, words, tool)
        if self.due and (self.is_begun or kind not in BY_TIMERS):
            return self.missing()
        if words[:1] == S6F1[:1] and kind in ("sent", "dropped", "denied", "toolong", "full") or words[1:] == S6F1:
            return "no S6F1 is due here"
        return self.read_end(kind, words)

    def read_due(self, due, kind, words, tool):
        """The next S6F1 that is due has this line."""
        self.is_begun = True
        if not tool.is_online:
            ways = ["dropped"]
        elif len(due.body) > self.plan.max_body:
            ways = ["toolong"]
        elif not tool.is_communicating:
            ways = ["dropped"]
        else:
            ways = ["sent", "full"]
        asks = due.is_long and "sent" in ways
        if kind not in ways or words[:2] != (["S6F5", "W"] if asks else S6F1):
            return f"this S6F1 is to be {' or '.join(ways)}{', behind S6F5' if asks else ''}: {due.text}"
        if kind == "sent" and words[3] != (due.inquiry if asks else due.text):
            return f"this is due: {due.inquiry if asks else due.text}"
        if kind == "sent" and asks:
            self.inquired[words[2]] = due
        return full(tool) if kind == "full" else None

    def read_end(self, kind, words):
        """Where this line ends the wait of an S6F1, the next one is to be its own."""
        if kind == "rx" and words[0] in ("S6F6", "S6F0") and words[1] in self.inquired:
            is_granted = words[0] == "S6F6" and words[2] == GRANTED
            self.left = self.inquired.pop(words[1]), ("sent", "full") if is_granted else ("denied",)
        elif kind in ("failed", "t3") and words[0] == "S6F5" and words[-1] in self.inquired:
            self.left = self.inquired.pop(words[-1]), ("dropped",) if kind == "failed" else ("denied",)
        return None

    def read_left(self, kind, words, tool):
        (due, ways), self.left = self.left, None
        if kind not in ways or words[:2] != S6F1 or kind == "sent" and words[3] != due.text:
            return f"the S6F1 that waited is to be {' or '.join(ways)}: {due.text}"
        return full(tool) if kind == "full" else None


def is_new(kind, words, before):
    """Whether this line can be of an S6F1 that a sample has brought. An S6F5 behind `try` is of the spool."""
    if kind in ("sent", "full") and words[:1] == ["S6F5"]:
        return before[:1] != ["try"]
    return kind in ("sent", "dropped", "toolong", "full") and words[:1] == S6F1[:1]


def full(tool):
    return None if len(tool.unanswered) >= MOST_OPEN else f"only {len(tool.unanswered)} messages are open"
