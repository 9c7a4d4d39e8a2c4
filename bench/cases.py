"""Runs of every command, for the scripts that let something fail in them: what each is given, what it must write, and
what must stand in its spool file behind a run that failed.

An end of a line runs with the other end, which nothing fails in. The tool finds two messages in a file of three slots
and stores two alarms, of which the second overwrites a message. The host asks for one message, enables all events,
which the tool keeps, and asks then for a purge of the rest; the last alarm goes to it at once. A host with a journal,
of version 1 at first, does the same and lists both.
"""
import os
import subprocess
import tempfile

from ends import free_port, is_listening, wait_for
from frames import frame
from reading import Plan

EXAMPLES = os.path.join(os.path.dirname(os.path.abspath(__file__)), "..", "examples")
LONGEST = 60
# How many bytes a copy of a setup has, and where its cell stands.
COPY, CELL = 262144, 47
PLAN = b"""[line]
t1 = 10000
[equipment]
mdln = "T"
max_transmit = 1
[[alarm]]
alid = 7
text = "HOT"
[[alarm]]
alid = 8
text = "DOOR"
"""
TOOL = b"500 alarm 7 set\n500 alarm 8 set\n3000 alarm 7 clear\n4500 stop\n"
HOST = b"1000 send S6F23 W <U1 0>\n1500 send S2F37 W <L <BOOLEAN 01> <L>>\n2000 send S6F23 W <U1 1>\n9000 stop\n"
# The texts of the statuses, of those that come where something fails.
TEXTS = {66: "66 file {}", 68: "68 read", 69: "69 link", 71: "71 memory", 73: "73 write", 74: "74 disk"}


def example(name):
    with open(os.path.join(EXAMPLES, name), "rb") as file:
        return file.read()


class Case:
    """One run: its words, its files and standard input, and the status that it ends with where nothing fails."""

    def __init__(self, name, words, given=b"", status=0, **files):
        self.name, self.words, self.given, self.status, self.files = name, words, given, status, files
        self.is_end = words[0] in ("equipment", "host")


def replays(name, plan, schedule, status=0):
    return Case(f"replay, {name}", ["replay", "plan", "schedule"], status=status, plan=example(plan),
                schedule=example(schedule))


# Two messages of two blocks by turns, one block twice; a second block without a first; and 17 messages that are open.
BLOCKS = [(1, 1), (2, 1), (2, 1), (1, 2), (2, 2), (3, 2), *[(system, 1) for system in range(9, 26)]]
SHOWN = b"".join(frame(6, 11, system, b"A", number, number == 2) for system, number in BLOCKS)
SPOOL, LISTED = example("spools/two-messages.spool"), example("spools/two-messages.out").decode().splitlines()
# The tool's file has an area for a setup.
EQUIPMENT = Case("equipment", ["equipment", "plan", "", "spool"], TOOL, plan=PLAN, spool=SPOOL + bytes(2 * COPY))
OTHER_END = Case("host", ["host", "plan", ""], HOST, plan=PLAN)
# The journal has the name of a spool file, since what fails in it is judged so.
JOURNAL = Case("host, a journal", ["host", "plan", "", "--journal", "spool"], HOST, plan=PLAN,
               spool=(b"GLSPOOL1\0\0\0\x10").ljust(4096 * 17, b"\0"))
DROP = Case("drop", ["drop", "spool", "1"], spool=SPOOL)
CASES = [
    Case("show", ["show"], SHOWN),
    Case("spell", ["spell"], example("items/nested.text")),
    Case("spell --hex", ["spell", "--hex"], example("hex/nested.hex")),
    replays("a handshake", "schedules/empty.plan", "schedules/first-message.schedule"),
    replays("a report", "schedules/first-report.plan", "schedules/first-report.schedule"),
    replays("a message taken twice", "spooling/in-parts.plan", "spooling/in-parts.schedule"),
    replays("a message of two slots", "spooling/tool.plan", "spooling/two-slots.schedule"),
    replays("power lost", "losses/tool.plan", "losses/overwritten.schedule"),
    replays("no plan", "schedules/refused-plan.plan", "schedules/nothing.schedule", 65),
    Case("make", ["make", "3"]),
    Case("format", ["format", "spool", "3"]),
    Case("spool", ["spool", "spool"], spool=SPOOL),
    Case("no spool", ["spool", "spool"], status=78, spool=example("spools/other-name.spool")),
    DROP,
    EQUIPMENT,
    OTHER_END,
    JOURNAL,
]


def chosen(names):
    """The cases of these names, or all."""
    return [case for case in CASES if case.name in names or not names]


class Ran:
    """What a run came to. `listed` is what `gemline spool` says of its spool file behind it."""

    def __init__(self, status, out, err, folder):
        self.status, self.out, self.err = status, out, err
        self.left = {}
        for name in os.listdir(folder):
            with open(os.path.join(folder, name), "rb") as file:
                self.left[name] = file.read()
        self.listed = None


class Runner:
    def __init__(self, gemline):
        self.gemline = os.path.abspath(gemline)

    def run(self, case, before=(), env=None):
        """Runs it in a new folder, behind these words and with these variables of the environment more."""
        with tempfile.TemporaryDirectory(prefix="gemline-") as folder:
            self.fill(folder, case)
            if case.is_end:
                ran = self.run_end(case, folder, before, env)
            else:
                ran = self.wait(self.start(case, folder, before, env), folder)
            if "spool" in case.words:
                listed = subprocess.run([self.gemline, "spool", "spool"], cwd=folder, capture_output=True, text=True)
                ran.listed = listed.stdout.splitlines() if listed.returncode == 0 else None
            return ran

    def fill(self, folder, case):
        for name, data in {**case.files, "input": case.given}.items():
            with open(os.path.join(folder, name), "wb") as file:
                file.write(data)

    def start(self, case, folder, before=(), env=None, port=None):
        words = [f"127.0.0.1:{port}" if word == "" else word for word in case.words]
        with open(os.path.join(folder, "input"), "rb") as given, open(os.path.join(folder, "out"), "wb") as out, \
                open(os.path.join(folder, "err"), "wb") as err:
            return subprocess.Popen([*before, self.gemline, *words], cwd=folder, stdin=given, stdout=out, stderr=err,
                                    env={**os.environ, **(env or {})})

    def wait(self, end, folder):
        """One that doesn't end is killed, and its status is that."""
        try:
            end.wait(LONGEST)
        except subprocess.TimeoutExpired:
            end.kill()
            end.wait()
        told = []
        for name in ("out", "err"):
            with open(os.path.join(folder, name), "rb") as file:
                told.append(file.read().decode(errors="replace"))
        return Ran(end.returncode, *told, folder)

    def run_end(self, case, folder, before, env):
        """Runs an end with the other one, which is stopped where this one is gone before they met."""
        port, is_tool = free_port(), case is EQUIPMENT
        with tempfile.TemporaryDirectory(prefix="gemline-") as others:
            other_case = OTHER_END if is_tool else EQUIPMENT
            self.fill(others, other_case)
            if is_tool:
                end = self.start(case, folder, before, env, port)
                wait_for("the tool to listen", lambda: is_listening(port) or end.poll() is not None)
                other = None if end.poll() is not None else self.start(other_case, others, port=port)
            else:
                other = self.start(other_case, others, port=port)
                wait_for("the tool to listen", lambda: is_listening(port))
                end = self.start(case, folder, before, env, port)
            ran = self.wait(end, folder)
            if other is not None:
                other.kill()
                other.wait()
            return ran


def lines_of(case, out):
    """The lines of a run. Of an end's, their moments and those of single characters and blocks differ from run to run,
    and are left out."""
    lines = out.splitlines(keepends=True)
    if not case.is_end:
        return lines
    return [line.split(" ", 1)[1] for line in lines if line.split(" ")[2:3] != ["tx"] and line.endswith("\n")]


def is_front(case, out, whole):
    """Whether this output is a front of the whole one."""
    return "".join(lines_of(case, whole)).startswith("".join(lines_of(case, out)))


class Story:
    """The lists that stood in the tool's spool file, by the lines of its run, and which of them the lines tell as the
    last one. Those behind it may stand where its last work isn't done."""

    def __init__(self, found, out):
        plan, alarm, self.lists, self.told = Plan(PLAN.decode()), None, [found], 0
        for words in map(str.split, lines_of(EQUIPMENT, out)):
            last = self.lists[-1]
            if words[1] == "alarm":
                alarm = plan.alarm_body(int(words[2]), words[3]).hex().upper()
            elif words[1] == "storing":
                self.lists.append(last + [f"{words[2]} {words[3]} W {alarm}"])
            elif words[1:4:2] == ["leaving", "purged"]:
                self.lists += [last[count:] for count in range(1, len(last) + 1)]
            elif words[1] == "leaving":
                self.lists.append(last[1:])
            elif words[1] in ("stored", "gone"):
                self.told = len(self.lists) - 1


def mark_of(listed):
    """The first system bytes that aren't set aside, of a spool file that is listed so."""
    return int(listed[0].split("mark=")[1].split()[0])


def kept_in(file):
    """How many requests a spool file keeps."""
    gate = file[CELL + 16] % 2
    number, length = (int.from_bytes(file[at:at + 4], "big") for at in (CELL + 8 * gate, CELL + 8 * gate + 4))
    begin, count = len(file) - (2 - number) * COPY, 0
    kept = file[begin:begin + length]
    while kept:
        kept, count = kept[6 + int.from_bytes(kept[2:6], "big"):], count + 1
    return count


class Judge:
    """Says what is wrong with a run in which something failed, beside one in which nothing did."""

    def __init__(self, runner, case):
        self.case = case
        self.whole = self.whole_of(runner)
        self.wrong = [] if self.whole.status == case.status else [f"status {self.whole.status} where nothing fails"]
        if case is EQUIPMENT:
            self.story = Story(LISTED[1:], self.whole.out)
            self.wrong += self.of_spool(self.whole, 0)

    def whole_of(self, runner):
        """Runs it. Of an end's runs it is one that agrees with another, for a slow machine may change their order."""
        runs = []
        while True:
            ran = runner.run(self.case)
            lines = lines_of(self.case, ran.out)
            if not self.case.is_end or lines in runs or len(runs) > 9:
                return ran
            runs.append(lines)

    def of(self, ran, status, name=""):
        """What is wrong where this status is due, of this file."""
        due, wrong = TEXTS.get(status, "").format(name), []
        if ran.status != status or ran.err != f"gemline: {due}\n":
            wrong.append(f"status {ran.status} and {ran.err!r} where {status} is due")
        if not is_front(self.case, ran.out, self.whole.out):
            wrong.append(f"no front of the output: {ran.out[-300:]!r}")
        if status in (66, 68) and ran.out:
            wrong.append(f"output with {status}: {ran.out!r}")
        return wrong + self.of_file(ran, status)

    def of_same(self, ran, errors_fail=False):
        """What is wrong where the run must be as if nothing failed, or no more than a write to the errors."""
        wrong, front = [], self.whole.err[:len(ran.err)] if errors_fail else self.whole.err
        if ran.status != self.whole.status or ran.err != front:
            wrong.append(f"status {ran.status} and {ran.err!r} where nothing is to change")
        if lines_of(self.case, ran.out) != lines_of(self.case, self.whole.out):
            wrong.append(f"another output: {ran.out[-300:]!r}")
        return wrong + self.of_file(ran, self.whole.status)

    def of_file(self, ran, status):
        if self.case is EQUIPMENT:
            return self.of_spool(ran, status)
        if self.case is JOURNAL:
            return self.of_journal(ran, status)
        if self.case is DROP:
            left = LISTED[2:] if status in (0, 73) else LISTED[1:]
            if ran.listed[1:] not in ([left, LISTED[2:]] if status == 74 else [left]):
                return [f"the spool file has {ran.listed[1:]}"]
        if self.case.words[0] == "spool" and ran.left["spool"] != self.case.files["spool"]:
            return ["the spool file has changed"]
        if self.case.words[0] == "format" and status in (0, 73) and ran.listed != self.whole.listed:
            return [f"the file isn't formatted: {ran.listed}"]
        return []

    def of_spool(self, ran, status):
        """The list that stands is the one that the lines tell. With 74 the work that failed may be done or not. With 71
        and 73 the lines of the last step may lack, and a step changes the list twice at most."""
        if ran.listed is None:
            return ["no spool file is left"]
        wrong, story = [], Story(LISTED[1:], ran.out)
        lists = story.lists[story.told:] if status == 74 else story.lists[story.told:story.told + 1]
        if status in (71, 73):
            lists = self.story.lists[story.told:story.told + 3]
        if ran.listed[1:] not in lists:
            wrong.append(f"the spool file has {ran.listed[1:]}, which is none of {lists}")
        told, done = ran.out.count(" E kept "), self.whole.out.count(" E kept ")
        if kept_in(ran.left["spool"]) not in (range(told, done + 1) if status in (71, 73, 74) else [told]):
            wrong.append(f"{kept_in(ran.left['spool'])} requests are kept, by {told} lines")
        if status in (66, 68) and ran.left["spool"] != self.case.files["spool"]:
            wrong.append("the spool file has changed")
        is_started = lines_of(self.case, ran.out)[:1] == ["E start len=2 base=8192\n"]
        if mark_of(ran.listed) not in ([12288] if is_started else [8192, 12288]):
            wrong.append(f"the spool file has {ran.listed[0]}")
        return wrong

    def of_journal(self, ran, status):
        """The records are those whose lines tell of them, in order. With 74 the one that was being listed may be there,
        and with 71 and 73 the lines of the last step may lack."""
        if ran.listed is None:
            return ["no journal is left"]
        wrong, told, records = [], ran.out.count(" H listed "), ran.listed[1:]
        if records != self.whole.listed[1:][:len(records)]:
            wrong.append(f"the journal has {records}, which is no front of {self.whole.listed[1:]}")
        if len(records) - told not in ([0, 1] if status in (71, 73, 74) else [0]):
            wrong.append(f"the journal has {len(records)} records, by {told} lines")
        if status in (66, 68) and ran.left["spool"] != self.case.files["spool"]:
            wrong.append("the journal has changed")
        is_started = lines_of(self.case, ran.out)[:1] == ["H start len=0 base=0\n"]
        if mark_of(ran.listed) not in ([4096] if is_started else [0, 4096]):
            wrong.append(f"the journal has {ran.listed[0]}")
        return wrong
