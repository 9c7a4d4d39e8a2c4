"""A reading of what `gemline` promises of a replay, from its plan, its schedule and its trace alone.

1. What an end takes was sent by the other end: the same name, system bytes and body. Within one start of an end it is
   taken once. A request never has the system bytes of an earlier one of the same end, whatever start sent that.
2. A report has the values that its variables had at its event. What an unload sends is what was stored. S6F5 tells the
   length of what it asks leave for.
3. A start of the tool finds in its spool what stood there, in order. A message that was leaving may be gone, or all of
   them by a purge, and one that was being stored may stand last: which of both is so the call of the disk at which
   power went decides, and what became of the byte written there (keeping.py). The first that stands is the one that
   leaves: confirmed where the host has taken it, purged where the host has just asked for that, overwritten where the
   constant says so and the slots don't hold all that stand and the message that is made, which is stored behind it
   then, or one more leaves for it. Each message that is stored has the next number, the one behind the slots of the
   last one. A report is discarded only for want of slots, and too long only for the line or for all slots.
4. The host takes what was stored in order, each perhaps more than once in a row, and skips only what was purged or
   overwritten.
5. S2F24 has the code that is due to its S2F23. An S6F1 has the values that its variables had at the samples of a trace
   that the host has asked for and that ran. Each one that is due comes, in its step and in order, and no other comes
   (tracing.py).
6. A request of the host that changes the setup is kept where it is accepted, right behind its `rx` and before its
   answer, and only there. A start finds what was kept, the request that was being kept last or not, as the call of the
   disk at which power went decides, and has the tables that this makes of the plan's (setting.py). So an event or an
   alarm makes a message only where it is enabled, and the spool takes what its rule names.
7. A host with a journal lists each alarm, report and text that it takes, before it writes anything, and what it lists
   comes in the order of storing, as in 4. What is confirmed is listed. A start of it finds what it has listed, in
   order; what was being listed may stand last, as in 3; and it draws no system bytes twice (listing.py).

A trace has no values of `tool set` and no texts of terminals: they are taken from the schedule. It has no body behind
`storing`: that is the message which was made just before, or one of those that were open when the communication was
lost, in the order in which they began. Of a list that a start finds it has the length; what stands there is seen when
it leaves. Nor does it say whether a request without W was accepted, which is judged here.
"""
import tomllib

from keeping import Cut, Disk, size_of
from listing import Journal
from setting import CHANGES, ENABLE_SPOOL, OVERWRITE, Tables, is_accepted, kept_behind
from spelling import headed, leave_for, list_of, parsed, spelled, u4
from tracing import MOVES, Tracing, moments_of

# The longest text that the spool takes.
MOST_STORED = 1 << 20
MOST = (1 << 32) - 1


class Plan:
    def __init__(self, text):
        plan = tomllib.loads(text)
        tool = plan.get("equipment", {})
        self.max_body = plan.get("line", {}).get("max_body", 1 << 20)
        self.control = tool.get("control", "remote").upper()
        self.slots = tool.get("slots", 16)
        self.variables = {row["vid"]: spelled(row["value"]) for row in plan.get("variable", [])}
        self.events = {row["ceid"] for row in plan.get("event", [])}
        self.constants = {1: (1, 120), 2: (0, 1), 3: (0, 1), 4: (0, MOST)}
        self.first_constants = {1: tool.get("delay", 10), 2: int(tool.get("enable_spool", True)),
                                3: int(tool.get("overwrite", True)), 4: tool.get("max_transmit", 0)}
        for row in plan.get("constant", []):
            self.constants[row["ecid"]] = (row.get("min", 0), row.get("max", MOST))
            self.first_constants[row["ecid"]] = row["value"]
        self.alarms = {row["alid"]: (row.get("category", 0), row.get("text", "")) for row in plan.get("alarm", [])}
        self.enabled_alarms = {row["alid"] for row in plan.get("alarm", []) if row.get("enabled", True)}
        self.spooled = tool.get("spooled", ["S5F1", "S6F11", "S10F1"])

    def alarm_body(self, alarm, state):
        category, text = self.alarms[alarm]
        code = headed("B", 1, bytes([category + (0x80 if state == "set" else 0)]))
        return list_of([code, u4(alarm), headed("A", len(text), text.encode())])

    def least_and_most(self, constant):
        """The range of a constant; an empty one where there is none of this number."""
        return self.constants.get(constant, (1, 0))


class Commands:
    """What a schedule gives to one start of the tool: values and texts, in order."""

    def __init__(self):
        self.sets, self.texts = [], []


class Loss:
    """A loss of power that a schedule plans: of which end, how, and before which of its lines."""

    def __init__(self, side, cut, place):
        self.side, self.cut, self.place = side, cut, place


SIDES = {"cut": "E", "hcut": "H"}


def starts_of(plan, schedule):
    """What each start of the tool is told, and the losses of power: the event behind a `cut` is the last one of the
    tool's start. Of several such lines before an event the last one counts, whichever end it names."""
    starts, losses, planned = [Commands()], [], None
    for place, line in enumerate(schedule.splitlines()):
        words = line.split(" ", 3)
        if words[0] in SIDES:
            planned = SIDES[words[0]], Cut(words[1:])
        elif line and line[0] != "#":
            if words[:2] == ["tool", "set"]:
                variable, (kind, value) = int(words[2]), spelled(words[3])
                if plan.variables.get(variable, [None])[0] == kind:
                    starts[-1].sets.append((variable, value))
            elif words[:2] == ["tool", "terminal"]:
                terminal = headed("B", 1, bytes([int(words[2])]))
                starts[-1].texts.append(list_of([terminal, spelled(words[3])[1]]))
            if planned:
                losses.append(Loss(*planned, place))
                if planned[0] == "E":
                    starts.append(Commands())
                planned = None
    return starts, losses


class Message:
    """A message that the tool has made. Its body is None where the reading has lost it."""

    def __init__(self, name, body):
        self.name, self.body = name, body
        self.size = size_of(body or b"")            # in slots


class Put:
    """A message that was stored: by which number, why it is to leave, and why it has left."""

    def __init__(self, number, message):
        self.number, self.message, self.why, self.cause = number, message, None, None


ONLINE = ("LOCAL", "REMOTE")
UNLOADED = Message("unloaded", None)
# Of an event or an alarm that makes a message, the next line of the tool.
MADE = ("sent", "dropped", "full", "toolong", "discarded", "storing", "leaving")


class Reading:
    """A reading of one trace; with the number of its journal's slots where the host has one."""

    def __init__(self, plan_text, schedule, slots=None):
        self.plan = Plan(plan_text)
        self.starts, self.planned = starts_of(self.plan, schedule)
        self.moments = moments_of(schedule)[::-1]   # those that are still to come, the next one last
        self.broken, self.now = [], 0
        self.losses, self.lost = 0, 0               # of the tool's power, and of both ends'
        self.status = 0                             # that the run ends with, but for a slip
        self.disk = Disk(self.plan.slots)
        self.journal = Journal(slots, self) if slots else None
        self.begins = []                            # of each event in which power goes, the lines before it, where known
        self.sent = {"E": set(), "H": set()}        # of all starts
        self.requests = {"E": set(), "H": set()}    # the system bytes of the requests among them
        self.received = {"E": set(), "H": set()}    # system bytes and kind, of one start
        self.puts, self.standing = [], []           # all that were stored; those in the spool
        self.moving = None                          # the put that is being stored or is leaving
        self.keeping = None                         # the setup that is being kept
        self.is_guessed = True                      # whether a start tells what power left
        self.tries, self.taken = {}, []             # system bytes to their put; what the host took, without repeats
        self.begin()

    def begin(self):
        """A new start of the tool: all but the spool is gone."""
        self.received["E"] = set()
        self.commands = self.starts[min(self.losses, len(self.starts) - 1)]
        self.tables = None                          # until it is known what is kept
        self.refusals = 0                           # how many kept requests are still to be told as refused
        self.tracing = Tracing(self.plan)
        self.is_communicating, self.is_online = False, self.plan.control in ONLINE
        self.is_active = bool(self.standing)        # whether it spools
        self.unanswered = set()                     # the system bytes of what waits for a reply
        self.events = {}                            # their messages, by their bodies
        self.open = {}                              # what waits for a reply, by the system bytes that were sent
        self.failed = []                            # what was open when the communication was lost, to be stored
        self.made = None                            # what this step has made
        self.used = []                              # by how many slots, before each that left for the next one
        self.request = self.silent = self.last_received = None
        self.owes = False                           # whether the line before is of what makes a message
        self.before = []

    def breaks(self, why):
        self.broken.append(f"line {self.at}: {why}: {self.line[:150]}")

    def breaks_by(self, why):
        if why:
            self.breaks(why)

    def places(self):
        """Of each event in which power goes, how many lines of the schedule stand before it."""
        return [loss.place for loss in self.planned]

    def counted(self):
        """The calls of the disk before the last loss, in its event."""
        return self.disk_of(self.planned[-1].side).counted if self.planned else None

    def disk_of(self, side):
        return self.disk if side == "E" else self.journal and self.journal.disk

    def read(self, trace, begins=()):
        """All that the lines of a trace break. Where it is told how many of them stand before each event in which power
        goes, the calls of the disk are counted from there."""
        self.begins = begins
        for self.at, self.line in enumerate(trace, 1):
            now, *words = self.line.split(" ")
            self.to_moment(int(now))
            if self.lost < len(begins) and self.at == begins[self.lost] + 1:
                self.disk_of(self.planned[self.lost].side).calls = 0
            if words[0] == "end":
                self.breaks_by(self.tracing.missing())
                if self.lost != len(self.planned):
                    self.breaks(f"{self.lost} losses of power where {len(self.planned)} were planned")
                break
            side, kind, *words = words
            if side == "E":
                self.breaks_by(self.tracing.read(kind, words, self.before, self))
            else:
                self.breaks_by(self.tracing.missing())
            if side == "E" and self.moving and kind not in ("stored", "gone", "power", "start"):
                self.breaks("nothing comes between the two lines of a message that moves")
                self.moving = None
            if side == "E" and self.used and kind not in ("leaving", "gone", "storing", "power", "start"):
                self.breaks("no message is stored for which one left")
                self.used = []
            if side == "E" and self.silent:
                self.judge(kind)
            if side == "E":
                self.settle(kind, words)
            if side == "H" and self.journal:
                self.breaks_by(self.journal.missing(kind))
            disk = self.disk_of(side)
            if disk and disk.is_short and kind not in ("power", "start"):
                disk.set_aside()
            try:
                getattr(self, f"{'tool' if side == 'E' else 'host'}_{kind}", lambda *words: None)(*words)
            except (IndexError, KeyError, TypeError, ValueError):
                self.breaks("this can't be read")
            if side == "E":
                if kind not in ("event", "alarm", "leaving", "gone"):
                    self.made = None
                self.before = [kind, *words]
            if kind == "tx" and disk:
                disk.end_step()
        if self.journal and self.journal.is_full():
            self.status = 80
        return self.broken

    def to_moment(self, now):
        """The clock moves to each moment of the schedule up to this one, and the tool makes a step."""
        if now < self.now:
            self.breaks("time goes back")
        self.now = now
        while self.moments and self.moments[-1] <= now:
            self.breaks_by(self.tracing.missing())
            self.tracing.sample(self.moments.pop(), self.tables.values if self.tables else {})

    def settle(self, kind, words):
        """What the lines before this one of the tool ask of it."""
        if self.tables is None and kind != "start":
            self.find_setup(int(words[0]) if kind == "setup" else 0)
        elif kind == "refused" and self.refusals:
            self.refusals -= 1
        elif self.refusals:
            self.breaks(f"{self.refusals} kept requests are to be refused")
            self.refusals = 0
        elif kind == "refused" and self.before[0] == "setup":
            self.breaks("this request is to be carried out")
        if self.keeping is not None and kind not in ("kept", "power", "start", "setup"):
            self.breaks("nothing comes between the two lines of a request that is kept")
            self.keeping = None
        if self.owes and kind not in MADE:
            self.breaks("what is enabled makes a message")
        self.owes = False

    # What both ends do.

    def gives(self, side, words):
        *name, system, body = words
        self.sent[side].add(tuple(words))
        if not is_reply(name[0]):
            if system in self.requests[side]:
                self.breaks("system bytes that an earlier request had")
            self.requests[side].add(system)
            if self.disk_of(side):
                self.breaks_by(self.disk_of(side).draw(int(system, 16)))
        return " ".join(name), system, b"" if body == "-" else bytes.fromhex(body)

    def takes(self, side, words):
        *name, system, body = words
        if tuple(words) not in self.sent["H" if side == "E" else "E"]:
            self.breaks("taken, and never sent so")
        key = (system, is_reply(name[0]))
        if key in self.received[side]:
            self.breaks("taken twice in one start")
        self.received[side].add(key)
        return " ".join(name), system, b"" if body == "-" else bytes.fromhex(body)

    def host_sent(self, *words):
        self.gives("H", words)

    def host_rx(self, *words):
        name, system, body = self.takes("H", words)
        if name.endswith(" W") and system in self.tries:
            self.comes(self.taken, self.tries[system], "takes")
        if self.journal:
            self.journal.take(name, system, body)

    def comes(self, all_so_far, put, does):
        """A put is taken, or listed, behind others. None is skipped but what was purged or overwritten."""
        if all_so_far[-1:] != [put]:
            all_so_far.append(put)
        due = [put for put in self.puts if put in all_so_far or put.cause not in ("purged", "overwritten")]
        if all_so_far != due[:len(all_so_far)]:
            self.breaks(f"the host {does} {numbers(all_so_far)} where {numbers(due)} is the order")

    def host_power(self):
        if not self.journal:
            return self.breaks("it has no journal")
        self.breaks_by(self.journal.lose(self.loses("H")))

    def host_start(self, *words):
        self.received["H"] = set()
        if self.journal:
            self.breaks_by(self.journal.start(*words))

    def host_listing(self, *words):
        self.breaks_by(self.journal.begin_listing(*words) if self.journal else "it has no journal")

    def host_listed(self, *words):
        self.breaks_by(self.journal.end_listing(*words) if self.journal else "it has no journal")

    # Power, and the disk.

    def loses(self, side):
        """An end loses its power. Answers how that was planned."""
        loss = self.planned[self.lost] if self.lost < len(self.planned) else None
        self.lost += 1
        if not loss or loss.side != side:
            self.breaks("no loss of this end's power is planned here")
            return None
        return loss.cut

    def work(self):
        kind, put = self.moving
        return "put" if kind == "storing" else "purge" if put.why == "purged" else "drop"

    def size(self):
        return self.moving[1].message.size

    def under_way(self):
        """The work that is begun, and what of."""
        if self.moving:
            return self.work(), self.size()
        return ("keep", self.keeping) if self.keeping is not None else None

    def tool_power(self):
        self.losses += 1
        # It may go before the samples have their lines, while a message is stored or system bytes are set aside.
        missing, is_moving = self.tracing.missing(), self.before and self.before[0] in MOVES
        if not is_moving and not self.disk.is_short:
            self.breaks_by(missing)
        self.is_guessed = self.disk.calls is None
        cut = self.loses("E")
        if cut:
            self.breaks_by(self.disk.lose(cut, self.under_way()))

    def guess(self, found, base):
        """Where calls aren't counted, what a start finds says whether a work was done."""
        if self.moving and found != len(self.standing):
            self.disk.file.carry_out(self.work(), self.size())
        if self.disk.is_short and base != self.disk.file.mark.value:
            self.disk.file.carry_out("reserve")

    def find_setup(self, found):
        """A start finds so many kept requests, and carries them out. Where calls aren't counted, their number says whether
        one was kept as power went."""
        if self.is_guessed and self.keeping is not None and found != len(self.disk.file.setup.value):
            self.disk.file.carry_out("keep", self.keeping)
        self.keeping, kept = None, self.disk.file.setup.value
        if found != len(kept):
            self.breaks(f"{len(kept)} requests are kept")
        self.tables = Tables(self.plan, kept)
        self.refusals = self.tables.refused

    def tool_start(self, found, base):
        found, base = int(found[len("len="):]), int(base[len("base="):])
        if self.is_guessed:
            self.guess(found, base)
        kind, put = self.moving or (None, None)
        standing = self.disk.file.standing()
        if kind == "storing" and put.number in standing:
            self.standing.append(put)
        elif kind == "storing":
            self.puts.remove(put)
        elif kind == "leaving":
            self.leave(put.why, len(self.standing) - len(standing))
        if found != len(standing) or numbers(self.standing) != standing:
            self.breaks(f"{standing} are to stand in the spool, and {numbers(self.standing)} stood")
            self.standing = self.standing[:found]
        due = self.disk.start()
        if base != due:
            self.breaks(f"{due} system bytes were set aside")
        self.moving = None
        self.begin()

    # Values, and what is made of them.

    def tool_set(self, variable):
        wanted = self.commands.sets.pop(0) if self.commands.sets else (None, None)
        if wanted[0] != int(variable):
            self.breaks(f"the schedule sets {wanted[0]} next")
        else:
            self.tables.values[wanted[0]] = wanted[1]

    def tool_event(self, event, number):
        self.owes = int(event) in self.tables.enabled
        self.made = Message("S6F11 W", self.tables.event(int(event), int(number))) if self.owes else None
        if self.owes:
            self.events[self.made.body] = self.made

    def tool_alarm(self, alarm, state):
        alarm, before = int(alarm), set(self.tables.set_alarms)
        self.tables.set_alarms = before | {alarm} if state == "set" else before - {alarm}
        self.owes = alarm in self.tables.alarms and self.tables.set_alarms != before
        self.made = Message("S5F1 W", self.tables.alarm(alarm)) if self.owes else None

    def new(self, name):
        """The message of this name that the step has made. A text of a terminal has no line of its own."""
        if name == "S10F1 W":
            return Message(name, self.commands.texts.pop(0)) if self.commands.texts else None
        return self.made if self.made and self.made.name == name else None

    # Requests of the host.

    def tool_rx(self, *words):
        name, system, _ = self.last_received = self.takes("E", words)
        if name.endswith(" W"):
            self.request = self.last_received
        elif is_reply(name):
            self.open.pop(system, None)
            self.unanswered.discard(system)
        elif name in CHANGES or name == "S2F23":
            self.silent = self.last_received

    def tool_keeping(self, *name):
        """A request of the setup is accepted, and is being kept."""
        request, _, body = self.last_received or ("nothing", "", b"")
        change = request.split(" ")[0]
        if self.before[:1] != ["rx"] or request != " ".join(name) or change not in CHANGES:
            return self.breaks("no such request has come")
        after = self.tables.after(change, body)
        if after is None:
            self.breaks("it is to be refused")
        else:
            self.tables = after
        self.keeping = kept_behind(self.disk.file.setup.value, change, body)

    def tool_kept(self, *name):
        if self.keeping is None or self.before != ["keeping", *name]:
            return self.breaks("no such request was being kept")
        self.disk.carry_out("keep", self.keeping)
        self.keeping = None

    def judge(self, kind):
        """A request without W was carried out, or refused, where the acknowledgement of its block is the next line."""
        name, _, body = self.silent
        if kind == "tx" and name == "S2F23":
            self.tracing.set(body, self.now)
        elif kind == "tx" and self.tables.after(name, body) is not None:
            self.breaks("the request before is to be kept")
        self.silent = None

    def answers(self, name, system, body):
        if name == "S2F24" and self.before[:2] != ["rx", "S2F23"]:
            self.breaks("no S2F23 is to be answered")
        if not self.request or self.request[1] != system:
            return
        request, _, asked = self.request
        request = request.split(" ")[0]
        if request in CHANGES and not name.endswith("F0"):
            self.answers_change(request, asked, body)
        if name == "S2F24":
            code = self.tracing.set(asked, self.now)
            if body != headed("B", 1, bytes([code])):
                self.breaks(f"the code is {code}")
        if name == "S6F16" and body != self.tables.event(parsed(asked), 0):
            self.breaks("other values than those of now")
        if name == "S6F20" and body != self.tables.report(parsed(asked)):
            self.breaks("other values than those of now")
        self.request = None

    def answers_change(self, request, asked, body):
        is_kept = self.before == ["kept", request, "W"]
        if is_kept != is_accepted(request, body):
            self.breaks("it is accepted where it is kept")
        if not is_kept and self.tables.after(request, asked) is not None:
            self.breaks("it is to be kept")

    # What the tool sends, and what becomes of it.

    def tool_sent(self, *words):
        name, system, body = self.gives("E", words)
        if not name.endswith(" W"):
            # (an S9F9 is no answer, whosever system bytes it has)
            return self.answers(name, system, body) if int(name.split("F")[1]) % 2 == 0 else None
        self.unanswered.add(system)
        if system in self.tries:
            wanted = self.tries[system].message
            if wanted.name != name or wanted.body not in (None, body):
                self.breaks("another message than the one that was stored")
            self.open[system] = UNLOADED
        elif name == "S6F11 W":
            self.sent_new(system, body, self.events.get(body))
        elif name in ("S5F1 W", "S10F1 W"):
            self.sent_new(system, body, self.new(name))
        elif name == "S6F5 W" and system not in self.tracing.inquired:
            is_tried = self.before[0] == "try"
            message = self.standing[0].message if is_tried else self.made
            if message and message.body and body != leave_for(message.body):
                self.breaks(f"it asks leave for {message.body.hex().upper()}")
            if is_tried:
                self.open[system] = UNLOADED
            else:
                self.sent_new(system, message.body if message else b"", message)

    def sent_new(self, system, body, wanted):
        if not wanted or wanted.body != body:
            self.breaks(f"the tool has made {wanted.body.hex().upper() if wanted else 'no such message'}")
        else:
            self.open[system] = wanted
        if wanted and self.is_active and self.is_spooled(wanted.name):
            self.breaks("it is to be stored")

    def tool_failed(self, name, *words):
        if not is_reply(name):
            self.unanswered.discard(words[-1])
        if name != "S6F5" and not is_reply(name):
            self.open.pop(words[-1], None)

    def tool_t3(self, *words):
        self.unanswered.discard(words[-1])
        self.open.pop(words[-1], None)

    def tool_dropped(self, *name):
        if self.before[:2] == ["failed", "S6F5"]:
            self.open.pop(self.before[-1], None)
        else:
            self.new(" ".join(name))

    def tool_full(self, *name):
        if self.before[0] != "try":
            self.new(" ".join(name))

    def tool_toolong(self, *name):
        message = self.new_or_failed(" ".join(name))
        most = min(self.plan.max_body, MOST_STORED)
        if message and message.size <= self.plan.slots and len(message.body) <= most:
            self.breaks("it isn't too long")

    def tool_discarded(self, *name):
        message = self.new_or_failed(" ".join(name))
        if self.tables.constants[OVERWRITE]:
            self.breaks("the oldest are to leave for it")
        if message:
            self.breaks_by(self.has_room(message, self.disk.file.used()))

    def new_or_failed(self, name):
        if self.failed and self.failed[0].name == name:
            return self.failed.pop(0)
        return self.new(name)

    def has_room(self, message, used):
        """What is wrong where there is to be no room for it beside so many slots that are used."""
        if message.size > self.plan.slots:
            return f"{message.size} slots are never free"
        if used + message.size <= self.plan.slots:
            return f"{used} of {self.plan.slots} slots were used, and it takes {message.size}"
        return None

    def tool_control(self, state):
        self.is_online = state in ONLINE

    def tool_comms(self, state):
        self.is_communicating = state == "COMMUNICATING"
        if state != "COMMUNICATING":
            self.failed, self.open = [one for one in self.open.values() if one is not UNLOADED], {}

    # The spool.

    def tool_spool(self, state):
        self.is_active = state == "ACTIVE"
        if self.is_active and not self.tables.constants[ENABLE_SPOOL]:
            self.breaks("the constant forbids that")

    def is_spooled(self, name):
        """Whether the rule has messages of this name."""
        return name.split(" ")[0] in self.tables.rule

    def tool_storing(self, number, *name):
        name = " ".join(name)
        if not self.is_spooled(name):
            self.breaks("the rule doesn't have it")
        message = self.failed.pop(0) if self.failed else self.new(name)
        if not message or message.name != name:
            self.breaks(f"{message.name if message else 'nothing'} is to be stored here")
            message = Message(name, None)
        for used in self.used:
            self.breaks_by(self.has_room(message, used))
        self.used = []
        if int(number) != self.disk.file.next:
            self.breaks(f"its number is {self.disk.file.next}")
        self.puts.append(Put(int(number), message))
        self.moving = ("storing", self.puts[-1])

    def tool_stored(self, number):
        if self.ends("storing", number):
            self.disk.carry_out("put", self.size())
            self.standing.append(self.moving[1])
        self.moving = None

    def tool_leaving(self, number, cause):
        if not self.is_first(number):
            return
        put = self.standing[0]
        if cause == "confirmed" and put not in (self.journal.listed if self.journal else self.taken):
            self.breaks("the host hasn't listed it" if self.journal else "the host hasn't taken it")
        if cause == "purged" and not self.is_purge_asked():
            self.breaks("the host hasn't asked for that")
        if cause == "overwritten" and not self.tables.constants[OVERWRITE]:
            self.breaks("the constant forbids that")
        if cause == "overwritten":
            self.used.append(self.disk.file.used())
        put.why = cause
        self.moving = ("leaving", put)

    def tool_gone(self, number):
        if self.ends("leaving", number):
            self.disk.carry_out(self.work())
            why = self.moving[1].why
            self.leave(why, len(self.standing) if why == "purged" else 1)
        self.moving = None

    def tool_try(self, number, system):
        self.disk.carry_out("read")
        if self.is_first(number):
            self.tries[system] = self.standing[0]

    def is_first(self, number):
        if self.standing and self.standing[0].number == int(number):
            return True
        self.breaks(f"{numbers(self.standing)} stand in the spool")
        return False

    def ends(self, kind, number):
        if self.moving and self.moving[0] == kind and self.moving[1].number == int(number):
            return True
        self.breaks(f"no message of this number was {kind}")
        return False

    def is_purge_asked(self):
        return (self.last_received and self.last_received[0].startswith("S6F23")
                and parsed(self.last_received[2]) == 1)

    def leave(self, cause, count):
        """The first ones leave. Only the cause `purged` takes more than one."""
        if count > 1 and cause != "purged":
            return
        for put in self.standing[:count]:
            put.cause = cause
        del self.standing[:count]


def is_reply(name):
    return int(name.split(" ")[0].split("F")[1]) % 2 == 0


def numbers(puts):
    return [put.number for put in puts]
