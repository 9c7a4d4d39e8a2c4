"""A reading of the spool file, which a journal is, too: the calls of the disk that each work makes, and what a loss of
power at one of them leaves.

A slot has a gate, which is open where its byte is 5A, and a message stands where the slot of its number is open and the
number is at least the floor. A message takes as many slots as its body needs, and as many numbers. These slots hold
nothing that stands, but may be open still, with numbers below the floor; then they are closed before anything is
written there. Its first slot's gate lets it stand. A message leaves by that gate, and all of them at once by the floor,
which becomes the next number. Mark and floor are cells: two copies of a number, and a gate whose lowest bit names the
one that counts. So is the setup, whose value names a list that was written and synced before.

So a work is a row of updates, and an update changes the file by gates that one sync settles. The calls in front of
these change nothing, and at a gate's write or the sync the bytes that the disk keeps decide.
"""
OPEN = 0x5A
AREA = 4081
# How many system bytes a start sets aside, and how many are left where a step sets as many aside again.
ASIDE, FEW = 4096, 128


def size_of(body):
    """How many slots a message takes."""
    return max(1, -(-len(body) // AREA))


class Cut:
    """A loss of power: at which call of its event, and what becomes of a gate that isn't settled."""

    def __init__(self, words):
        self.call, (self.choice, *value) = int(words[0]), words[1:]
        self.value = int(value[0], 16 if self.choice == "fill" else 10) if value else None

    def keeps(self, gate, place):
        """Whether the gate, at this place among those that aren't settled, is as it was written, or means so."""
        if self.choice == "fill":
            return gate.means(self.value)
        return self.choice == "new" or self.choice == "first" and place < self.value


class Gate:
    """A byte of the disk that is written, what bytes mean the same, and what they change."""

    def __init__(self, at, means, change):
        self.at, self.means, self.change = at, means, change


class Update:
    """Calls that change nothing, and then gates, in a write each, with a sync behind them."""

    def __init__(self, early, *gates):
        self.early, self.gates = early, gates
        self.calls = early + (len(gates) + 1 if gates else 0)

    def carry_out(self):
        for gate in self.gates:
            gate.change()

    def lose(self, call, cut):
        """Power goes at this call."""
        written = self.gates[:max(0, call - self.early)]
        for place, gate in enumerate(sorted(written, key=lambda gate: gate.at)):
            if cut.keeps(gate, place):
                gate.change()


def is_open(byte):
    return byte == OPEN


def is_closed(byte):
    return byte != OPEN


class Cell:
    def __init__(self, value):
        self.value, self.parity = value, 0

    def to(self, value):
        """A read of its gate, the other copy and a sync; then the gate."""
        parity = 1 - self.parity

        def change():
            self.value, self.parity = value, parity
        return Update(3, Gate(0, lambda byte: byte % 2 == parity, change))


class File:
    def __init__(self, slots):
        self.mark, self.floor, self.setup, self.next = Cell(0), Cell(0), Cell([]), 0
        self.open = {}                              # the open slots, and the numbers of their messages
        self.sizes = {}                             # how many slots messages take, by their numbers
        self.slots = slots

    def standing(self):
        return sorted(number for number in self.open.values() if number >= self.floor.value)

    def used(self):
        return sum(self.sizes[number] for number in self.standing())

    def start(self):
        """What is known of the next number is what stands."""
        standing = self.standing()
        self.next = standing[-1] + self.sizes[standing[-1]] if standing else self.floor.value

    def updates(self, work, what):
        """What a work does: a put of a message that takes so many slots, a keep of this setup, or another one."""
        standing = self.standing()
        if work == "put":
            slots = [number % self.slots for number in range(self.next, self.next + what)]
            stale = [self.closing(slot) for slot in slots if slot in self.open]
            put = what + 1, Gate(slots[0], is_open, lambda: self.put(what))
            return [Update(what, *stale), Update(*put)] if stale else [Update(what + put[0], put[1])]
        if work == "keep":
            return [Update(3 if what else 1), self.setup.to(what)]
        if work == "drop":
            return [Update(1, self.closing(standing[0] % self.slots))]
        if work == "purge":
            return [self.floor.to(self.next)]
        if work == "reserve":
            return [self.mark.to(self.mark.value + ASIDE)]
        return [Update(self.sizes[standing[0]])]      # the oldest message is read

    def closing(self, slot):
        return Gate(slot, is_closed, lambda: self.open.pop(slot))

    def put(self, size):
        self.open[self.next % self.slots] = self.next
        self.sizes[self.next] = size
        self.next += size

    def carry_out(self, work, what=None):
        """Carries it out, and answers how many calls that takes."""
        updates = self.updates(work, what)
        for update in updates:
            update.carry_out()
        return sum(update.calls for update in updates)

    def lose(self, work, what, call, cut):
        """Power goes at this call of the work. Answers whether the work has such a call."""
        for update in self.updates(work, what):
            if call <= update.calls:
                update.lose(call, cut)
                return True
            call -= update.calls
            update.carry_out()
        return False


class Disk:
    """The disk of an end that may lose its power, with the system bytes that this end has set aside there."""

    def __init__(self, slots):
        self.file = File(slots)
        self.counted = None                         # the calls before the last loss, in its event
        self.begin(0)

    def begin(self, base):
        """A new start of the end, whose system bytes begin there."""
        self.calls = None                           # those made in an event in which power goes
        self.base = self.drawn = base               # the first system bytes, and those behind the last
        self.aside, self.is_short = ASIDE, False    # and whether the next step sets more aside

    def carry_out(self, work, what=None):
        calls = self.file.carry_out(work, what)
        if self.calls is not None:
            self.calls += calls

    def draw(self, system):
        """Draws these system bytes. Answers what is wrong with them."""
        self.drawn = system + 1
        return None if self.base <= system < self.base + self.aside else "system bytes that weren't set aside"

    def end_step(self):
        self.is_short = self.drawn - self.base > self.aside - FEW

    def set_aside(self):
        """A step begins with this where few system bytes were left behind the one before it."""
        self.carry_out("reserve")
        self.aside, self.is_short = self.aside + ASIDE, False

    def lose(self, cut, begun):
        """Power goes at a call, behind those that were counted in its event, or at the event's end, while a work is under
        way or none. Answers what is wrong with that."""
        self.counted = self.calls
        if self.calls is None:
            return None
        if self.is_short and self.file.lose("reserve", None, cut.call - self.calls, cut):
            return None
        if self.is_short:
            self.calls += 5
        call = cut.call - self.calls
        if call < 1 or begun and not self.file.lose(*begun, call, cut):
            return f"this is no loss at call {cut.call}, for {self.calls} are made before"
        return None

    def start(self):
        """What a start does: it sees what stands, and sets system bytes aside. Answers the first of them."""
        base = self.file.mark.value
        self.file.start()
        self.file.carry_out("reserve")
        self.begin(base)
        return base
