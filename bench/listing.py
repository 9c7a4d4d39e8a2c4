"""A reading of a host's journal: what is listed there, what a loss of the host's power leaves, and what a start finds.

What the host takes of the three kinds below is listed in the step that has taken it: behind what that step says of it
and before it writes anything. A record is the message's four system bytes and its text, and is numbered and stored as a
message of a spool is; nothing leaves a journal. Where a record has no room the run ends there.
"""
from keeping import AREA, Disk, size_of

LISTED = ("S5F1", "S6F11", "S10F1")
# What a step says of such a message before it is listed.
SAID = ("sent", "dropped", "full", "toolong")
SYSTEM = 4
# The longest record.
MOST = 1 << 20


class Record:
    def __init__(self, name, system, body):
        self.name, self.system, self.length = name, system, len(body) + SYSTEM
        self.size = size_of(bytes(self.length)) if self.length > AREA else 1


class Journal:
    def __init__(self, slots, reading):
        self.disk, self.reading, self.slots = Disk(slots), reading, slots
        self.taken = None                           # what is to be listed next
        self.listing = None                         # what is being listed
        self.listed = []                            # the puts that are listed, without repeats
        self.systems = {}                           # of the records, by their numbers

    def missing(self, kind):
        """What is wrong where a line of this kind comes next."""
        if self.listing is not None and kind not in ("listed", "power", "start"):
            self.listing = None
            return "nothing comes between the two lines of a record"
        if self.taken and self.listing is None and kind not in (*SAID, "listing"):
            self.taken = None
            return "what the host has taken is to be listed before this"
        return None

    def take(self, name, system, body):
        if name.split(" ")[0] in LISTED:
            self.taken = Record(name.split(" ")[0], system, body)

    def has_room(self):
        return self.taken.length <= MOST and self.disk.file.used() + self.taken.size <= self.slots

    def is_full(self):
        """Whether the run ends because what was taken last has no room."""
        return bool(self.taken and self.listing is None and not self.has_room())

    def begin_listing(self, number, *name):
        if not self.taken or " ".join(name) != f"{self.taken.name} W":
            return f"{self.taken.name if self.taken else 'nothing'} is to be listed here"
        self.listing = int(number)
        if not self.has_room():
            return f"the journal is full, with {self.disk.file.used()} of {self.slots} slots"
        return None if self.listing == self.disk.file.next else f"its number is {self.disk.file.next}"

    def end_listing(self, number):
        if self.listing != int(number):
            return "no record of this number was being listed"
        self.disk.carry_out("put", self.taken.size)
        self.add(self.listing, self.taken)
        self.taken = self.listing = None
        return None

    def add(self, number, record):
        """A record is in the journal. Where the message came out of the spool its put is listed."""
        self.systems[number] = record.system
        if record.system in self.reading.tries:
            self.reading.comes(self.listed, self.reading.tries[record.system], "lists")

    def lose(self, cut):
        if self.taken and self.listing is None:
            return "what the host has taken is to be listed before its power goes"
        return self.disk.lose(cut, ("put", self.taken.size) if self.taken else None) if cut else None

    def start(self, found, base):
        """A start finds so many records, and begins with these system bytes."""
        if self.is_guessed(int(found[len("len="):])):
            self.disk.carry_out("put", self.taken.size)
        standing = self.disk.file.standing()
        if self.listing in standing:
            self.add(self.listing, self.taken)
        self.taken = self.listing = None
        due = self.disk.start()
        if int(found[len("len="):]) != len(standing) or sorted(self.systems) != standing:
            return f"{len(standing)} records are found, and {len(self.systems)} were listed"
        return None if base == f"base={due}" else f"{due} system bytes were set aside"

    def is_guessed(self, found):
        """Whether a start shows that a record was written, where no calls are counted."""
        return self.listing is not None and self.disk.calls is None and found > len(self.systems)
