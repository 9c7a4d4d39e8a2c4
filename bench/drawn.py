"""Plans and schedules drawn by a seed: a tool that reports and is sampled, a host that asks, a bad line, and losses of
power."""
import random


def reported(repeats=1):
    """Report 10 has both variables, the second one so often, and event 1 has it."""
    return [f"host send S2F33 W <L <U4 1> <L <L <U4 10> <L <U4 1>{' <U4 2>' * repeats}>>>>", "settle",
            "host send S2F35 W <L <U4 2> <L <L <U4 1> <L <U4 10>>>>>", "settle",
            "host send S2F37 W <L <BOOLEAN 01> <L>>", "settle"]


REPORTED = reported()
SPOOLED = ["host send S6F23 W <U1 0>", "settle"]
PURGED = ["host send S6F23 W <U1 1>", "settle"]

# What a host may ask for else. Some of it is refused, some wants more room than one block has.
TABLES = ["S2F33 W <L <U4 1> <L <L <U4 11> <L <U4 1>>>>>", "S2F33 W <L <U4 1> <L>>",
          "S2F33 W <L <U4 1> <L <L <U4 10> <L>>>>", "S2F35 W <L <U4 1> <L <L <U4 1> <L>>>>",
          "S2F35 W <L <U4 1> <L <L <U4 2> <L <U4 11> <U4 10>>>>>",
          "S2F33 W <L <U4 1> <L <L <U4 12> <L <U4 2>>> <L <U4 13> <L <U4 99>>>>>",
          "S2F33 W <L <U4 1> <L <L <U4 10> <L>> <L <U4 13> <L <U4 99>>>>>",
          "S2F33 <L <U4 1> <L <L <U4 14> <L <U4 1>>>>>", "S2F33 <L <U4 1> <L <L <U4 10> <L <U4 2>>>>>",
          "S2F35 <L <U4 2> <L <L <U4 2> <L <U4 14>>>>>", "S2F35 <L <U4 2> <L <L <U4 2> <L>>>>",
          "S2F35 W <L <U4 0> <L>>", "S2F37 W <L <BOOLEAN 00> <L <U4 1>>>", "S2F37 W <L <BOOLEAN 01> <L <U4 2>>>",
          "S2F37 <L <BOOLEAN 01> <L <U4 2> <U4 1>>>", "S2F37 W <L <BOOLEAN 00> <L <U4 9>>>",
          "S5F3 W <L <B 00> <U4 7>>", "S5F3 W <L <B 80> <U1 7>>", "S5F3 <L <B 80> <U4>>", "S5F3 W <L <B 80> <U4 9>>"]
SPOOLING = ["S2F43 W <L <L <U1 6> <L>> <L <U1 5> <L>>>", "S2F43 W <L>",
            "S2F43 W <L <L <U1 6> <L <U1 11>>> <L <U1 10> <L <U1 1>>>>",
            *[f"S2F15 W <L <L <U4 {constant}> <BOOLEAN {value}>>>" for constant in (2, 3) for value in ("00", "01")],
            *[f"S2F15 W <L <L <U4 4> <U4 {most}>>>" for most in (0, 1, 2)],
            "S2F15 W <L>", "S2F15 <L <L <U4 4> <U4 0>> <L <U4 3> <BOOLEAN 01>>>",
            "S2F15 W <L <L <U4 3> <U4 0>> <L <U4 9> <U4 1>>>", "S2F43 W <L <L <U1 5> <L <U1 3>>>>"]
OTHERS = ["S1F1 W -", "S1F13 W -", "S1F3 W <L>", "S1F11 -", "S3F1 W -", "S6F15 W <U4 1>", "S6F19 W <U4 10>",
          'S10F5 W <L <B 00> <L <A "yes"> <A "no">>>', f'S10F5 W <L <B 00> <L <A "{"y" * 300}"> <A "no">>>']
# What S2F23 may ask for, and what is wrong in some.
PERIODS = ["00000010", "00000010", "00000010", "00000015", "00000025", "000001", "00000100", "000010", "00010000"]
SAMPLED = [[1], [1], [1], [1, 2], [2, 1, 1], [2], [], [1] * 45, [1] * 45]
NO_PERIODS = ["00000009", "000000", "000060", "006000", "00001", "0000001", "0000010a", "00000 10", "", "000001000"]
WRONG = [[{"period": period} for period in NO_PERIODS],
         [{"variables": [1] * 257}, {"variables": [2] * 256 + [9]}],
         [{"variables": [9]}, {"variables": [1, 0]}, {"variables": [2, 9, 1]}],
         [{"group": 0}, {"total": 3, "group": 4}, {"total": 5000, "group": 4097},
          {"total": 92, "group": 92, "variables": [1] * 45}],
         [{"total": 0}]]
STATES = [["tool disable", "settle", "tool enable"], ["host disable", "settle", "host enable"],
          ["tool offline", "tool online", "settle"], ["tool local"], ["host send S1F13 W -", "settle"],
          ["host send S1F15 W -", "settle", "host send S1F17 W -", "settle"]]


def drawn(seed):
    """A plan and a schedule."""
    one = Drawing(random.Random(seed))
    return one.plan(), one.schedule()


def drawn_with_journal(seed):
    """The same, with losses of either end's power, and how many slots the host's journal has."""
    rng = random.Random(seed)
    one = Drawing(rng, ["cut", "hcut"])
    return one.plan(), one.schedule(), rng.choice([1024, 1024, 1024, 300, 100, 40, 12, 5, 1])


class Drawing:
    def __init__(self, rng, cuts=("cut",)):
        self.rng, self.value, self.cuts = rng, 0, cuts
        self.retries = rng.choice([0, 0, 1, 1, 2])
        self.slots, self.repeats, self.max_body = rng.choice([1, 2, 2, 3, 4, 6]), 1, rng.choice([None] * 3 + [400])
        # What lengths the second variable has, its first one, and how often it is set: a report takes one block, or two,
        # or slots of the spool, as a text does then, and both may take more than there are.
        self.lengths, self.first, self.often = rng.choice([([0, 1, 3], 0, 2)] * 11 + [([3, 240], 230, 2)] * 3
                                                          + [([0, 1300, 4000, 4000], 4000, 8)] * 6)
        self.texts = [0]
        if self.often > 2:
            self.slots, self.repeats, self.max_body = rng.choice([2, 3, 4, 5, 9]), rng.choice([1, 2, 3, 3]), None
            self.texts = [0, 4070, 4080, 9000]
        self.reported = reported(self.repeats)

    def plan(self):
        pick = self.rng.choice
        spooled = pick([None, None, None, '["S6F11"]', '["S5F1", "S10F1"]', "[]"])
        return "\n".join([
            "[line]", f"rty = {self.retries}", "t3 = 25000",
            *([f"max_body = {self.max_body}"] if self.max_body else []),
            "[equipment]", f"slots = {self.slots}", f"overwrite = {pick(['true', 'false'])}",
            f"max_transmit = {pick([0, 0, 0, 1, 2])}", f"enable_spool = {pick(['true', 'true', 'true', 'false'])}",
            f"delay = {pick([1, 5, 15])}", *([f"spooled = {spooled}"] if spooled else []),
            "[[variable]]", "vid = 1", 'value = "<U4 0>"',
            "[[variable]]", "vid = 2", f"value = '<A \"{'x' * self.first}\">'",
            "[[event]]", "ceid = 1", "[[event]]", "ceid = 2",
            "[[alarm]]", "alid = 7", "category = 3", 'text = "HOT"', ""])

    def schedule(self):
        pick, lines = self.rng.choice, ["settle", *self.reported]
        if self.rng.random() < 0.05:
            lines += self.many_traces()
        if self.rng.random() < 0.8:
            lines += self.events() + self.failure() + pick([["settle"], ["settle"], []])
        for _ in range(self.rng.randrange(8, 24)):
            lines += self.some([(8, self.loss), (10, self.unload), (12, self.events), (6, self.failure),
                                (10, self.trace), (10, self.time), (3, self.silence), (64, self.line)])
        # The communication is there again, and all that stands in the spool is taken.
        lines += ["tool enable", "host enable", "settle", "wait 45000", "settle", "wait 45000", "settle",
                  "host send S1F13 W -", "settle", "host send S2F15 W <L <L <U4 4> <U4 0>>>", "settle"]
        return "\n".join(lines + SPOOLED * 2) + "\n"

    def some(self, ways):
        weights, calls = zip(*ways)
        return self.rng.choices(calls, weights)[0]()

    def line(self):
        """One thing or another that happens."""
        rng, pick = self.rng, self.rng.choice
        self.value += 1
        return self.some([
            (13, lambda: [f"tool set 1 <U4 {self.value}>"]),
            (self.often, lambda: [f'tool set 2 <A "{self.letters(pick(self.lengths))}">']),
            (21, lambda: [f"tool event {pick([1, 1, 1, 2])}"]),
            (5, lambda: [f"tool alarm 7 {pick(['set', 'clear'])}"]),
            (4, lambda: [f'tool terminal {rng.randrange(3)} <A "t{self.value}{self.letters(pick(self.texts))}">']),
            (12, lambda: ["settle"]),
            (9, lambda: [f"host send S6F23 W <U1 {pick([0, 0, 0, 0, 1])}>"] + pick([[], ["settle"]])),
            (6, lambda: [f"to {pick('EH')} {rng.randrange(1, 70)}" for _ in range(rng.randrange(1, 4))]),
            (5, lambda: [f"lose {pick('EH')} {rng.randrange(1, 6)}"]),
            (2, lambda: [f"change {pick('EH')} {rng.randrange(30)} {rng.randrange(256):02X}"]),
            (1, lambda: [f"add {pick('EH')} {pick([5, 4, 6, 0x15, rng.randrange(256)]):02X}"]),
            (6, lambda: [f"wait {pick([500, 1000, 5000, 10000, 10000, 25000, 45000])}"]),
            (4, lambda: self.failure() + pick([[], ["settle"]])),
            (2, lambda: list(self.reported)),
            (6, lambda: [f"host send {pick(pick([TABLES, SPOOLING, OTHERS]))}", pick(["settle"] * 2 + ["to E 1"])]),
            (4, lambda: pick(STATES))])

    def trace(self):
        """S2F23, in most cases for a trace that may run. TRIDs are few, so that some are set anew."""
        rng, pick, total = self.rng, self.rng.choice, self.rng.choice([1, 2, 3, 3, 4, 5, 7, 40])
        asked = {"number": pick([1, 1, 2, 2, 3, 4]), "period": pick(PERIODS), "total": total,
                 "group": rng.randint(1, total), "variables": pick(SAMPLED)}
        for wrongs in rng.choices(WRONG, k=pick([0, 0, 0, 0, 1, 1, 2])):
            asked.update(pick(wrongs))
        wait, behind = pick(["W "] * 5 + [""]), pick(["settle"] * 4 + ["to E 1"])
        return [f"host send S2F23 {wait}{self.asking(**asked)}", behind, *pick([[], self.time()])]

    def asking(self, number, period, total, group, variables):
        """The item of an S2F23. Its numbers may be wider than they need."""
        wide = self.rng.choice(["U4", "U8"] + ["U1"] * (max(total, group) < 256))
        listed = "".join(f" <{wide} {variable}>" for variable in variables)
        return f'<L <{wide} {number}> <A "{period}"> <{wide} {total}> <{wide} {group}> <L{listed}>>'

    def many_traces(self):
        """As many traces as may run, one more, and one of them anew. Their samples are due at once."""
        rng, pick, lines = self.rng, self.rng.choice, []
        for number in [*range(17), rng.randrange(16)]:
            asked = self.asking(number, pick(["00000010"] * 3 + ["00000020"]), pick([2, 9, 9]), pick([1, 1, 2]), [1])
            lines += [f"host send S2F23 W {asked}", "settle"]
        behind = pick([[], ["settle"]])
        for _ in range(pick([1, 3, 9])):
            lines += self.set() + ["wait 100"] + behind
        return lines + ["settle"]

    def silence(self):
        """A trace for a host that takes its S6F1, and neither answers them nor gives leave."""
        lines = self.trace() + ["settle", "host disable"] + self.time()
        return lines + ["settle", "wait 24900"] + self.time() + ["host enable"]

    def time(self):
        """Steps in which samples are due, with other values in some."""
        pick, lines = self.rng.choice, []
        for _ in range(self.rng.randrange(2, 7)):
            lines += pick([self.set(), []]) + [f"wait {pick([30, 50, 100, 100, 100, 101, 150, 300, 1000])}"]
            lines += pick([[], ["settle"]])
        return lines

    def set(self):
        self.value += 1
        return [f"tool set 1 <U4 {self.value}>"]

    def letters(self, count):
        return chr(97 + self.value % 26) * count

    def planned(self):
        """Whose power goes. Of two that are planned before one event the last one counts."""
        if len(self.cuts) == 1:
            return self.cuts
        return self.rng.choices(self.cuts, k=self.rng.choice([1, 1, 1, 1, 2]))

    def events(self):
        count = self.rng.randrange(1, 4)
        return [f"tool set 1 <U4 {self.value}>"] + [f"tool event {self.rng.choice([1, 1, 2])}" for _ in range(count)]

    def failure(self):
        """What the tool sends is lost until it gives up; or what the host sends."""
        return [f"lose {self.rng.choice('HHHE')} 400", "wait 10000"] * (self.retries + 1)

    def unload(self):
        """An unload up to the frame of its first message, or not so far; then what may befall that. The last character
        that the tool gets may be one that looks like an acknowledgement."""
        way = ["settle", f"host send S6F23 W <U1 {self.rng.choice([0, 0, 0, 0, 1])}>", "to E 1", "to H 1", "to E 16",
               "to H 2", "to E 1", "to H 20", "to E 1", "to H 1", "to E 1"]
        return way[:self.rng.choice([5, 8, 11, 11, 11])] + self.rng.choice([
            ["lose H 400", "add E 06", "to E 1", "settle", "wait 25000"], ["lose H 1", "wait 10000", "settle"],
            ["to H 300", "lose E 1", "wait 10000", "settle"],
            ["to H 300", "to E 1", "lose E 400", "wait 25000", "settle"],
            ["to H 300", "tool event 1", "tool event 1", "settle"], ["settle"], self.failure()])

    def loss(self):
        rng, pick = self.rng, self.rng.choice
        choice = pick(["old", "new", "new", "fill 5A", f"fill {rng.randrange(256):02X}", f"first {rng.randrange(3)}"])
        ways = [self.line, self.events, lambda: ["settle"], lambda: SPOOLED, lambda: PURGED, self.unload, self.failure]
        lines = list(pick(ways)())
        call = pick([1, 1, 2, 2, 3, 3, 4, 4, 5, 5, 6, 7, 8, 10, 12, 15])
        for cut in self.planned():
            lines.insert(rng.randrange(len(lines)), f"{cut} {call} {choice}")
        return lines + pick([["settle", *self.reported], ["settle"], ["settle"], []])
