"""A reading of what a host sets up: whether a request is accepted, what the tables are then, and what is kept of it.

The tables of a start are those of the plan, then what its kept requests make of them, then what the host's requests and
the tool's commands do. What is kept is a list of requests, the oldest first: a new one takes out those that tell nothing
behind it. S2F33 without entries takes out all S2F33 and S2F35; S2F15, S2F37 and S5F3 take out those of their function
that name something and nothing that they don't name, and where they are for all, all of their function; S2F43 takes out
all S2F43.
"""
import copy

from spelling import list_of, parsed, u4

DEFINE, LINK, ENABLE = "S2F33", "S2F35", "S2F37"
CONSTANTS, RULE, ALARMS = "S2F15", "S2F43", "S5F3"
CHANGES = (CONSTANTS, DEFINE, LINK, ENABLE, RULE, ALARMS)
SPOOLABLE = {5: [1], 6: [11], 10: [1]}
ENABLE_SPOOL, OVERWRITE = 2, 3
DONE = 0


def names(change, body):
    """The identifiers that a request names."""
    told = parsed(body)
    if change == CONSTANTS:
        return {constant for constant, _ in told}
    if change == ENABLE:
        return set(told[1])
    return {told[1]} - {None} if change == ALARMS else set()


def kept_behind(kept, change, body):
    """What is kept behind one more accepted request."""
    told, named = parsed(body), names(change, body)
    if change == DEFINE and not told[1]:
        return [one for one in kept if one[0] not in (DEFINE, LINK)]
    if change in (CONSTANTS, LINK) and not (told if change == CONSTANTS else told[1]):
        return kept

    def goes(old, old_body):
        if old != change or change in (DEFINE, LINK):
            return False
        return not named or set() < names(old, old_body) <= named
    return [one for one in kept if not goes(*one)] + [(change, body)]


def bytes_of(kept):
    """How many bytes a list takes."""
    return sum(6 + len(body) for _, body in kept)


def is_accepted(change, answer):
    """Whether the answer to a request says so."""
    told = parsed(answer)
    return (told[0] if change == RULE else told) == DONE


class Tables:
    """Values and all that the host sets up, as one start of the tool has them now."""

    def __init__(self, plan, kept=()):
        self.plan = plan
        self.values = {variable: value for variable, (_, value) in plan.variables.items()}
        self.constants, self.reports, self.links = dict(plan.first_constants), {}, {}
        self.enabled, self.rule, self.alarms = set(), set(plan.spooled), {*plan.enabled_alarms}
        self.set_alarms = set()
        self.refused = 0                            # how many of the kept requests are
        for change, body in kept:
            new = self.after(change, body)
            if new:
                self.__dict__.update(new.__dict__)
            else:
                self.refused += 1

    def after(self, change, body):
        """The tables behind a request, or None where it is refused. Want of room isn't known here."""
        new, told = copy.copy(self), parsed(body)
        may = {CONSTANTS: new.set_constants, DEFINE: new.define_all, LINK: new.link_all, ENABLE: new.enable,
               RULE: new.replace_rule, ALARMS: new.enable_alarms}[change](told)
        return new if may else None

    # Each of these says whether it may be, and changes these tables.

    def set_constants(self, told):
        self.constants = {**self.constants, **dict(told)}
        return all(self.plan.least_and_most(constant)[0] <= value <= self.plan.least_and_most(constant)[1]
                   for constant, value in told)

    def define_all(self, told):
        self.reports, self.links = ({}, {}) if not told[1] else (dict(self.reports), dict(self.links))
        return all(self.define(*pair) for pair in told[1])

    def link_all(self, told):
        self.links = dict(self.links)
        return all(self.link(*pair) for pair in told[1])

    def define(self, report, variables):
        if variables:
            may = report not in self.reports and set(variables) <= set(self.values)
            self.reports[report] = variables
            return may
        self.reports.pop(report, None)
        for event, linked in self.links.items():
            self.links[event] = [one for one in linked if one != report]
        return True

    def link(self, event, reports):
        may = not reports or not self.links.get(event) and set(reports) <= set(self.reports)
        self.links[event] = reports
        return may and event in self.plan.events

    def enable(self, told):
        events = set(told[1] or self.plan.events)
        self.enabled = self.enabled | events if told[0] else self.enabled - events
        return events <= self.plan.events

    def replace_rule(self, told):
        self.rule = {f"S{stream}F{function}" for stream, functions in told
                     for function in functions or SPOOLABLE.get(stream, [])}
        return all(stream in SPOOLABLE and set(functions) <= {*SPOOLABLE[stream]} for stream, functions in told)

    def enable_alarms(self, told):
        alarms = {*self.plan.alarms} if told[1] is None else {told[1]}
        self.alarms = self.alarms | alarms if told[0] & 0x80 else self.alarms - alarms
        return alarms <= {*self.plan.alarms}

    # What they make.

    def report(self, report):
        return list_of([self.values[variable] for variable in self.reports.get(report, [])])

    def event(self, event, number):
        reports = [list_of([u4(report), self.report(report)]) for report in self.links.get(event, [])]
        return list_of([u4(number), u4(event), list_of(reports)])

    def alarm(self, alarm):
        return self.plan.alarm_body(alarm, "set" if alarm in self.set_alarms else "clear")
