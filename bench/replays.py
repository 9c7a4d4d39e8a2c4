"""What the scripts share that read traces: replays of texts, and what is kept of those that break the promise."""
import os
import subprocess
import tempfile

from reading import Reading

COUNTED = ("rx", "sent S2F24", "sent S6F1", "power", "stored", "try", "confirmed", "purged", "overwritten", "kept",
           "setup", "slip")
LISTED = ("E power", "H power", "listing", "listed", "journal full")


class Replays:
    """Runs the program on plans and schedules, in a folder of its own; with the number of its slots where the host has a
    journal."""

    def __init__(self, gemline, folder, slots=None):
        self.gemline, self.folder, self.done, self.broken = gemline, folder, 0, 0
        self.slots = slots
        self.counts = dict.fromkeys([*COUNTED, *(LISTED if slots else ())], 0)
        self.front = None, 0                        # the plan and the start of a schedule that ran last, and its lines
        self.calls = None                           # of the disk, before the last loss of the last trace in its event

    def run(self, plan, schedule):
        """The lines of the trace, and the status."""
        files = [os.path.join(self.folder, name) for name in ("plan", "schedule")]
        for file, text in zip(files, (plan, schedule)):
            with open(file, "w") as out:
                out.write(text)
        words = ["--journal", str(self.slots)] if self.slots else []
        ran = subprocess.run([self.gemline, "replay", *files, *words], capture_output=True, text=True)
        return ran.stdout.splitlines(), ran.returncode

    def read(self, name, plan, schedule, ends=0):
        """Runs one, which ends with this status but for a slip, says what its trace breaks, and answers the trace."""
        trace, status = self.run(plan, schedule)
        reading, lines = Reading(plan, schedule, self.slots), schedule.splitlines(keepends=True)
        begins = [self.length(plan, "".join(lines[:place])) for place in reading.places()]
        broken = reading.read(trace, begins)
        self.calls = reading.counted()
        wanted = 76 if is_slip(trace[-1:]) else reading.status or ends
        if status != wanted:
            broken.append(f"status {status} where {wanted} is wanted")
        for line in trace:
            words = line.split(" ")[1:]
            for told in {*words[1:], " ".join(words[1:3]), " ".join(words)}.intersection(self.counts):
                self.counts[told] += 1
        if status == 80:
            self.counts["journal full"] += 1
        self.done += 1
        if broken:
            self.broken += 1
            kept = tempfile.mkdtemp(prefix="gemline-")
            for file, text in (("plan", plan), ("schedule", schedule), ("trace", "\n".join(trace) + "\n"),
                               *([("slots", str(self.slots))] if self.slots else [])):
                with open(os.path.join(kept, file), "w") as out:
                    out.write(text)
            print(f"{name}, kept in {kept}:", *broken[:3], sep="\n    ", flush=True)
        return trace

    def length(self, plan, schedule):
        """How many lines the start of a schedule gives, without the last one."""
        if self.front[0] != (plan, schedule):
            self.front = (plan, schedule), len(self.run(plan, schedule)[0]) - 1
        return self.front[1]

    def tell(self):
        counts = ", ".join(f"{count} {word}" for word, count in self.counts.items())
        print(f"{self.done} traces, {self.broken} break the promise: {counts}", flush=True)


def is_slip(last):
    return [line.split(" ")[2:3] for line in last] == [["slip"]]
