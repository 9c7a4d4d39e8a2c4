#!/usr/bin/env python3
"""A tool's software that works with gemline_tool, its child: counts wafers, raises an alarm, and obeys the host.

    examples/controller.py PLAN ADDRESS SPOOL [WAFERS [PROGRAM]]

It is for the plan first-run/live.plan. Each second a wafer is done: its number goes to variable 1, and event 1 happens.
Behind every third one alarm 7 is set, and cleared behind the next. On the remote command START, by which the host names
a recipe, that name goes to variable 2, and event 2 happens. The lines of gemline_tool go to standard output.
"""
import os
import subprocess
import sys
import threading
import time

PROGRAM = os.path.join(os.path.dirname(os.path.abspath(__file__)), "../crates/gemline_tool/out/gemline_tool")


def item(data, at=0):
    """The SECS-II item at a place, a list, a text or its bytes, and the place behind it."""
    kind, lengths = data[at] >> 2, data[at] & 3
    count, at = int.from_bytes(data[at + 1 : at + 1 + lengths], "big"), at + 1 + lengths
    if kind == 0:
        items = []
        for _ in range(count):
            one, at = item(data, at)
            items.append(one)
        return items, at
    body = data[at : at + count]
    return body.decode("latin-1") if kind == 0o20 else body, at + count


class Tool:
    """The program as a child: commands go in, and what it says is read as it comes."""

    def __init__(self, words):
        self.child = subprocess.Popen(words, stdin=subprocess.PIPE, stdout=subprocess.PIPE, encoding="latin-1")
        self.turn, self.asked = threading.Lock(), None
        print(f"# pid {self.child.pid}", flush=True)
        self.reader = threading.Thread(target=self.read)
        self.reader.start()

    def do(self, *commands):
        with self.turn:
            self.child.stdin.write("".join(command + "\n" for command in commands))
            self.child.stdin.flush()

    def read(self):
        for line in self.child.stdout:
            print(line, end="", flush=True)
            self.obey(line.split())

    def obey(self, words):
        """The message of the host comes first, and then its command's name, if that is carried out."""
        if words[2:4] == ["rx", "S2F41"]:
            self.asked = item(bytes.fromhex(words[-1]))[0]
        elif words[2:] == ["command", "START"]:
            recipe = dict(self.asked[1])["RECIPE"]
            self.do(f'set 2 <A "{recipe}">', "event 2")


def main():
    words, wafers = sys.argv[1:4], int(sys.argv[4]) if len(sys.argv) > 4 else 10
    tool = Tool([sys.argv[5] if len(sys.argv) > 5 else PROGRAM] + words)
    try:
        for wafer in range(1, wafers + 1):
            time.sleep(1)
            tool.do(f"set 1 <U4 {wafer}>", "event 1", f"alarm 7 {'clear' if wafer % 3 else 'set'}")
        tool.do("stop")
    except BrokenPipeError:
        pass
    tool.reader.join()
    sys.exit(tool.child.wait())


main()
