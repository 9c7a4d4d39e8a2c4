"""What the measuring scripts share: the program, the best time of some runs, and the peak memory of one."""
import os
import subprocess
import sys
import tempfile
import time

PROGRAM = os.path.join(os.path.dirname(os.path.abspath(__file__)), "..", "crates", "gemline", "out", "gemline")
MIB = 1024 * 1024
OD = ["od", "-An", "-v", "-tx1"]

if not os.path.exists(PROGRAM):
    sys.exit("build it first: (cd crates/gemline && rt run)")


def seconds(words, path, runs=7, status=0):
    """The best time of some runs that end with this status, their output thrown away."""
    return by_turns([words], path, runs, status)[0]


def by_turns(commands, path, runs=7, status=0):
    """The best time of each of these, which are run by turns, so that what else goes on comes to all of them."""
    taken = [[once(words, path, status) for words in commands] for _ in range(runs)]
    return [min(times) for times in zip(*taken)]


def once(words, path, status):
    with open(path, "rb") as file:
        start = time.perf_counter()
        ran = subprocess.run(words, stdin=file, stdout=subprocess.DEVNULL, stderr=subprocess.DEVNULL)
        took = time.perf_counter() - start
    if ran.returncode != status:
        sys.exit(f"{words} ended with {ran.returncode}")
    return took


def peak(words, path):
    """The peak memory of a run in MiB, as GNU time tells it."""
    with open(path, "rb") as file, tempfile.NamedTemporaryFile("r") as told:
        subprocess.run(["time", "-f", "%M", "-o", told.name] + words, stdin=file, stdout=subprocess.DEVNULL, check=True)
        return int(told.read()) / 1024


def beside_od(name, words, path):
    """Prints time and peak memory of the words and of od on one file, and answers the time of the words."""
    ours, theirs = seconds(words, path), seconds(OD, path, 3)
    print(f"{name:<34} {ours:7.3f} s {peak(words, path):6.1f} MiB   {theirs:7.3f} s {peak(OD, path):5.1f} MiB   {ours / theirs:5.2f}")
    return ours
