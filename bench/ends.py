"""What the scripts share that run the equipment against the host: the program, a free port, and how to wait."""
import os
import socket
import sys
import time

PROGRAM = os.path.join(os.path.dirname(os.path.abspath(__file__)), "..", "crates", "gemline", "out", "gemline")


def program(words, place):
    """The program that the words name at this place, or the one that `rt run` builds."""
    path = words[place] if len(words) > place else PROGRAM
    if not os.path.exists(path):
        sys.exit("build it first: (cd crates/gemline && rt run)")
    return path


def wait_for(what, holds):
    """Looks each 5 ms whether this holds, for five minutes at most."""
    end = time.monotonic() + 300
    while not holds():
        if time.monotonic() > end:
            sys.exit(f"waited five minutes for {what}")
        time.sleep(0.005)


def free_port():
    with socket.socket() as one:
        one.bind(("127.0.0.1", 0))
        return one.getsockname()[1]


def wait_for_listener(port):
    """Waits until somebody listens at this port. Nobody is called, for the equipment accepts the first call."""
    wait_for(f"somebody to listen at port {port}", lambda: is_listening(port))


def is_listening(port):
    with open("/proc/net/tcp") as file:
        return any(words[1].endswith(f":{port:04X}") and words[3] == "0A" for words in map(str.split, file))
