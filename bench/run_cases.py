"""Cases of single scans and held runs with sixteen effects on one cause, for the figures, and the time that a program takes to answer them."""
import struct
import subprocess
import time

ROOM = 384  # the records of two changes of sixteen effects
ALL = 65535  # all sixteen effects
SEVERAL = 4  # option bit 2
NORMAL = 4  # the state's code


def settings_of(options, delay, period=100):
    """Sixteen effects on one cause."""
    return struct.pack(">BBHB", 1, options, period, 16) + b"".join(struct.pack(">HI", 1, delay(i)) for i in range(16))


def state_of(code):
    """Every effect in one state, and no scan done."""
    return struct.pack(">IH", 0, 0) + b"".join(struct.pack(">BIH", code, 0, 0) for _ in range(16))


def words_of(values, force_trip=0, force_normal=0):
    """A row without permits, resets and Bad causes; a force has its permit."""
    permit = 1 if force_trip | force_normal else 0
    return struct.pack(">10H", values, 0, 0, 0, 0, 0, 0, permit, force_trip, force_normal)


def scan_case(settings, state, words):
    return settings + state + words + struct.pack(">H", ROOM)


def held_case(settings, state, hold, words):
    return settings + state + struct.pack(">I", hold) + words + struct.pack(">H", ROOM)


def seconds(command, stream):
    start = time.perf_counter()
    subprocess.run(command, input=stream, stdout=subprocess.DEVNULL, check=True)
    return time.perf_counter() - start


def least(calls, rounds=9):
    """The least time of each call, a command and its stream, all of them taken in turn."""
    times = [[seconds(*call) for call in calls] for _ in range(rounds)]
    return [min(of_call) for of_call in zip(*times)]
