#!/usr/bin/env python3
"""The proved replay from Python, by ctypes; include/pohandira.h says what the functions do.

    examples/embedding/pohandira.py LIBRARY < RECORDING
    examples/embedding/pohandira.py --reasons LIBRARY < RECORDING
    examples/embedding/pohandira.py LIBRARY FILE...

prints the listing of a recording (document 01, "One session, whole"); the listing with reasons, an empty line, and all effects after the
last scan (docs/FORMAT.md, "Reasons"); or the season totals of the recordings in files (docs/FORMAT.md, "Season totals"). LIBRARY is a shared
object that is made from the static library; README.md says how. The exit status is 0; 1 if a recording is refused, and standard error then
says why; 2 if the library or a recording could not be read, the text could not be written, or the library is of another version.
"""

import ctypes
import pathlib
import struct
import sys
from typing import NamedTuple

VERSION = 4000  # that this file is for, as one number
CHECK_BYTES, TOTALS_BYTES, RECORD_BYTES, REASON_BYTES = 24, 56, 12, 8
REPORT_NUMBERS, REPORT_BYTES, EFFECT_NUMBERS = 113, 904, 7
MOST_EFFECTS = 16
EFFECT_COUNT_AT = 7  # where a recording that is accepted has the low byte of its effect count, whose high byte is 0
STATES = ("tripped", "wait-reset", "ready", "wait-start", "normal", "delayed")
KINDS = ("forced tripped", "forced normal", "Bad", "active", "delay running", "delay ended", "waiting", "cleared", "at rest")
MISSING = ("", "reset permit", "reset", "start permit")


REFUSALS = {
    1: "bytes end before a count or an entry does",
    2: "block section wrong",
    3: "effects section wrong",
    4: "row count, hold or a row word wrong",
    5: "one effect in both force words",
    6: "several forced without option bit 2",
    7: "bytes left over",
    9: "more than 1,000,000,000 scans",
    11: "a number of a report would pass 64 bits",
}


class OtherVersion(Exception):
    """A library that is not of this file's version: what crosses may have grown."""


class Refused(Exception):
    """A recording that is refused: the number (document 01, "Refusal numbers"), the place in bytes, and the number in words."""

    def __init__(self, number, place):
        super().__init__(f"refused {number} at {place}")
        self.number, self.place, self.text = number, place, REFUSALS.get(number, "unknown")


class Event(NamedTuple):
    """One change of one effect's state; the states are names."""

    sequence: int
    scan: int
    effect: int
    before: str
    after: str
    first_out: int


class Reason(NamedTuple):
    """Why an effect is in its state after a scan; its kind and what is missing are names. What it does not have is empty or 0."""

    kind: str
    missing: str
    causes: int
    milliseconds: int

    def __str__(self):
        """The words that a listing has."""
        return " ".join(str(part) for part in self if part)


class Totals(NamedTuple):
    records: int
    rows: int
    scans: int
    live: int
    exercised: int


class Replay(NamedTuple):
    events: list
    totals: Totals


class Report:
    """Season totals, an empty report at first. Library.season adds recordings."""

    def __init__(self):
        self.bytes = ctypes.create_string_buffer(REPORT_BYTES)

    def totals(self):
        """For each of 16 effects its numbers, the scans after which it stood in each of STATES and its trips; and the exercised scans."""
        *numbers, exercised = struct.unpack(f">{REPORT_NUMBERS}Q", self.bytes.raw)
        return [numbers[at : at + EFFECT_NUMBERS] for at in range(0, len(numbers), EFFECT_NUMBERS)], exercised


def totals_in(numbers):
    """The totals of a count or a replay; their refusal is raised."""
    *totals, number, place = struct.unpack(">7Q", numbers.raw)
    if number:
        raise Refused(number, place)
    return Totals(*totals)


def event(sequence, scan, effect, before, after, first_out):
    return Event(sequence, scan, effect, STATES[before], STATES[after], first_out)


def reasons_in(lent, count):
    """So many reasons, from the start of a lent buffer."""
    fields = struct.iter_unpack(">BBHI", lent.raw[: REASON_BYTES * count])
    return [Reason(KINDS[kind], MISSING[missing], causes, left) for kind, missing, causes, left in fields]


class Library:
    def __init__(self, path):
        library = ctypes.CDLL(str(pathlib.Path(path).resolve()))
        library.pohandira_version.restype = ctypes.c_uint32
        if library.pohandira_version() != VERSION:
            raise OtherVersion(f"the library is version {library.pohandira_version()}, and this program is for {VERSION}")
        lent = [ctypes.c_char_p, ctypes.c_size_t]
        self._check, self._count, self._replay = library.pohandira_check, library.pohandira_count, library.pohandira_replay
        self._season, self._reasons, self._now = library.pohandira_season, library.pohandira_reasons, library.pohandira_now
        for function in (self._check, self._count, self._season, self._reasons, self._now):
            function.argtypes, function.restype = lent * 2, ctypes.c_uint8
        self._replay.argtypes, self._replay.restype = lent * 3, ctypes.c_uint8

    def check(self, recording):
        """How many rows a recording has; nothing is replayed."""
        recording = bytes(recording)
        answer = ctypes.create_string_buffer(CHECK_BYTES)
        self._check(recording, len(recording), answer, CHECK_BYTES)
        number, place, rows = struct.unpack(">3Q", answer.raw)
        if number:
            raise Refused(number, place)
        return rows

    def count(self, recording):
        """The recording's totals from a fresh state; no event is kept."""
        recording = bytes(recording)
        numbers = ctypes.create_string_buffer(TOTALS_BYTES)
        self._count(recording, len(recording), numbers, TOTALS_BYTES)
        return totals_in(numbers)

    def replay(self, recording):
        """The recording's changes of state from a fresh state, in room for just as many as a count tells, and its totals."""
        recording = bytes(recording)
        room = RECORD_BYTES * self.count(recording).records
        # one byte more than is lent, since no pointer may be null
        records, numbers = ctypes.create_string_buffer(room + 1), ctypes.create_string_buffer(TOTALS_BYTES)
        self._replay(recording, len(recording), records, room, numbers, TOTALS_BYTES)
        totals = totals_in(numbers)
        return Replay([event(*fields) for fields in struct.iter_unpack(">HIBBBxH", records.raw[:room])], totals)

    def _told(self, tell, recording, most):
        """The bytes of a recording's reasons, of which there are at most so many."""
        room = REASON_BYTES * most
        lent = ctypes.create_string_buffer(room + 1)  # one byte more than is lent, since no pointer may be null
        if tell(recording, len(recording), lent, room):
            self.count(recording)  # raises the refusal, with its place
        return lent

    def reasons(self, recording):
        """Why the effect of each event of a replay is in its new state, in the order of the events."""
        recording = bytes(recording)
        count = self.count(recording).records
        return reasons_in(self._told(self._reasons, recording, count), count)

    def now(self, recording):
        """Why each effect, from 1, is in its state after the last scan."""
        recording = bytes(recording)
        lent = self._told(self._now, recording, MOST_EFFECTS)
        return reasons_in(lent, recording[EFFECT_COUNT_AT])

    def season(self, report, recording):
        """Adds a recording to a report. One that is refused adds nothing."""
        recording = bytes(recording)
        number = self._season(recording, len(recording), report.bytes, REPORT_BYTES)
        if number in (9, 11):
            raise Refused(number, 0)
        if number:
            self.check(recording)  # raises the refusal, with its place


def text_of(lines):
    return "".join(f"{line}\n" for line in lines)


def line_of(fields):
    return " ".join(map(str, fields))


def last_line(totals):
    return f"rows {totals.rows} scans {totals.scans} live {totals.live} exercised {totals.exercised}"


def listing(library, recording):
    replay = library.replay(recording)
    return text_of(["seq scan effect from to first", *map(line_of, replay.events), last_line(replay.totals)])


def listing_with_reasons(replay, reasons):
    lines = [f"{line_of(change)} {reason}" for change, reason in zip(replay.events, reasons)]
    return text_of(["seq scan effect from to first reason", *lines, last_line(replay.totals)])


def effects(events, now):
    """An effect stands as its last event says, and one without an event as at first: tripped, without a first-out."""
    last = {change.effect: (change.after, change.first_out) for change in events}
    lines = [line_of([effect, *last.get(effect, (STATES[0], 0)), reason]) for effect, reason in enumerate(now, 1)]
    return text_of(["effect state first reason", *lines])


def both_with_reasons(library, recording):
    now, replay, reasons = library.now(recording), library.replay(recording), library.reasons(recording)
    return f"{listing_with_reasons(replay, reasons)}\n{effects(replay.events, now)}"


def answer(text, library, recording):
    """What is printed, and why the recording is refused, or nothing."""
    try:
        return text(library, recording), ""
    except Refused as refused:
        return f"{refused}\n", refused.text


def table(report, added, refused):
    """Up to the last effect that some recording has: after each of its scans the effect stood in a state."""
    effects, exercised = report.totals()
    while effects and not any(effects[-1]):
        effects.pop()
    lines = [" ".join(["effect", *STATES, "trips"])]
    lines += [line_of([number, *totals]) for number, totals in enumerate(effects, 1)]
    lines += [f"recordings {added} refused {refused} exercised {exercised}"]
    return text_of(lines)


def say(message):
    print(f"pohandira.py: {message}", file=sys.stderr)


def say_error(what, error):
    say(f"{what}: {error.strerror or error}")


def write(text):
    """Whether the text was written."""
    try:
        # print would only fill a buffer, which fails once more when Python ends.
        with open(1, "w", closefd=False) as output:
            output.write(text)
    except OSError as error:
        say_error("standard output", error)
        return False
    return True


def print_input(text, library):
    """Prints a text of standard input; the exit status."""
    try:
        with open(0, "rb", closefd=False) as given:
            printed, refused = answer(text, library, given.read())
    except OSError as error:
        say_error("standard input", error)
        return 2
    if not write(printed):
        return 2
    if refused:
        say(f"refused: {refused}")
        return 1
    return 0


def add_file(library, report, name):
    """Adds the recording in a file to a report; 0, or the exit status of what went wrong."""
    try:
        with open(name, "rb") as file:
            library.season(report, file.read())
    except OSError as error:
        say_error(name, error)
        return 2
    except Refused as refused:
        say(f"{name}: refused: {refused.text}")
        return 1
    return 0


def season(library, names):
    """Prints the season totals of files; the exit status."""
    report = Report()
    ended = [add_file(library, report, name) for name in names]
    if not write(table(report, ended.count(0), ended.count(1))):
        return 2
    return max(ended)


def main():
    reasons = sys.argv[1:2] == ["--reasons"]
    path, *names = sys.argv[2 if reasons else 1 :] or [""]
    if not path or (reasons and names):
        print("usage: pohandira.py [--reasons] LIBRARY < RECORDING | pohandira.py LIBRARY FILE...", file=sys.stderr)
        return 2
    try:
        library = Library(path)
    except OtherVersion as error:
        say(error)
        return 2
    except OSError as error:
        say_error(path, error)
        return 2
    if names:
        return season(library, names)
    return print_input(both_with_reasons if reasons else listing, library)


if __name__ == "__main__":
    sys.exit(main())
