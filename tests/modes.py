"""What the tests of commands share that answer each file by a mode: cases of names, of input and output that fail, and batches of
recordings, which are held against the second program's texts."""

import errno
import os

from runs import (
    CUT_SESSION,
    NAMES,
    ROOT,
    SESSION,
    UNREADABLE,
    Command,
    after_the_signal,
    differing_line,
    ignore_the_signal,
    is_refused,
    opened,
    problems,
    put,
    put_both,
    put_pipe,
    put_unreadable,
    to_closed_output,
    to_full_device,
    unwritten,
    without_reader,
)

KEPT = ROOT / "target" / "compare" / "differs.rec"
LISTING = "listing"  # the mode without an option; the option of any other is its name


class ByMode(Command):
    """A command that answers each file by a mode. A class of it says what is printed, in each mode, for the session, for the session that
    is cut, and for endless zeros."""

    good, cut, zeros = {}, {}, {}

    def words(self, mode, names):
        return [*([] if mode == LISTING else [f"--{mode}"]), *names]

    def run(self, mode, names, **ends):
        return self.call(self.words(mode, names), **ends)

    def shown_name(self, _mode, name):
        """A file's name, as it is printed."""
        return name

    def due(self, _mode, parts, alone=False):
        """The output for files: pairs of the name, as it is printed, and the text under it. A file that is asked for alone has no
        heading."""
        return b"".join(text if alone else b"== %s ==\n%s" % (name, text) for name, text in parts)

    def good_and_cut(self, mode):
        return self.due(mode, [(b"good.rec", self.good[mode]), (b"cut.rec", self.cut[mode])])


# ---- Files that cannot be read ----


def unreadable_among_files(command, mode):
    """The others have their texts; each of these has its message, and nothing on standard output."""
    put_both(command)
    unreadable = put_unreadable(command)
    run = command.run(mode, [b"good.rec", *unreadable, b"cut.rec"])
    said = b"".join(command.message(name, number) for name, number in unreadable.items())
    return problems(run, command.good_and_cut(mode), 2, said)


def unreadable_first_and_last(command, mode):
    put_both(command)
    run = command.run(mode, [b"missing.rec", b"good.rec", UNREADABLE])
    said = command.message(b"missing.rec", errno.ENOENT) + command.message(UNREADABLE, errno.EIO)
    return problems(run, command.due(mode, [(b"good.rec", command.good[mode])]), 2, said)


def unreadable_alone(command, mode):
    """What comes before the first file comes whatever the files are."""
    run = command.run(mode, [UNREADABLE])
    return problems(run, command.due(mode, []), 2, command.message(UNREADABLE, errno.EIO))


def unreadable_standard_input(command, mode):
    put_both(command)
    with opened(UNREADABLE, os.O_RDONLY) as memory:
        run = command.run(mode, [b"good.rec", b"-", b"cut.rec"], stdin=memory)
    return problems(run, command.good_and_cut(mode), 2, command.message(b"standard input", errno.EIO))


def unreadable_and_closed_error(command, mode):
    """With no place left to say anything the status alone tells."""
    put_both(command)
    names = [b"good.rec", b"missing.rec", UNREADABLE, b"cut.rec"]
    run = command.run(mode, names, stderr=None, before=lambda: os.close(2))
    return problems(run, command.good_and_cut(mode), 2)


# ---- Names ----


def names_of_all_sorts(command, mode):
    for name in NAMES:
        put(command, name, SESSION)
    parts = [(command.shown_name(mode, name), command.good[mode]) for name in NAMES]
    return problems(command.run(mode, [b"--", *NAMES]), command.due(mode, parts), 0)


def the_same_file_again(command, mode):
    """A file is answered as often as it is named."""
    put_both(command)
    run = command.run(mode, [b"cut.rec"] * 3)
    return problems(run, command.due(mode, [(b"cut.rec", command.cut[mode])] * 3), 1)


# ---- Standard input ----


def standard_input(command, mode):
    run = command.run(mode, [], given=SESSION)
    return problems(run, command.due(mode, [(b"-", command.good[mode])], alone=True), 0)


def standard_input_by_its_name(command, mode):
    """A dash is no option, and no file of that name after -- either."""
    put(command, b"-", CUT_SESSION)
    run = command.run(mode, [b"--", b"-"], given=SESSION)
    return problems(run, command.due(mode, [(b"-", command.good[mode])], alone=True), 0)


def standard_input_among_files(command, mode):
    put_both(command)
    run = command.run(mode, [b"cut.rec", b"-", b"good.rec"], given=CUT_SESSION)
    parts = [(b"cut.rec", command.cut[mode]), (b"-", command.cut[mode]), (b"good.rec", command.good[mode])]
    return problems(run, command.due(mode, parts), 1)


def closed_input(command, mode):
    run = command.run(mode, [], stdin=None, before=lambda: os.close(0))
    return problems(run, command.due(mode, []), 2, command.message(b"standard input", errno.EBADF))


def closed_input_and_files(command, mode):
    """Nobody asks for standard input, so nothing is said of it."""
    put_both(command)
    run = command.run(mode, [b"good.rec", b"cut.rec"], stdin=None, before=lambda: os.close(0))
    return problems(run, command.good_and_cut(mode), 1)


def pipe_by_name(command, mode):
    put_pipe(command, b"pipe", SESSION)
    put_both(command)
    run = command.run(mode, [b"pipe", b"cut.rec"])
    return problems(run, command.due(mode, [(b"pipe", command.good[mode]), (b"cut.rec", command.cut[mode])]), 1)


def endless_file(command, mode):
    """The largest recording and a byte more are enough."""
    run = command.run(mode, [b"/dev/zero"])
    return problems(run, command.due(mode, [(b"/dev/zero", command.zeros[mode])], alone=True), 1)


# ---- Output that takes no more ----


def full_device(command, mode, names):
    return to_full_device(command, command.words(mode, names))


def full_device_and_one_file(command, mode):
    put_both(command)
    return full_device(command, mode, [b"cut.rec"])


def full_device_and_files(command, mode):
    put_both(command)
    return full_device(command, mode, [b"good.rec", b"cut.rec", b"good.rec"])


def closed_output(command, mode):
    put_both(command)
    return to_closed_output(command, command.words(mode, [b"good.rec", b"cut.rec"]))


def closed_pipe(command, mode, **more):
    put_both(command)
    return without_reader(command, command.words(mode, [b"good.rec", b"cut.rec"]), **more)


def closed_pipe_with_the_signal_ignored(command, mode):
    return unwritten(command, closed_pipe(command, mode, before=ignore_the_signal), errno.EPIPE)


def closed_pipe_and_the_signal(command, mode):
    return after_the_signal(command, closed_pipe(command, mode))


# ---- Many recordings in one call ----


class Batch:
    """Recordings in a folder. By some modes there is the second program's text of each."""

    def __init__(self, command, files, texts):
        self.command, self.files, self.texts = command, files, texts
        self.names = list(files)

    def due(self, mode, names):
        """The second program's output and status for several files."""
        parts = [(name, self.texts[mode][name]) for name in names]
        refused = any(is_refused(text) for _, text in parts)
        return self.command.due(mode, parts, alone=len(names) == 1), int(refused)

    def place_of(self, _mode, lines):
        """Which file the last of these lines belongs to, counted from 0."""
        return sum(line.startswith(b"== ") for line in lines) - 1

    def keep(self, mode, names, expected, got):
        """Keeps the first file that is answered wrongly; where it is."""
        lines = expected.split(b"\n")[: differing_line(expected, got)[0] + 1]
        name = names[min(max(self.place_of(mode, lines), 0), len(names) - 1)]
        KEPT.parent.mkdir(parents=True, exist_ok=True)
        KEPT.write_bytes(self.files[name])
        return f"{name.decode()} is kept in {KEPT}"

    def compare(self, mode, names, **ends):
        """Problems of one call with these files. Where `ends` has an input it is that of the one file, and no name is given."""
        expected, status = self.due(mode, names)
        run = self.command.run(mode, [] if "given" in ends else names, **ends)
        found = problems(run, expected, status)
        if run.out != expected:
            found.append(self.keep(mode, names, expected, run.out))
        return found

    def all_recordings(self, mode):
        return self.compare(mode, self.names)

    def full_device_and_many_files(self, mode):
        """More lines than a buffer holds."""
        return full_device(self.command, mode, self.names)
