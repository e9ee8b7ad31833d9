"""What the tests of the commands share: recordings, files in a folder, runs and what is wrong with them, and the second program."""

import argparse
import contextlib
import errno
import os
import pathlib
import secrets
import signal
import struct
import subprocess
import sys
import tempfile
import threading
import time

ROOT = pathlib.Path(__file__).resolve().parent.parent
SECOND = ROOT / "second" / "target" / "release" / "second"
COUNT = 10_000  # of fresh recordings in one call
REPLAYS = 10  # one in so many is of a stream of replays, whose recordings are longer
PAIRS = 992  # of forces: 120 pairs of effects in four ways and 16 effects twice, each by two options
# Cases of Bad causes, in twos that differ in one Bad bit alone. The twos of masked causes come first.
BAD_CASES = {"scan": 3520, "held": 3520, "recording": 640, "replay": 640, "season": 640, "reason": 3520, "why": 640}
BAD_MASKED = {"scan": 880, "held": 880, "recording": 160, "replay": 160, "season": 160, "reason": 880, "why": 160}  # of the twos
TIME_LIMIT = 60  # seconds for one run
PAUSE = 0.3  # seconds between two pieces of a recording
LONGEST_NAME = 255  # bytes of a file's name
UNREADABLE = b"/proc/self/mem"  # it can be opened, and reading it from 0 gives an input/output error
LENGTH_BYTES = 4  # of a file in a stream of cases
MOST_EFFECTS = 16
MOST_ROWS = 2048
LARGEST = 49_258  # bytes of the largest recording
MOST_HOLD = 1_000_000
LAST_HOLDS = 1000  # the longest holds that lead to the last scan

# Document 01, "One session, whole".
SESSION = bytes.fromhex(
    "0001 0200 0064 0002 0001 00000000 0003 000000FA 0002"
    "00000003 0003 0000 0000 0000 0003 0003 0000 0000 0000 0000"
    "00000005 0002 0000 0000 0000 0003 0003 0000 0000 0000 0000"
)
CUT_SESSION = SESSION[:69]

# Names of all sorts, and how CSV has them.
NAMES = {
    b"plain.rec": b"plain.rec",
    b"-dashed.rec": b"-dashed.rec",
    b"--check": b"--check",
    b"--": b"--",
    b"./-": b"./-",
    b"two words": b"two words",
    b" ": b" ",
    b"tab\t;'x'": b"tab\t;'x'",
    b"%s%n\\n$HOME*?[a]": b"%s%n\\n$HOME*?[a]",
    b"a: b": b"a: b",
    b"== a ==": b"== a ==",
    b"caf\xc3\xa9": b"caf\xc3\xa9",
    b"\xff\xfe no text": b"\xff\xfe no text",
    b"a,b": b'"a,b"',
    b",": b'","',
    b'"': b'""""',
    b'say "so"': b'"say ""so"""',
    b'""': b'""""""',
    b"two\nlines": b'"two\nlines"',
    b"\n": b'"\n"',
    b"carriage\rreturn": b'"carriage\rreturn"',
    b"n" * LONGEST_NAME: b"n" * LONGEST_NAME,
}


class Failure(Exception):
    """Why nothing could be tried."""


def recording(effects, delay, rows):
    """One cause, `effects` effects with one delay, period 100; rows are (hold, value of the cause)."""
    every = 2**effects - 1
    parts = [struct.pack(">HBBHH", 1, 1, 0, 100, effects)]
    parts += [struct.pack(">HI", 1, delay)] * effects
    parts += [struct.pack(">H", len(rows))]
    for hold, value in rows:
        words = (value, 0, 0, 0, every, every, 0, 0, 0, 0)
        parts.append(struct.pack(">I10H", hold, *words))
    return b"".join(parts)


def largest():
    """The largest recording, quiet throughout."""
    return recording(MOST_EFFECTS, 0, [(1, 1)] * MOST_ROWS)


def long_listing():
    """The recording with the longest listing: 49,152 changes, 1.5 MB without reasons, more than any pipe holds."""
    return recording(MOST_EFFECTS, 150, [(3, 1), (3, 0)] * (MOST_ROWS // 2))


def past_the_last_scan(effects=1):
    """Quiet rows of the longest hold, of which the last is refused by 9."""
    return recording(effects, 0, [(MOST_HOLD, 1)] * (LAST_HOLDS + 1))


PAST_THE_LAST_SCAN = b"refused 9 at 24016\n"  # the last row's place, of one effect


# ---- Runs ----


class Run:
    """One run of a program, ended; `ends` are its files."""

    def __init__(self, words, given=None, before=lambda: None, **ends):
        if given is not None:
            ends["stdin"] = subprocess.PIPE
        ends.setdefault("stdin", subprocess.DEVNULL)
        ends.setdefault("stdout", subprocess.PIPE)
        ends.setdefault("stderr", subprocess.PIPE)
        # A session of its own, so that what the command has started can be killed with it.
        child = subprocess.Popen(words, preexec_fn=before, start_new_session=True, **ends)
        self.hung = False
        try:
            out, said = child.communicate(given, timeout=TIME_LIMIT)
        except subprocess.TimeoutExpired:
            self.hung = True
            os.killpg(child.pid, signal.SIGKILL)
            out, said = child.communicate()
        self.out, self.said, self.status = out or b"", said or b"", child.returncode


class Command:
    """A command, called in a folder."""

    def __init__(self, program, folder):
        self.program, self.folder = str(program), folder

    def call(self, words, **ends):
        return Run([self.program, *words], cwd=self.folder, **ends)

    def name(self):
        """What its messages begin with."""
        return pathlib.Path(self.program).name

    def message(self, what, number):
        """What it says where the system answers with an error number."""
        return b"%s: %s: %s\n" % (self.name().encode(), what, os.strerror(number).encode())


def shown(text):
    text = text.decode("utf-8", "backslashreplace")
    return repr(text if len(text) <= 300 else text[:300] + "...")


def differing_line(expected, got):
    """The first line that differs, counted from 0, in both texts."""
    pair = (expected.split(b"\n"), got.split(b"\n"))
    for number in range(max(map(len, pair))):
        lines = [text[number] if number < len(text) else b"(no line)" for text in pair]
        if lines[0] != lines[1]:
            return number, *lines
    raise AssertionError("the texts are equal")


def problems(run, out, status, said=b""):
    """What is not as it should be in a run."""
    found = [f"did not end within {TIME_LIMIT} s"] if run.hung else []
    if run.out != out:
        number, ours, theirs = differing_line(out, run.out)
        found.append(f"line {number + 1} is {shown(theirs)} and not {shown(ours)}")
    if run.said != said:
        found.append(f"said {shown(run.said)} and not {shown(said)}")
    if run.status != status:
        found.append(f"ended with {run.status} and not {status}")
    return found


def last_line(text):
    return text.split(b"\n")[-2]


def is_refused(text):
    """Whether a text is a refusal, or ends with one."""
    return last_line(text).startswith(b"refused ")


# ---- Files ----


@contextlib.contextmanager
def opened(path, how):
    """A descriptor of anything that can be opened; Python's own files hold no folder."""
    descriptor = os.open(path, how)
    try:
        yield descriptor
    finally:
        os.close(descriptor)


def path_of(command, name):
    return os.path.join(os.fsencode(command.folder), name)


def put(command, name, data):
    with open(path_of(command, name), "wb") as file:
        file.write(data)


def put_both(command):
    put(command, b"good.rec", SESSION)
    put(command, b"cut.rec", CUT_SESSION)


def put_unreadable(command):
    """Names that cannot be read, with the system's error number for each."""
    os.mkdir(path_of(command, b"folder"))
    os.symlink("loop", path_of(command, b"loop"))
    return {
        UNREADABLE: errno.EIO,
        b"missing.rec": errno.ENOENT,
        b"": errno.ENOENT,
        b"folder": errno.EISDIR,
        b"good.rec/": errno.ENOTDIR,
        b"loop": errno.ELOOP,
        b"n" * (LONGEST_NAME + 1): errno.ENAMETOOLONG,
        b"no\nsuch, file": errno.ENOENT,
    }


def write_in_two_pieces(path, data):
    """Writes a pipe with a pause, so that one read does not get all; the reader may have gone."""
    with contextlib.suppress(BrokenPipeError), open(path, "wb", buffering=0) as file:
        file.write(data[: len(data) // 2])
        time.sleep(PAUSE)
        file.write(data[len(data) // 2 :])


def put_pipe(command, name, data):
    """A pipe by name, which is written as soon as somebody opens it."""
    path = path_of(command, name)
    os.mkfifo(path)
    threading.Thread(target=write_in_two_pieces, args=(path, data), daemon=True).start()


# ---- Output that takes no more ----


def unwritten(command, run, number, said=b""):
    """Problems of a run whose output took no more; `said` is what it has said of files before."""
    return problems(run, b"", 2, said + command.message(b"standard output", number))


def to_full_device(command, words, said=b""):
    with opened("/dev/full", os.O_WRONLY) as full:
        return unwritten(command, command.call(words, stdout=full), errno.ENOSPC, said)


def to_closed_output(command, words):
    run = command.call(words, stdout=None, before=lambda: os.close(1))
    return problems(run, b"", 2, b"%s: standard output is closed\n" % command.name().encode())


def ignore_the_signal():
    signal.signal(signal.SIGPIPE, signal.SIG_IGN)


def without_reader(command, words, **more):
    """A run whose output's reader has gone before."""
    reading, writing = os.pipe()
    os.close(reading)
    run = command.call(words, stdout=writing, **more)
    os.close(writing)
    return run


def after_the_signal(command, run):
    """Problems of a run whose reader has gone: the program may die of the signal, as others do, and then says nothing."""
    if run.status == -signal.SIGPIPE:
        return problems(run, b"", run.status)
    return unwritten(command, run, errno.EPIPE)


# ---- The second program, and fresh recordings ----


def second(words, **more):
    """What the second program prints, and its status."""
    run = Run([str(SECOND), *words], **more)
    if run.hung or run.said or run.status not in (0, 1):
        raise Failure(f"second {words[0]} ended with {run.status} and said {shown(run.said)}")
    return run.out, run.status


def files_of(stream):
    """The files of a stream of cases, each with its length before it."""
    place = 0
    while place < len(stream):
        start = place + LENGTH_BYTES
        end = start + int.from_bytes(stream[place:start], "big")
        yield stream[start:end]
        place = end


def made(kind, seed, count):
    return list(files_of(second(["make", kind, str(seed), str(count)])[0]))


def second_texts(kind, files, count):
    """The second program's answers of a kind to recordings: so many texts for each, which have an empty line after them."""
    stream = b"".join(len(file).to_bytes(LENGTH_BYTES, "big") + file for file in files)
    texts = [text + b"\n" for text in second(["answer", kind], given=stream)[0].split(b"\n\n")[:-1]]
    if len(texts) != count * len(files):
        raise Failure(f"{len(texts)} texts were made, not {count} for each of {len(files)} recordings")
    return [texts[start : start + count] for start in range(0, len(texts), count)]


def put_numbered(command, files, count):
    """The files, so many, in the folder; their names and bytes."""
    if len(files) != count:
        raise Failure(f"{len(files)} recordings were made, not {count}")
    named = {b"%d.rec" % number: file for number, file in enumerate(files, 1)}
    for name, file in named.items():
        put(command, name, file)
    return named


def put_fresh(command, seed, count, kind="replay"):
    """So many fresh recordings in the folder, about half of them damaged; one in ten is of the kind's stream."""
    replays = count // REPLAYS
    files = made("recording", seed, count - replays) + made(kind, seed, replays)
    return put_numbered(command, files, count)


def put_pairs(command):
    """A recording of each pair of forces, without and with option bit 2, in the folder."""
    return put_numbered(command, list(files_of(second(["pairs", "recording"])[0])), PAIRS)


def put_bad(command):
    """The recordings of Bad causes, in the folder."""
    return put_numbered(command, list(files_of(second(["bad", "recording"])[0])), BAD_CASES["recording"])


# ---- Options that every command has ----


def options_that_are_none(command, no_options):
    """An option that is none, or a second one, is named, and no file is answered. `no_options` has the words, and the one that is named."""
    put_both(command)
    found = []
    for words, named in no_options.items():
        said = f"{command.name()}: unknown option {named}; see bin/{command.name()} --help\n".encode()
        wrong = problems(command.call([*words, "good.rec"]), b"", 2, said)
        found += [f"{' '.join(words)}: {problem}" for problem in wrong]
    return found


def version_is_told(command):
    """The name, the version of the file VERSION, a commit and a kit."""
    run = command.call(["--version"])
    lines = run.out.split(b"\n")
    first = b"%s %s" % (command.name().encode(), (ROOT / "VERSION").read_bytes().strip())
    if len(lines) != 4 or lines[0] != first or not lines[1].startswith(b"commit ") or not lines[2].startswith(b"kit "):
        return [f"printed {shown(run.out)}"]
    return problems(run, run.out, 0)


def help_names(command, options):
    found = []
    for word in ("--help", "-h"):
        run = command.call([word])
        found += problems(run, run.out, 0)
        if not run.out.startswith(f"usage: bin/{command.name()} ".encode()):
            found.append(f"{word} printed {shown(run.out)}")
        found += [f"{word} does not name {option}" for option in options if option.encode() not in run.out]
    return found


# ---- A test of a command ----


def arguments(command, about):
    parser = argparse.ArgumentParser(description=about)
    parser.add_argument("--seed", type=int)
    parser.add_argument("--count", type=int, default=COUNT)
    parser.add_argument("--program", type=pathlib.Path, default=command)
    given = parser.parse_args()
    if given.seed is None:
        given.seed = secrets.randbits(32)
    if given.count < REPLAYS or not 0 <= given.seed < 2**64:
        parser.error(f"the count is at least {REPLAYS}, the seed 0 to 2**64 - 1")
    for program in (SECOND, given.program):
        if not program.is_file():
            parser.error(f"there is no program {program}")
    return given


@contextlib.contextmanager
def called(given, kind=Command):
    """The command, in a folder of its own."""
    with tempfile.TemporaryDirectory() as folder:
        yield kind(given.program.resolve(), folder)


def tally(me, results):
    """How many cases went as they should, and how many did not, of pairs of a name and what was wrong; each is printed."""
    counts = {True: 0, False: 0}
    for name, found in results:
        counts[not found] += 1
        print(f"{me}: {name.replace('_', ' ')}: {'FAILED' if found else 'ok'}")
        for problem in found:
            print(f"  {problem}")
        sys.stdout.flush()
    return counts[True], counts[False]


def try_all(me, given, results):
    """Tries all cases, and answers the exit status. The program is called once before, since it may have to build."""
    print(f"{me}: seed {given.seed}; repeat: tests/{me} --seed {given.seed} --count {given.count}", flush=True)
    subprocess.run([str(given.program)], input=SESSION, stdout=subprocess.DEVNULL, check=False)
    try:
        passed, failed = tally(me, results(given))
    except Failure as failure:
        print(f"{me}: failed: {failure}")
        return 1
    print(f"{me}: {passed} passed, {failed} failed")
    return 0 if failed == 0 else 1
