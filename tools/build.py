#!/usr/bin/env python3
"""Builds the program, or answers by a run before any proof.

tools/build.py program WORDS       proves and builds what is missing or older than its sources: the libraries lowest first,
                                   four at a time, each in a copy of the sources of its own, then the program. Where there are
                                   words it goes on as the program with these, else the status is 0.
tools/build.py unproved WORDS      runs the program with these words before any proof
"""
import contextlib
import os
import shutil
import signal
import subprocess
import sys
import tempfile
import time

import words as command_line

TOP = os.path.dirname(os.path.dirname(os.path.abspath(__file__)))
PROGRAM = "ss_main"
AT_A_TIME = 4
# The status where the program can't be built, or a run before any proof can't be had.
NOT_BUILT = 20
# What the first build took where it was last measured.
FIRST_BUILD = "some 360 processor minutes, an hour and a half on four processors"
UNPROVED = "about 80 seconds"


def say(text):
    with contextlib.suppress(OSError):
        print(text, file=sys.stderr, flush=True)


def crates():
    """The libraries of the repository that each crate stands on."""
    below = {}
    with open(os.path.join(TOP, "crates.txt")) as lines:
        for line in lines:
            name, colon, libraries = line.split("#")[0].partition(":")
            if colon:
                below[name.split()[0]] = libraries.split()
    return {name: [low for low in lows if low in below] for name, lows in below.items()}


def lowest_first(below, top):
    """The crates that a crate stands on, each after those that it stands on itself, and last the crate."""
    order = []

    def visit(name):
        if name not in order:
            for low in below[name]:
                visit(low)
            order.append(name)

    visit(top)
    return order


def folder(name):
    return os.path.join(TOP, "crates", name)


def stamp():
    return os.path.join(folder(PROGRAM), "out", "built")


def changed(path):
    """When a file was last changed, in nanoseconds."""
    return os.stat(path).st_mtime_ns


def newest_source(names):
    newest = changed(os.path.join(TOP, "crates.txt"))
    for name in names:
        for part in ("src", "specs", "proofs"):
            for path, folders, files in os.walk(os.path.join(folder(name), part)):
                for file in files:
                    newest = max(newest, changed(os.path.join(path, file)))
    return newest


def is_new(names):
    """Whether the program was built from what the sources are now."""
    program = os.path.join(folder(PROGRAM), "out", PROGRAM)
    if not (os.access(program, os.X_OK) and os.path.exists(stamp())):
        return False
    return newest_source(names) <= changed(stamp())


def link_or_copy(one, other):
    """Gives a file that was built a second name, where the file system can. The toolchain replaces such a file, and never writes into it."""
    try:
        os.link(one, other)
    except OSError:
        shutil.copy2(one, other)


class Lane:
    """A copy of the sources in which one crate at a time is built: a build keeps others out of all folders below its crate."""

    def __init__(self, top, names):
        self.top = top
        for name in names:
            heed()
            for part in ("src", "specs", "proofs"):
                if os.path.isdir(os.path.join(folder(name), part)):
                    shutil.copytree(os.path.join(folder(name), part), os.path.join(self.folder(name), part))
            self.take(name, folder(name))
        shutil.copy2(os.path.join(TOP, "crates.txt"), self.top)

    def folder(self, name):
        return os.path.join(self.top, "crates", name)

    def take(self, name, source):
        share(source, self.folder(name))


def share(source, target):
    """Gives a crate's folder the library that was built in another."""
    built, here = os.path.join(source, "out", "rlib"), os.path.join(target, "out", "rlib")
    if not os.path.isdir(built):
        return
    shutil.rmtree(here, ignore_errors=True)
    shutil.copytree(built, here, copy_function=link_or_copy)


class Stopped(Exception):
    """A signal asked for an end."""


signals = []


def note_signals():
    """Notes from now on what asks for an end, where it isn't ignored. `heed` heeds it where nothing is half done."""
    for number in (signal.SIGTERM, signal.SIGHUP, signal.SIGINT):
        if signal.getsignal(number) != signal.SIG_IGN:
            signal.signal(number, lambda number, frame: signals.append(number))


def heed():
    if signals:
        raise Stopped


def started(words, where, output, errors):
    """A command in a crate's folder, as a group of processes of its own."""
    return subprocess.Popen(
        words,
        cwd=where,
        stdin=subprocess.DEVNULL,
        stdout=output,
        stderr=errors,
        start_new_session=True,
    )


def end(process):
    """Ends a command and what it has started."""
    for number in (signal.SIGTERM, signal.SIGKILL):
        with contextlib.suppress(ProcessLookupError):
            os.killpg(process.pid, number)
        with contextlib.suppress(subprocess.TimeoutExpired):
            process.wait(timeout=10)


@contextlib.contextmanager
def new_folder():
    """A folder that is removed after use, though what was ended may write there for a while."""
    room = tempfile.mkdtemp(prefix="specsharp-")
    try:
        yield room
    finally:
        for wait in (0, 0.2, 1, 5):
            time.sleep(wait)
            shutil.rmtree(room, ignore_errors=True)
            if not os.path.exists(room):
                break


def words_of(name):
    """The command that builds a crate. That of the program runs it too, since none only builds it."""
    if name == PROGRAM:
        return ["rt", "run", "--", "expand", os.path.join(TOP, "examples", "first.ssc")]
    return ["rt", "lib", "--jobs", "1"]


class Failed(Exception):
    pass


def fail(name, log):
    log.seek(0)
    lines = log.read().decode("utf-8", "replace").splitlines()
    for line in lines[-20:]:
        say("  " + line)
    raise Failed(f"{name} can't be built; in crates/{name} `rt check` says more")


def ready(waiting, done, below):
    """The lowest crate that waits for nothing."""
    for name in waiting:
        if all(low in done for low in below[name]):
            return name
    return None


def build(names, below, room):
    """Builds the libraries in lanes, and the program in its own folder."""
    lanes = [Lane(os.path.join(room, f"lane{number}"), below) for number in range(AT_A_TIME)]
    waiting, free, running, done = list(names), list(lanes), {}, set()
    try:
        while waiting or running:
            heed()
            while free:
                name = ready(waiting, done, below)
                if name is None:
                    break
                waiting.remove(name)
                lane = free.pop()
                where = folder(name) if name == PROGRAM else lane.folder(name)
                log = open(os.path.join(room, name), "w+b")
                running[name] = (started(words_of(name), where, log, subprocess.STDOUT), lane, log, time.time())
            time.sleep(0.1)
            for name, (process, lane, log, since) in list(running.items()):
                if process.poll() is None:
                    continue
                del running[name]
                if process.returncode != 0:
                    fail(name, log)
                hand_on(name, lane, lanes)
                free.append(lane)
                done.add(name)
                say(f"  {len(done)} of {len(names)}: {name}, {time.time() - since:.0f} s")
    finally:
        for process, lane, log, since in running.values():
            end(process)


def hand_on(name, lane, lanes):
    """Gives a library that a lane has built to the other lanes and to the checkout."""
    if name == PROGRAM:
        return
    for other in lanes:
        if other is not lane:
            other.take(name, lane.folder(name))
    share(lane.folder(name), folder(name))


def in_words(seconds):
    if seconds < 90:
        return f"{seconds:.0f} seconds"
    return f"{seconds / 60:.0f} minutes"


def last_time():
    try:
        with open(stamp()) as kept:
            return in_words(float(kept.read()))
    except (OSError, ValueError):
        return FIRST_BUILD


def build_program():
    below = crates()
    names = lowest_first(below, PROGRAM)
    if is_new(names):
        return
    say(f"specsharp: proves and builds the program, {len(names)} crates; the last time that took {last_time()}.")
    say("Until then `./specsharp --unproved WORDS` answers, and proves nothing.")
    since = time.time()
    newest = newest_source(names)
    with new_folder() as room:
        build(names, below, room)
    if not os.access(os.path.join(folder(PROGRAM), "out", PROGRAM), os.X_OK):
        raise Failed("the program isn't there after its build")
    with open(stamp(), "w") as kept:
        kept.write(f"{time.time() - since:.0f}\n")
    os.utime(stamp(), ns=(newest, newest))


def run_program(words):
    """Goes on as the program, without the signals that Python ignores."""
    for number in (signal.SIGPIPE, signal.SIGXFSZ):
        signal.signal(number, signal.SIG_DFL)
    program = os.path.join(folder(PROGRAM), "out", PROGRAM)
    os.execv(program, [program, *words])


def named_file(words):
    """The words for a run before any proof, and what it is given: a copy of their file under the file's own name.

    It runs in a folder of its own.
    """
    try:
        at = command_line.file_at(words)
    except command_line.Refused:
        return words, []
    if not os.path.isfile(words[at]):
        return words, []
    name = os.path.basename(words[at])
    given = "./" + name if name.startswith("-") else name
    return [*words[:at], given, *words[at + 1 :]], ["--data", f"{name}={os.path.abspath(words[at])}"]


def outcome(words, where):
    """The status, standard output and standard error of a command."""
    process = started(words, where, subprocess.PIPE, subprocess.PIPE)
    try:
        while True:
            heed()
            with contextlib.suppress(subprocess.TimeoutExpired):
                output, errors = process.communicate(timeout=0.1)
                return process.returncode, output, errors
    finally:
        if process.poll() is None:
            end(process)


def unproved(words):
    say(f"specsharp: nothing is proved of this answer. It comes from a run before any proof, in {UNPROVED}.")
    given, data = named_file(words)
    status, output, errors = outcome(["rt", "try", *data, "--", *given], folder(PROGRAM))
    sys.stdout.buffer.write(output)
    sys.stdout.flush()
    told = errors.decode("utf-8", "replace").splitlines()
    if not (told and told[-1].startswith("run=ended ")):
        for line in told[-20:]:
            say("  " + line)
        raise Failed("the run before any proof gave no answer")
    for line in told:
        if not line.startswith(("checked: ended ", "run=ended ")):
            say(line)
    return status


def main():
    note_signals()
    try:
        if sys.argv[1:2] == ["unproved"]:
            return unproved(sys.argv[2:])
        build_program()
        heed()
        if sys.argv[2:]:
            run_program(sys.argv[2:])
        return 0
    except FileNotFoundError as error:
        say(f"specsharp: {error.filename} isn't there; README.md says what is needed")
    except Failed as failed:
        say(f"specsharp: {failed}")
    except Stopped:
        say("specsharp: stopped; what was built is kept")
    return NOT_BUILT


if __name__ == "__main__":
    sys.exit(main())
