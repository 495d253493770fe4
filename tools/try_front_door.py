#!/usr/bin/env python3
"""Tries the script `specsharp` in a fresh clone, with a toolchain that builds nothing. It is no part of the gate.

Usage: tools/try_front_door.py
"""
import os
import signal
import subprocess
import sys
import tempfile
import time

TOP = os.path.dirname(os.path.dirname(os.path.abspath(__file__)))
sys.path.insert(0, os.path.join(TOP, "tools"))
import build
import words as command_line

# It notes when it begins and ends in which folder, and by which process. It fails in that of $FAILS, waits long where $WAITS
# is set, and makes a program that answers 7.
STUB = """#!/usr/bin/env bash
crate=$(basename "$PWD")
echo "+ $crate" >> "$CALLS"
echo $$ >> "$CALLS.by"
if [ "$WAITS" ]; then sleep 60 & echo $! >> "$CALLS.by"; wait; fi
sleep 0.05
if [ "$crate" = "$FAILS" ]; then echo "no proof"; exit 1; fi
mkdir -p out
if [ "$1" = run ]; then printf '#!/usr/bin/env bash\\necho answered "$@"; exit 7\\n' > out/ss_main; chmod +x out/ss_main; fi
if [ "$1" = try ]; then echo tried "${@:2}"; echo "bad words" >&2; echo "run=ended status=2 runners=1 proved=no" >&2; exit 2; fi
echo "- $crate" >> "$CALLS"
"""


class Clone:
    def __init__(self, folder):
        self.top = os.path.join(folder, "clone")
        self.calls = os.path.join(folder, "calls")
        self.here = os.path.join(folder, "here")
        self.room = os.path.join(folder, "room")
        tools = os.path.join(folder, "bin")
        for it in (tools, self.here, self.room, os.path.join(self.here, "run")):
            os.mkdir(it)
        for it in ("FILE", "-FILE"):
            open(os.path.join(self.here, it), "w").close()
        with open(os.path.join(tools, "rt"), "w") as stub:
            stub.write(STUB)
        os.chmod(os.path.join(tools, "rt"), 0o755)
        subprocess.run(["git", "clone", "-q", TOP, self.top], check=True)
        self.path = tools + ":" + os.environ["PATH"]

    def started(self, *words, **env):
        """The script, in a folder with the two files and the folder `run`."""
        open(self.calls, "w").close()
        env = dict(os.environ, PATH=self.path, CALLS=self.calls, TMPDIR=self.room, **env)
        return subprocess.Popen(
            [os.path.join(self.top, "specsharp"), *words],
            cwd=self.here,
            env=env,
            stdout=subprocess.PIPE,
            stderr=subprocess.PIPE,
            text=True,
        )

    def noted(self, end=""):
        with open(self.calls + end) as notes:
            return notes.read().split("\n")[:-1]

    def answer(self, *words, fails=""):
        """The status, standard output and standard error of the script, and the calls of the toolchain."""
        run = self.started(*words, FAILS=fails)
        out, err = run.communicate()
        expect(not os.listdir(self.room), "no folder is left")
        return run.returncode, out, err, self.noted()


def expect(holds, what):
    if not holds:
        sys.exit("doesn't hold: " + what)


def try_order(calls, below):
    running, done = set(), set()
    for call in calls:
        sign, name = call.split()
        if sign == "+":
            running.add(name)
            expect(all(low in done for low in below[name]), name + " is built after its libraries")
        else:
            running.remove(name)
            done.add(name)
        expect(len(running) <= build.AT_A_TIME, "so many are built at a time")
    return done


# Words of no command.
NO_COMMAND = [
    (),
    ("verify",),
    ("expand", "--"),
    ("walk", "FILE"),
    ("walk", "run"),
    ("verify", "FILE", "FILE"),
    ("verify", "--rounds", "1"),
    ("verify", "FILE", "--steps", "1"),
    ("run", "FILE", "2147483648"),
    ("--unproved",),
    ("--unproved", "walk", "FILE"),
]
# Words whose file can't be read, and why.
UNREAD = [
    (("verify", "NONE"), "NONE: there is no such file; "),
    (("verify", "--", "--help"), "--help: there is no such file; "),
    (("run", "--steps", "1", "run", "5"), "run: this is a folder; "),
    (("expand", "FILE/FILE"), "FILE/FILE: the file can't be read; "),
    (("--unproved", "run", "NONE"), "NONE: there is no such file; "),
]
# What the toolchain is told of words after `--unproved`.
TRIED = [
    (("run", "FILE"), "--data FILE={here}/FILE -- run FILE"),
    (("run", "--steps=1", "../here/FILE", "5"), "--data FILE={here}/FILE -- run --steps=1 FILE 5"),
    (("verify", "./-FILE"), "--data -FILE={here}/-FILE -- verify ./-FILE"),
]


def try_words():
    """The rows of the suite say which words are no command's."""
    with open(os.path.join(TOP, "crates", "ss_top_cases", "data", "commands.txt")) as rows:
        for row in rows:
            if row.startswith("$"):
                words = row.split()[1:]
            if row.startswith("= "):
                try:
                    command_line.file_at(words)
                    expect(not row.startswith("= 2 "), "these are no command's: " + " ".join(words))
                except command_line.Refused:
                    expect(row.startswith("= 2 "), "these are a command's: " + " ".join(words))


def try_sentences():
    """What is said of a file that can't be read is what the program says."""
    with open(os.path.join(TOP, "crates", "ss_main_messages", "src", "messages.rt")) as source:
        said = source.read()
    for file in (TOP, os.path.join(TOP, "none"), os.path.join(TOP, "crates.txt", "none")):
        expect('"' + command_line.unread(file) + '"' in said, "the program says so of " + file)


def try_at_once(clone):
    since = time.time()
    clone.answer("--help")
    expect(time.time() - since < 1, "--help answers at once")
    for words in [("--help",), ("run", "--help"), ("expand", "FILE", "--help"), ("--unproved", "--help")]:
        status, out, err, calls = clone.answer(*words)
        expect(status == 0 and "verify FILE" in out and not calls, "--help answers without a build")
    status, out, err, calls = clone.answer("--version")
    expect(status == 0 and out.startswith("specsharp ") and not calls, "--version answers without a build")
    for words in NO_COMMAND:
        status, out, err, calls = clone.answer(*words)
        expect(status == 2 and err.endswith("\nbad words\n") and not calls, "words of no command are refused")
    for words, why in UNREAD:
        status, out, err, calls = clone.answer(*words)
        expect(status == 3 and err.startswith(why) and not calls, "a file that can't be read is told")
        expect(err.endswith("\nread fault\n") and not out, "the status line is the last")


def try_unproved(clone):
    for words, told in TRIED:
        status, out, err, calls = clone.answer("--unproved", *words)
        expect(status == 2 and out == "tried " + told.format(here=clone.here) + "\n", "--unproved asks rt try, and passes its status on")
        expect("nothing is proved" in err and "run=" not in err, "--unproved says that nothing is proved")


def is_alive(process):
    """Whether a process runs, and isn't merely waited for."""
    try:
        with open(f"/proc/{process}/stat") as told:
            return told.read().rpartition(")")[2].split()[0] != "Z"
    except (FileNotFoundError, ProcessLookupError):
        return False


def try_signals(clone):
    """With few crates, as many as are built at a time."""
    with open(os.path.join(clone.top, "crates.txt")) as listed:
        whole = listed.read()
    few = ["ss_core", "ss_io", "ss_ast", "ss_report"]
    with open(os.path.join(clone.top, "crates.txt"), "w") as listed:
        listed.write("".join(name + ":\n" for name in few) + build.PROGRAM + ": " + " ".join(few) + "\n")
    stop_all(clone)
    with open(os.path.join(clone.top, "crates.txt"), "w") as listed:
        listed.write(whole)


def stop_all(clone):
    for number in (signal.SIGTERM, signal.SIGHUP, signal.SIGINT):
        for words, lanes in [(("run", "FILE"), build.AT_A_TIME), (("--unproved", "run", "FILE"), 1)]:
            open(clone.calls + ".by", "w").close()
            run = clone.started(*words, WAITS="1")
            while len(clone.noted(".by")) < 2 * lanes and run.poll() is None:
                time.sleep(0.05)
            run.send_signal(number)
            out, err = run.communicate(timeout=20)
            expect(run.returncode == build.NOT_BUILT and "stopped" in err, "a signal stops it")
            expect(not os.listdir(clone.room), "its folder is removed")
            until = time.time() + 5
            while any(map(is_alive, clone.noted(".by"))) and time.time() < until:
                time.sleep(0.05)
            expect(not any(map(is_alive, clone.noted(".by"))), "what it started has ended")


def try_build(clone, below, names):
    status, out, err, calls = clone.answer("run", "FILE", fails="ss_typed")
    expect(status == build.NOT_BUILT and "ss_typed can't be built" in err, "a failed build has a status of its own")
    for words in [("verify", "--", "-FILE"), ("verify", "--rounds=1", "--instances", "5", "FILE")]:
        status, out, err, calls = clone.answer(*words, fails="ss_typed")
        expect(status == build.NOT_BUILT and calls, "options may stand before the file, and a file after `--`")
    status, out, err, calls = clone.answer("run", "FILE")
    expect(status == 7 and out == "answered run FILE\n", "the status of the program is passed on")
    expect(try_order(calls, below) == set(names), "each crate is built")
    expect(all(f"of {len(names)}: {name}, " in err for name in names), "each crate has its line")
    for words in [("run", "FILE"), ("walk", "NONE")]:
        status, out, err, calls = clone.answer(*words)
        expect(status == 7 and out == "answered " + " ".join(words) + "\n", "a program that is there decides")
        expect(err == "" and not calls, "a program that is new isn't built again")
    os.utime(os.path.join(clone.top, "crates", "ss_core", "src", "lib.rt"))
    status, out, err, calls = clone.answer("run", "FILE")
    expect(status == 7 and set(names) == try_order(calls, below), "a program older than its sources is built anew")


def main():
    below = build.crates()
    try_words()
    try_sentences()
    with tempfile.TemporaryDirectory() as folder:
        clone = Clone(folder)
        try_at_once(clone)
        try_unproved(clone)
        try_signals(clone)
        try_build(clone, below, build.lowest_first(below, build.PROGRAM))
    print("all holds")


if __name__ == "__main__":
    main()
