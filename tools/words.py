#!/usr/bin/env python3
"""What the program would answer to words at once, told without it.

tools/words.py WORDS    the status is 2 where no command takes the words, and 3 where their file can't be read, which standard
                        error says. Else the status is 0.
"""
import os
import stat
import sys

# The greatest number of each option, and the options of each command. The words are read as ss_top_words reads them.
MOST = {"--steps": 1000000000, "--rounds": 4, "--splits": 1000000000, "--instances": 1000000}
OPTIONS = {
    "verify": {"--rounds", "--splits", "--instances"},
    "run": {"--steps", "--rounds", "--splits", "--instances", "--unverified"},
    "expand": set(),
}


def is_natural(most, word):
    return 1 <= len(word) <= 10 and set(word) <= set("0123456789") and int(word) <= most


def is_input(word):
    return is_natural(2147483648, word[1:]) if word.startswith("-") else is_natural(2147483647, word)


class Refused(Exception):
    """No command takes the words."""


def refuse_unless(holds):
    if not holds:
        raise Refused


def positional(options, words):
    """Where words stand that are neither options nor their numbers."""
    places, given, wants, ended = [], set(), None, False
    for at, word in enumerate(words):
        if wants:
            refuse_unless(is_natural(MOST[wants], word))
            wants = None
        elif ended or not word.startswith("-"):
            places.append(at)
        elif word == "--":
            ended = True
        else:
            name, equals, number = word.partition("=")
            refuse_unless(name in options and name not in given and (name in MOST or not equals))
            given.add(name)
            if equals:
                refuse_unless(is_natural(MOST[name], number))
            elif name in MOST:
                wants = name
    refuse_unless(not wants)
    return places


def is_text(word):
    try:
        os.fsencode(word).decode("utf-8")
        return True
    except UnicodeDecodeError:
        return False


def file_at(words):
    """Where the file stands among words that a command takes."""
    refuse_unless(all(map(is_text, words)) and words and words[0] in OPTIONS)
    places = [1 + at for at in positional(OPTIONS[words[0]], words[1:])]
    numbers = [words[at] for at in places[1:]]
    refuse_unless(places and (words[0] == "run" or not numbers) and all(map(is_input, numbers)))
    return places[0]


def unread(file):
    """Why a file can't be read, in the words of ss_main_messages; None where it can, or where only reading all of it would tell."""
    try:
        mode = os.stat(file).st_mode
        if stat.S_ISDIR(mode):
            return "this is a folder; name a file in it"
        if stat.S_ISREG(mode):
            with open(file, "rb") as source:
                source.read(1)
    except FileNotFoundError:
        return "there is no such file; look at its name and at the folder that you are in"
    except OSError:
        return "there is no such file, or it can't be read; look at its name, and see whether you may read it"
    return None


def main(words):
    try:
        file = words[file_at(words)]
    except Refused:
        return 2
    why = unread(file)
    if why is None:
        return 0
    sys.stderr.buffer.write(os.fsencode(f"{file}: {why}\nread fault\n"))
    return 3


if __name__ == "__main__":
    sys.exit(main(sys.argv[1:]))
