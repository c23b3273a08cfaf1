#!/usr/bin/env python3
"""make.py: writes ../data (the words alone) and ../stdout (what must be answered), from the columns that stand here.

It can be run again at any time, from any folder: it reads the three .columns files beside it and nothing else, and no
program of ours is run. They hold the values of LLVM, of document 01 and of QEMU; ../data/README.md says which are whose.
"""
import os

HERE = os.path.dirname(os.path.abspath(__file__))
CRATE = os.path.join(HERE, "..")


def records(name, width):
    """The lines of a file, each of `width` bytes with its end."""
    lines = open(os.path.join(HERE, name)).read().split("\n")
    assert lines.pop() == "" and all(len(line) == width - 1 for line in lines), name
    return lines


def answer(word, legal):
    """A legal word decodes, and what it decodes to encodes to the word again; an illegal one is 13."""
    return "%s 0 %s\n" % (word, word) if legal else "%s 13\n" % word


def row(line):
    """word 0-7, number 9-10 (00 or 13), text 12-35, origin 36-46"""
    word, number, text, origin = line[0:8], line[9:11], line[12:36], line[36:47]
    assert number in ("00", "13"), line
    return "%s %s%s\n" % (word, text, origin), text + answer(word, number == "00")


def word(line):
    """word 0-7, legal 9 (1 or 0)"""
    assert line[9] in "01", line
    return line[0:8] + "\n", answer(line[0:8], line[9] == "1")


def main():
    stdout = ""
    for name, width, made in (("llvm", 48, row), ("document", 48, row), ("words", 16, word)):
        pairs = [made(line) for line in records(name + ".columns", width)]
        with open(os.path.join(CRATE, "data", name + ".columns"), "w") as data:
            data.write("".join(pair[0] for pair in pairs))
        stdout += name + "\n" + "".join(pair[1] for pair in pairs)
    with open(os.path.join(CRATE, "stdout"), "w") as out:
        out.write(stdout)


main()
