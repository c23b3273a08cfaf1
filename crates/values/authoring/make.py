#!/usr/bin/env python3
"""make.py: writes ../data (what each case starts from) and ../stdout (what it must end with), from the columns that stand here.

It can be run again at any time, from any folder: it reads the .columns files beside it and nothing else, and no program
of ours is run. They hold the values of QEMU and of the Dart SDK; ../data/README.md has their columns.
"""
import os

HERE = os.path.dirname(os.path.abspath(__file__))
CRATE = os.path.join(HERE, "..")


def records(name, width):
    """The lines of a file, each of `width` bytes with its end."""
    lines = open(os.path.join(HERE, name)).read().split("\n")
    assert lines.pop() == "" and all(len(line) == width - 1 for line in lines), name
    return lines


def numbers(line, at, width, count):
    return [int(line[at + width * k:at + width * (k + 1)], 16) for k in range(count)]


def parts(form, pairs):
    """The pairs whose second number is not 0, each after a space."""
    return "".join(" " + form % pair for pair in pairs if pair[1] != 0)


def value_case(line):
    """QEMU's: registers that are not named are 0, and memory is the words at 1000, the doubleword at 2000 and zeros."""
    after, doubleword = numbers(line, 112, 16, 4), numbers(line, 176, 16, 1)[0]
    pc, steps = numbers(line, 192, 8, 2)
    words = numbers(line, 208, 8, 5) + [0]
    memory = [(0x1000 + 4 * k, words[k] + (words[k + 1] << 32)) for k in range(0, 6, 2)] + [(0x2000, doubleword)]
    end = "%s 21 %x 0 %x" % (line[0:32].rstrip(), steps, pc)
    end += parts("x%d=%x", zip((5, 6, 7, 10), after)) + parts("%x=%x", memory)
    return line[0:112] + line[200:248], end + "\n"


def dart_case(line):
    """The Dart SDK's: code that returns ends at the ECALL at 180000, with its result in x10."""
    stop, result = int(line[68:70]), numbers(line, 128, 16, 1)[0]
    end = "%s %d" % (line[0:64].rstrip(), stop)
    end += " 180000 %x" % result if stop == 18 else ""
    return line[0:64] + line[80:128] + line[144:288], end + "\n"


def table():
    """QEMU's: a line for each word of rv64m.columns and each value of x5, with the results for all values of x6."""
    words, operands = records("rv64m.columns", 17), records("operands.columns", 17)
    results = records("rv64m-results.columns", 17 * len(operands))
    store("rv64m", words)
    store("operands", operands)
    starts = ["%s %x" % (word[9:].rstrip(), int(operand, 16)) for word in words for operand in operands]
    assert len(starts) == len(results)
    return "".join(start + "".join(" %x" % int(result, 16) for result in line.split(" ")) + "\n"
                   for start, line in zip(starts, results))


def store(name, lines):
    with open(os.path.join(CRATE, "data", name + ".columns"), "w") as data:
        data.write("".join(line + "\n" for line in lines))


def main():
    stdout = ""
    cases = [("values", 256, value_case)] + [("dart-" + part, 289, dart_case) for part in ("rv64i", "rv64m", "rv64c", "beyond")]
    for name, width, case in cases:
        pairs = [case(line) for line in records(name + ".columns", width)]
        store(name, [pair[0] for pair in pairs])
        stdout += name + "\n" + "".join(pair[1] for pair in pairs)
    with open(os.path.join(CRATE, "stdout"), "w") as out:
        out.write(stdout + "rv64m\n" + table())


main()
