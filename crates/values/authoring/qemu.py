#!/usr/bin/env python3
"""qemu.py: asks QEMU 7.2, as RV64IM or RV64IMC, for the results of RV64M's instructions, and writes the columns that hold them anew:

- rv64m-results.columns, all of it, from the words of rv64m.columns and the values of operands.columns;
- values.columns, what follows the doubleword before, in each case that has a word of RV64M.

The results of dart-rv64m.columns and dart-rv64c.columns are the Dart SDK's and are only compared; those of rv64m-results.columns are compared with
Python's whole numbers too. It needs qemu-riscv64 and riscv64-linux-gnu-as and -ld; make.py is run afterwards.
"""
import os
import struct
import subprocess
import tempfile

HERE = os.path.dirname(os.path.abspath(__file__))
WITHOUT = "a f d zba zbb zbc zbs Zicsr Zifencei".split()
BEFORE, AFTER = (5, 6, 7, 10, 11, 12), (5, 6, 7, 10)


def qemu(half_words):
    return ["qemu-riscv64", "-cpu", ",".join(["rv64", "m=true", "c=" + half_words] + [name + "=false" for name in WITHOUT])]


def program(cases):
    """Every case one after the other: its registers, with the place after its words in x1 and Dart's stack in x2, its words,
    its results."""
    text = [".option norelax", ".globl _start", "_start:"]
    for k, (_, words) in enumerate(cases):
        text += ["la x31, before + %d" % (48 * k)] + ["ld x%d, %d(x31)" % (r, 8 * i) for i, r in enumerate(BEFORE)]
        text += ["li x2, 0x1f0000", "la x1, after%d" % k] + [".word %#x" % word for word in words] + ["after%d:" % k]
        text += ["la x31, results + %d" % (32 * k)] + ["sd x%d, %d(x31)" % (r, 8 * i) for i, r in enumerate(AFTER)]
    text += ["li a0, 1", "la a1, results", "li a2, %d" % (32 * len(cases)), "li a7, 64", "ecall  # write"]
    text += ["li a0, 0", "li a7, 93", "ecall  # exit", ".data", "before:"]
    text += [".dword " + ", ".join("%#x" % value for value in registers) for registers, _ in cases]
    text += [".bss", "results: .zero %d" % (32 * len(cases)), '.section .stack, "aw", @nobits', ".zero 0x20000"]
    return "\n".join(text + [""])


def ask(cases, half_words="false"):
    """x5, x6, x7 and x10 after each case, which is six registers before and words."""
    with tempfile.TemporaryDirectory() as folder:
        source, thing, image = (os.path.join(folder, name) for name in ("a.s", "a.o", "a"))
        with open(source, "w") as file:
            file.write(program(cases))
        subprocess.run(["riscv64-linux-gnu-as", "-march=rv64im", source, "-o", thing], check=True)
        subprocess.run(["riscv64-linux-gnu-ld", "--no-relax", "--section-start=.stack=0x1e0000", thing, "-o", image], check=True)
        printed = subprocess.run(qemu(half_words) + [image], stdout=subprocess.PIPE, check=True).stdout
    return list(struct.iter_unpack("<4Q", printed))


def lines(name):
    return open(os.path.join(HERE, name + ".columns")).read().splitlines()


def write(name, made):
    with open(os.path.join(HERE, name + ".columns"), "w") as file:
        file.write("".join(line + "\n" for line in made))


def numbers(line, at, width, count):
    return [int(line[at + width * k:at + width * (k + 1)], 16) for k in range(count)]


def signed(value, width):
    return value - (value >> width - 1 << width)


def whole(name, p, q):
    """What the manual says of an instruction, in whole numbers."""
    width, base = (32, name[:-1]) if name.endswith("w") else (64, name)
    p, q = p % (1 << width), q % (1 << width)
    p = p if base in ("mulhu", "divu", "remu") else signed(p, width)
    q = q if base in ("mulhu", "mulhsu", "divu", "remu") else signed(q, width)
    quotient = -1 if q == 0 else abs(p) // abs(q) * (1 if (p < 0) == (q < 0) else -1)
    value = {"mul": p * q, "div": quotient, "rem": p - quotient * q}[base[:3]]
    high = value >> (64 if base.startswith("mulh") else 0)
    return signed(high % (1 << width), width) % (1 << 64)


def ask_table():
    operands = [int(line, 16) for line in lines("operands")]
    rows = [(int(line[0:8], 16), line[9:].rstrip(), p) for line in lines("rv64m") for p in operands]
    answers = [after[3] for after in ask([((p, q, 0, 0, 0, 0), [word]) for word, _, p in rows for q in operands])]
    assert answers == [whole(name, p, q) for _, name, p in rows for q in operands]
    count = len(operands)
    write("rv64m-results", [" ".join("%016x" % v for v in answers[k:k + count]) for k in range(0, len(answers), count)])


def of_rv64m(word):
    return word & 0xfe000077 == 0x02000033


def ask_values():
    """No word of these cases jumps or stores, so as many steps are made as there are words."""
    made, places, cases = lines("values"), [], []
    for k, line in enumerate(made):
        words = [word for word in numbers(line, 208, 8, 5) if word]
        if any(map(of_rv64m, words)):
            assert all(word & 0x57 == 0x13 for word in words), line
            places.append(k)
            cases.append((numbers(line, 32, 16, 4) + [0, 0], words))
    for k, (_, words), after in zip(places, cases, ask(cases)):
        end = "".join("%016x" % value for value in after) + made[k][96:112] + "%08x%08x" % (0x1000 + 4 * len(words), len(words))
        made[k] = made[k][0:112] + end + made[k][208:]
    write("values", made)


def compare_dart(name, half_words):
    rows = lines(name)
    cases = [([0, 0, 0] + numbers(line, 80, 16, 3), numbers(line, 144, 8, 18)) for line in rows]
    for line, after in zip(rows, ask(cases, half_words)):
        assert after[3] == numbers(line, 128, 16, 1)[0], (line, "%x" % after[3])


ask_table()
ask_values()
compare_dart("dart-rv64m", "false")
compare_dart("dart-rv64c", "true")
