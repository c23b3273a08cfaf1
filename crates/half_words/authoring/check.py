#!/usr/bin/env python3
"""check.py: holds ../stdout, which make.py wrote, to LLVM and to QEMU. It writes nothing; no program of ours is run.

The number of lines: counted by hand from the specification's listing.
LLVM's tests: the text of each of the 42 rows of decode_words with a half-word, made long and assembled.
LLVM 14: llvm-mc disassembles all half-words and assembles the long texts; only the table of make.py is shared.
QEMU 7.2: legal or not, and a step of each half-word and of its long word end alike (qemu.c).
"""
import os
import struct
import subprocess
import tempfile

import make

HERE = os.path.dirname(os.path.abspath(__file__))
ROWS = os.path.join(HERE, "..", "..", "decode_words", "authoring", "llvm.columns")
WITHOUT = "a f d zba zbb zbc zbs Zicsr Zifencei".split()
QEMU = ["qemu-riscv64", "-cpu", ",".join(["rv64", "m=true", "c=true"] + [name + "=false" for name in WITHOUT])]
MC = ["llvm-mc", "-triple=riscv64", "-M", "no-aliases", "-M", "numeric"]
NAMES = ("zero ra sp gp tp t0 t1 t2 s0 s1 a0 a1 a2 a3 a4 a5 a6 a7 s2 s3 s4 s5 s6 s7 s8 s9 s10 s11 t3 t4 t5 t6").split()

# Of each mnemonic: registers times immediates, without what is reserved.
COUNTS = {
    "c.addi4spn": 8 * 255, "c.lw": 64 * 32, "c.ld": 64 * 32, "c.sw": 64 * 32, "c.sd": 64 * 32,
    "c.nop": 64, "c.addi": 31 * 64, "c.addiw": 31 * 64, "c.li": 32 * 64, "c.addi16sp": 63, "c.lui": 31 * 63,
    "c.srli": 8 * 64, "c.srai": 8 * 64, "c.andi": 8 * 64, "between registers": 6 * 64, "c.j": 2048, "c.beqz": 8 * 256, "c.bnez": 8 * 256,
    "c.slli": 32 * 64, "c.lwsp": 31 * 64, "c.ldsp": 31 * 64, "c.jr": 31, "c.mv": 32 * 31, "c.ebreak": 1, "c.jalr": 31, "c.add": 32 * 31,
    "c.swsp": 32 * 64, "c.sdsp": 32 * 64,
}


def lines():
    """half-word to long word, as stored"""
    return {int(line[0:4], 16): int(line[5:13], 16) for line in open(os.path.join(HERE, "..", "stdout"))}


def long_text(name, operands):
    """A target is how far away it is."""
    if name == "c.nop":
        name, operands = "c.addi", ["x0"] + (operands or ["0"])
    if name == "c.lui" and operands[1][0] == "-":  # LLVM's way to print that of x0
        operands = [operands[0], "%d" % (int(operands[1]) + (1 << 20))]
    return make.LONG[name].format(*operands, to=operands[-1] if operands else "")


def parted(text):
    name, _, operands = text.strip().replace("\t", " ").partition(" ")
    return name, [operand.strip() for operand in operands.split(",")] if operands.strip() else []


def by_llvm(texts):
    """The long words of texts, by LLVM's assembler for RV64I."""
    text = "\n".join(texts).replace(",.+", ",") + "\n"  # LLVM takes a number for how far away a target is
    out = subprocess.run(MC + ["-show-encoding"], input=text, stdout=subprocess.PIPE, check=True, text=True).stdout
    found = [line.split("encoding: [")[1].split("]")[0] for line in out.split("\n") if "encoding: [" in line]
    assert len(found) == len(texts)
    return [int.from_bytes(bytes(int(byte, 16) for byte in word.split(",")), "little") for word in found]


def llvm_rows(stored):
    """LLVM's published rows."""
    rows = [line for line in open(ROWS) if line[36:41] in ("rv32c", "rv64c")]
    halves, texts = [], []
    for line in rows:
        name, operands = parted(line[12:36])
        if name in make.LEFT_OUT:
            print("LLVM's rows: %s %s is stored: %s" % (line[4:8], name, int(line[0:8], 16) in stored))
            continue
        numbered = [operand[:-1].split("(")[0] + "(x%d)" % NAMES.index(operand[:-1].split("(")[1]) if "(" in operand else
                    "x%d" % NAMES.index(operand) if operand in NAMES else operand for operand in operands]
        halves.append(int(line[0:8], 16))
        texts.append(long_text(name, numbered))
    bad = ["%04x" % h for h, word in zip(halves, by_llvm(texts)) if stored.get(h) != word]
    print("LLVM's rows: %d, of the other %d are stored otherwise: %s" % (len(rows), len(halves), " ".join(bad) or "none"))


def llvm_all(stored):
    halves = [h for h in range(65536) if h & 3 != 3]
    given = {}
    text = "".join("0x%02x 0x%02x\n" % (h & 255, h >> 8) for h in halves)
    done = subprocess.run(MC + ["--disassemble", "-mattr=+c"], input=text, stdout=subprocess.PIPE, stderr=subprocess.PIPE, text=True)
    refused = {int(line.split(":")[1]) - 1 for line in done.stderr.split("\n") if "invalid instruction encoding" in line}
    accepted = [h for k, h in enumerate(halves) if k not in refused]
    texts = [line for line in done.stdout.split("\n") if line.strip() and ".text" not in line]
    assert len(texts) == len(accepted)
    for h, line in zip(accepted, texts):
        name, operands = parted(line)
        if name != "c.unimp":
            given[h] = long_text(name, operands)
    more = sorted(set(given) - set(stored))
    less = sorted(set(stored) - set(given))
    both = sorted(set(given) & set(stored))
    other = [h for h, word in zip(both, by_llvm([given[h] for h in both])) if stored[h] != word]
    print("LLVM 14: %d in both, of which with another expansion: %s; stored and unknown to LLVM: %s; LLVM's alone: %s"
          % (len(both), other or "none", less or "none", " ".join("%04x" % h for h in more)))
    return more


def offset(word):
    """How far the target of JAL, BEQ or BNE is away, if it is 0 or 2; None otherwise."""
    field = 0xfffff000 if word & 0x7f == 0x6f else 0xfe000f80 if word & 0x7f == 0x63 else 0
    two = 0x00200000 if word & 0x7f == 0x6f else 0x00000100
    return {0: 0, two: 2}.get(word & field) if field else None


def qemu(stored):
    # what goes to itself does not end; what goes 2 on is in the middle of the long word, so the two ends are not compared
    asked = [h for h in range(65536) if h & 3 != 3 and (h not in stored or offset(stored[h]) != 0)]
    with tempfile.TemporaryDirectory() as folder:
        path = os.path.join(folder, "qemu")
        subprocess.run([make.TOOLS + "gcc", "-march=rv64i", "-mabi=lp64", "-O1", "-ffreestanding", "-fno-builtin", "-nostdlib", "-static",
                        "-mno-relax", "-Wl,--no-relax,--no-warn-rwx-segments", "-o", path, os.path.join(HERE, "qemu.c")], check=True)
        entries = b"".join(struct.pack("<II", h, stored.get(h, 0)) for h in asked)
        answers = subprocess.run(QEMU + [path], input=entries, stdout=subprocess.PIPE, check=True).stdout.decode()
    assert len(answers) == len(asked)
    compared = [(h, a) for h, a in zip(asked, answers) if h in stored and offset(stored[h]) is None]
    for what, of, bad in (("legal here and illegal to QEMU", asked, [h for h, a in zip(asked, answers) if h in stored and a == "i"]),
                          ("illegal here and legal to QEMU", asked, [h for h, a in zip(asked, answers) if h not in stored and a != "i"]),
                          ("another end than the long word's", compared, [h for h, a in compared if a != "="])):
        print("QEMU 7.2, %s, of %d: %s" % (what, len(of), " ".join("%04x" % h for h in bad) or "none"))


def main():
    stored = lines()
    print("stored: %d; counted by hand: %d" % (len(stored), sum(COUNTS.values())))
    llvm_rows(stored)
    llvm_all(stored)
    qemu(stored)


main()
