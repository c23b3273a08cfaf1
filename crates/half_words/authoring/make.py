#!/usr/bin/env python3
"""make.py: writes ../stdout, every legal half-word and the long word that it stands for, from GNU binutils.

objdump disassembles all half-words, `LONG` turns each text into that of the long instruction, as the specification's
listing has it, and as assembles these for RV64I. The half-words that are not in RV64C's integer part are in `LEFT_OUT`.
It can be run again at any time, from any folder; no program of ours is run. check.py holds the result to other tools.
"""
import os
import re
import struct
import subprocess
import tempfile

HERE = os.path.dirname(os.path.abspath(__file__))
TOOLS = "riscv64-linux-gnu-"

# "C" Extension for Compressed Instructions: the expansion of each mnemonic, by the operands that objdump prints. A target is
# printed as an address, `to` is how far it is away. objdump names a shift by 0 after RV128C's word, which it is a HINT of.
LONG = {
    "c.addi4spn": "addi {0},{1},{2}",
    "c.lw": "lw {0},{1}",
    "c.ld": "ld {0},{1}",
    "c.sw": "sw {0},{1}",
    "c.sd": "sd {0},{1}",
    "c.addi": "addi {0},{0},{1}",  # rd x0: C.NOP
    "c.addiw": "addiw {0},{0},{1}",
    "c.li": "addi {0},x0,{1}",
    "c.addi16sp": "addi {0},{0},{1}",
    "c.lui": "lui {0},{1}",
    "c.srli": "srli {0},{0},{1}",
    "c.srli64": "srli {0},{0},0",
    "c.srai": "srai {0},{0},{1}",
    "c.srai64": "srai {0},{0},0",
    "c.andi": "andi {0},{0},{1}",
    "c.sub": "sub {0},{0},{1}",
    "c.xor": "xor {0},{0},{1}",
    "c.or": "or {0},{0},{1}",
    "c.and": "and {0},{0},{1}",
    "c.subw": "subw {0},{0},{1}",
    "c.addw": "addw {0},{0},{1}",
    "c.j": "jal x0,.+{to}",
    "c.beqz": "beq {0},x0,.+{to}",
    "c.bnez": "bne {0},x0,.+{to}",
    "c.slli": "slli {0},{0},{1}",
    "c.slli64": "slli {0},{0},0",
    "c.lwsp": "lw {0},{1}",
    "c.ldsp": "ld {0},{1}",
    "c.jr": "jalr x0,0({0})",
    "c.mv": "add {0},x0,{1}",
    "c.ebreak": "ebreak",
    "c.jalr": "jalr x1,0({0})",
    "c.add": "add {0},{0},{1}",
    "c.swsp": "sw {0},{1}",
    "c.sdsp": "sd {0},{1}",
}
# Document 02: "its floating-point loads and stores are illegal, as are reserved words". objdump has `.2byte` for what it does
# not know, `c.unimp` for 0000, and knows C.ADDI16SP with immediate 0, which the specification reserves.
LEFT_OUT = ("c.fld", "c.fsd", "c.fldsp", "c.fsdsp", ".2byte", "c.unimp")
RESERVED = ("c.addi16sp", ["x2", "0"])


def run(*command):
    return subprocess.run(command, check=True, stdout=subprocess.PIPE).stdout


def disassembled(folder):
    """Each half-word whose low two bits are not both ones, with its mnemonic, operands and what is added to its address."""
    halves = [h for h in range(65536) if h & 3 != 3]
    image = os.path.join(folder, "halves")
    with open(image, "wb") as file:
        file.write(struct.pack("<%dH" % len(halves), *halves))
    text = run(TOOLS + "objdump", "-D", "-z", "-b", "binary", "-m", "riscv:rv64", "-M", "no-aliases,numeric", image).decode()
    rows = [line.split("\t") for line in text.split("\n") if re.match(r" *[0-9a-f]+:\t", line)]
    assert len(rows) == len(halves)
    for k, (h, row) in enumerate(zip(halves, rows)):
        assert int(row[0].strip(" :"), 16) == 2 * k and row[1].strip() == "%04x" % h, row
        operands = row[3].split(" ")[0].split(",") if len(row) > 3 else []
        target = operands[-1] if operands else ""
        away = int(target, 16) - 2 * k if row[2] in ("c.j", "c.beqz", "c.bnez") else 0
        # objdump wraps what lies below address 0
        yield h, row[2], operands, (away + (1 << 63)) % (1 << 64) - (1 << 63)


def assembled(folder, texts):
    source, thing, linked, image = (os.path.join(folder, name) for name in ("long.s", "long.o", "long.elf", "long"))
    with open(source, "w") as file:
        file.write("\n".join(texts) + "\n")
    run(TOOLS + "as", "-march=rv64i", "-mno-relax", source, "-o", thing)
    run(TOOLS + "ld", "--no-relax", "-Ttext=0x10000", "-e", "0", thing, "-o", linked)
    run(TOOLS + "objcopy", "-O", "binary", "-j", ".text", linked, image)
    words = open(image, "rb").read()
    assert len(words) == 4 * len(texts)
    return struct.unpack("<%dI" % len(texts), words)


def main():
    with tempfile.TemporaryDirectory() as folder:
        legal = [(h, LONG[name].format(*operands, to=away)) for h, name, operands, away in disassembled(folder)
                 if name not in LEFT_OUT and (name, operands) != RESERVED]
        words = assembled(folder, [text for _, text in legal])
    with open(os.path.join(HERE, "..", "stdout"), "w") as out:
        out.write("".join("%04x %08x\n" % (h, word) for (h, _), word in zip(legal, words)))
    print(len(legal), "legal half-words")


if __name__ == "__main__":
    main()
