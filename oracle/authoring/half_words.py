#!/usr/bin/env python3
"""half_words.py ORACLE: every half-word's expansion (`oracle halves`) against GNU objdump: is it legal there too, and has
the long word the same text at the same place? The last line is 'N passed, M failed'."""
import collections
import re
import struct
import subprocess
import sys
import tempfile

# How objdump names a half-word and the long word of its instruction where the texts differ: it spells HINTs out, and
# has an alias for one of the two.
ALIASES = {("mv", "add"), ("c.mv", "add"), ("add", "mv"), ("c.add", "add"), ("c.nop", "li"), ("c.li", "li"), ("c.li", "nop"), ("c.lui", "lui"),
           ("c.slli", "sll"), ("c.slli64", "sll"), ("c.srli64", "srl"), ("c.srai64", "sra")}
# C.ADDI16SP 0: "nzimm"; reserved in the manual's listing, and to LLVM.
KNOWN = {0x6101}


def texts(blob):
    """The text at each address."""
    with tempfile.NamedTemporaryFile() as image:
        image.write(blob)
        image.flush()
        printed = subprocess.run(["riscv64-linux-gnu-objdump", "-D", "-b", "binary", "-m", "riscv:rv64", "-M", "numeric", image.name],
                                 stdout=subprocess.PIPE, check=True).stdout.decode()
    found = {}
    for line in printed.split("\n"):
        row = re.match(r"\s*([0-9a-f]+):\s+[0-9a-f]+\s+(.*)$", line)
        if row:
            found[int(row[1], 16)] = " ".join(row[2].split("#")[0].split())
    return found


def illegal(text):
    return text.startswith((".2byte", "unimp", "c.unimp", "fld", "fsd"))


def main():
    printed = subprocess.run([sys.argv[1], "halves"], stdout=subprocess.PIPE, check=True).stdout.decode()
    rows = [(int(half, 16), None if word == "-" else int(word, 16)) for half, word in (line.split() for line in printed.split("\n") if line)]
    # A C.NOP after each half-word, so that both stand at the same place.
    short = texts(b"".join(struct.pack("<HH", half, 1) for half, _ in rows))
    long = texts(b"".join(struct.pack("<I", word or 0x13) for _, word in rows))
    told = collections.Counter()
    for n, (half, word) in enumerate(rows):
        one, other = short[4 * n], long[4 * n]
        same = one == other or (one.split()[0], other.split()[0]) in ALIASES
        good = half in KNOWN or (illegal(one) if word is None else not illegal(one) and same)
        told[good] += 1
        if not good:
            print("%04x: %s, oracle %s" % (half, one, other if word else "illegal"))
    print("%d half-words, %d legal" % (len(rows), sum(word is not None for _, word in rows)))
    print("%d passed, %d failed" % (told[True], told[False]))
    return told[False] > 0


sys.exit(main())
