#!/usr/bin/env python3
"""Assembles programs/*.S with binutils, or with LLVM where that is all there is,
and writes them as run sheets and as arrays of words (programs.h), each three times:
as RV64IM with three regions in use (programs/NAME.sheet) and with ten
(programs/NAME-ten.sheet), and as RV64IMC, with three (programs/NAME-c.sheet). The
expected x10 is worked out here in Python, apart from any interpreter; the expected
steps are those the oracle prints, with half-words as many as without."""
import os
import shutil
import struct
import subprocess
import tempfile
import zlib

HERE = os.path.dirname(os.path.abspath(__file__))
ONES = (1 << 64) - 1
BINUTILS = "riscv64-linux-gnu-"
H_LOAD, H_STORE = 0x0b, 0x2b


def generator():
    x = 0x12345678
    while True:
        x ^= x << 13 & ONES
        x ^= x >> 7
        x ^= x << 17 & ONES
        yield x


def crc():
    g = generator()
    return zlib.crc32(b"".join(struct.pack("<Q", next(g)) for _ in range(512)))


def primes():
    return sum(all(n % d for d in range(2, int(n ** 0.5) + 1)) for n in range(2, 20000))


def mixed(x, y):
    return ((x << 1 | x >> 63) & ONES) ^ y


def matrix():
    g = generator()
    values = [next(g) for _ in range(400)]
    a = [v & 255 for v in values]
    b = [v >> 48 for v in values]
    x = 0
    for i in range(20):
        for j in range(20):
            x = mixed(x, sum(a[20 * i + k] * b[20 * k + j] for k in range(20)) & ONES)
    return x


def copy():
    g = generator()
    block = [next(g) for _ in range(128)]
    x = 0
    for left in range(1500, 0, -1):
        x = mixed(x, block[127])
        x = (x + block[0]) & ONES
        block[0] = (block[0] + left) & ONES
    return x


def mask(k):
    return ONES << k & ONES


NONE = (0, 0, 0)

# name, regions 1 to 3 (base, bound or mask, permission), where memory is free, stop, x10
PROGRAMS = [
    ("crc-32", NONE, (0x2000, mask(13), 3), (0, mask(12), 4), 0x8000, 18, crc()),
    ("sieve", NONE, (0x8000, mask(15), 3), (0, mask(12), 4), 0x4000, 18, primes()),
    ("matrix", NONE, (0x4000, mask(14), 3), (0, mask(12), 4), 0x8000, 18, matrix()),
    ("copy", (0x2000, 0x800, 3), NONE, (0, mask(13), 4), 0x8000, 20, copy()),
    ("matrix-mul", NONE, (0x4000, mask(14), 3), (0, mask(12), 4), 0x8000, 18, matrix()),
]


def three(explicit, data, code):
    """Regions 1 to 3 in use, the others zero."""
    return [explicit, data, code] + [NONE] * 7


def ten(explicit, data, code, free):
    """All regions in use: what the program needs are the last of their kinds, 6, 9 and 10. The others keep their rules
    and grant all that their kind can, of 256 bytes each where the program has nothing."""
    regions = {}
    for number in range(1, 11):
        base = free + 0x100 * number
        if number in (1, 4, 5, 6):
            regions[number] = (base, 0x100, 3)
        else:
            regions[number] = (base, mask(8), 4 if number in (3, 10) else 3)
    for number, needed in ((6, explicit), (9, data), (10, code)):
        if needed != NONE:
            regions[number] = needed
    return [regions[number] for number in range(1, 11)]


def is_h_word(word):
    return word & 127 in (H_LOAD, H_STORE)


def second(word):
    """Where the field of rd stands, or that of rs2 in an h-store."""
    return 7 if word & 127 == H_LOAD else 20


def choosing_6(word):
    """An h-word with the top bits of both its register fields set; any other word as it is."""
    return word | 1 << 19 | 1 << second(word) + 4 if is_h_word(word) else word


def registers_fit(words):
    """Do the h-words name x0 to x15, and choose region 1?"""
    return not any(is_h_word(w) and (w >> 19 & 1 or w >> second(w) + 4 & 1) for w in words)


def assemble(path, halves):
    """The bytes of a program, with half-words wherever the assembler has one, or with none."""
    folder = tempfile.mkdtemp()
    source, thing, image = (os.path.join(folder, n) for n in ("a.s", "a.o", "a.bin"))
    option, march = (".option rvc\n", "-march=rv64imc") if halves else (".option norvc\n", "-march=rv64im")
    open(source, "w").write(option + open(path).read())
    if shutil.which(BINUTILS + "as"):
        tools = [BINUTILS + "as"], BINUTILS + "ld", BINUTILS + "objcopy"
    else:
        tools = ["clang", "--target=riscv64", "-c"], "ld.lld", "llvm-objcopy"
    subprocess.run([*tools[0], march, "-mno-relax", source, "-o", thing], check=True)
    subprocess.run([tools[1], "--no-relax", "-Ttext=0", "-e", "0", thing, "-o", thing + "2"], check=True)
    subprocess.run([tools[2], "-O", "binary", "-j", ".text", thing + "2", image], check=True)
    blob = open(image, "rb").read()
    shutil.rmtree(folder)
    return blob


def words_of(blob):
    """The bytes as words of 32 bits, whatever stands in them, with zeros at the end of the last."""
    blob += bytes(-len(blob) % 4)
    return struct.unpack("<%dI" % (len(blob) // 4), blob)


def half_words(blob):
    """How many half-words and how many long words stand in the bytes of a program."""
    at, counts = 0, [0, 0]
    while at < len(blob):
        long = blob[at] & 3 == 3
        counts[long] += 1
        at += 4 if long else 2
    return counts


def sheet(regions, words):
    """The sheet, with 13 fields in line 1 where that suffices."""
    if regions[3:] == [NONE] * 7:
        regions = regions[:3]
    fields = [0, 1, 0] + [number for region in regions for number in region] + [1000000]
    return ",".join("%x" % f for f in fields) + "\n" + "".join("%x,%08x\n" % (4 * i, w) for i, w in enumerate(words))


def steps_of(name, text, stop, x10):
    """The steps that the oracle makes; it must come to this stop and this x10."""
    tool = os.path.join(HERE, "..", "oracle", "target", "release", "oracle")
    printed = subprocess.run([tool, "sheet"], input=text.encode(), stdout=subprocess.PIPE, check=True).stdout.decode()
    first = printed.split("\n")[0].split(",")
    assert first[0] == str(stop), (name, printed)
    assert "10,%x" % x10 in printed.split("\n"), (name, "%x" % x10, printed)
    return int(first[1], 16)


def array(ident, words):
    rows = ["    " + " ".join("0x%08x," % w for w in words[i:i + 8]) for i in range(0, len(words), 8)]
    return ["static const uint32_t %s[] = {" % ident] + rows + ["};", ""]


def entry(name, regions, stop, steps, x10, ident, words):
    """A program's line in the table; its steps are those of its sheet, which is written too."""
    text = sheet(regions, words)
    open(os.path.join(HERE, "programs", name + ".sheet"), "w").write(text)
    made = steps_of(name, text, stop, x10)
    assert steps in (None, made), (name, made)
    print(name, len(words), "words,", made, "steps, x10 %x" % x10)
    while regions[-1] == NONE: # C has zeros there
        regions = regions[:-1]
    regions = ",\n      ".join("{%#x, %#xu, %d}" % r for r in regions)
    return made, '    {"%s",\n     {%s},\n     %d, %d, %#xu, %s, %d},' % (name, regions, stop, made, x10, ident, len(words))


HEAD = """/* Made by make_programs.py from programs/. First the programs with three regions in use, then the same with ten, then
   with three again and with half-words. */
struct program {
    const char *name;
    struct region regions[REGIONS];
    uint64_t stop, steps, x10;
    const uint32_t *words;
    size_t count;
};
"""


def main():
    out, of_three, of_ten, of_halves = [HEAD], [], [], []
    for name, explicit, data, code, free, stop, x10 in PROGRAMS:
        source = os.path.join(HERE, "programs", name + ".S")
        words = words_of(assemble(source, False))
        assert registers_fit(words), name
        ident = "words_" + name.replace("-", "_")
        out += array(ident, words)
        steps, line = entry(name, three(explicit, data, code), stop, None, x10, ident, words)
        of_three.append(line)
        if any(is_h_word(w) for w in words):
            words, ident = [choosing_6(w) for w in words], ident + "_ten"
            out += array(ident, words)
        of_ten.append(entry(name + "-ten", ten(explicit, data, code, free), stop, steps, x10, ident, words)[1])
        blob, ident = assemble(source, True), "words_" + name.replace("-", "_") + "_c"
        print(name + "-c", "%d half-words, %d long words, %d bytes" % (*half_words(blob), len(blob)))
        out += array(ident, words_of(blob))
        of_halves.append(entry(name + "-c", three(explicit, data, code), stop, steps, x10, ident, words_of(blob))[1])
    out += ["static const struct program programs[] = {"] + of_three + of_ten + of_halves + ["};"]
    open(os.path.join(HERE, "programs.h"), "w").write("\n".join(out) + "\n")


main()
