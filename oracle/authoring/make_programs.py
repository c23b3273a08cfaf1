#!/usr/bin/env python3
"""Random RV64I programs as run sheets, from p150 on RV64I and RV64M ones, from p200 on with half-words, and compiled ones
(compiled/), with the output that QEMU's results give.

Writes crates/sheets/data/p000 ... and compiled-..., and, if a file is named, to it the expected output (name line, then output);
`--check` holds crates/sheets/stdout to it instead.
Each program runs at 1000 in HFI mode with data at 4000 to 4fff (a compiled one to 7fff) and ends by ECALL; from p200 on some end by EBREAK
or by an exit. The registers and the number of steps are QEMU's; the rest of the first
line (18, pc of the ECALL, zeros) follows from document 01.
"""
import base64
import glob
import hashlib
import math
import os
import random
import struct
import subprocess
import sys
import tempfile
import zlib

import half_formats as c

HERE = os.path.dirname(os.path.abspath(__file__))
OUT = os.path.join(HERE, "..", "..", "crates", "sheets", "data")
CODE, DATA, STUB, DUMP = 0x1000, 0x4000, 0x8000, 0xA000
CPU = ("rv64,c=%s,m=%s,a=false,f=false,d=false,"
       "zba=false,zbb=false,zbc=false,zbs=false,Zicsr=false,Zifencei=false")
TOOLS = "riscv64-linux-gnu-"
M = (1 << 64) - 1
LONG = 200              # the programs without half-words
WITH_M = [*range(150, 200), *range(230, 260)]
NUMBER = 260
ECALL, EBREAK, EXIT = 0x00000073, 0x00100073, 0x0400005b


def R(op, f3, f7, rd, rs1, rs2): return f7 << 25 | rs2 << 20 | rs1 << 15 | f3 << 12 | rd << 7 | op
def I(op, f3, rd, rs1, imm): return (imm & 0xfff) << 20 | rs1 << 15 | f3 << 12 | rd << 7 | op
def S(op, f3, rs1, rs2, imm): return (imm >> 5 & 0x7f) << 25 | rs2 << 20 | rs1 << 15 | f3 << 12 | (imm & 31) << 7 | op


def B(f3, rs1, rs2, off):
    return ((off >> 12 & 1) << 31 | (off >> 5 & 63) << 25 | rs2 << 20 | rs1 << 15 | f3 << 12 | (off >> 1 & 15) << 8
            | (off >> 11 & 1) << 7 | 0x63)


def U(op, rd, field): return field << 12 | rd << 7 | op


def J(rd, off):
    return (off >> 20 & 1) << 31 | (off >> 1 & 0x3ff) << 21 | (off >> 11 & 1) << 20 | (off >> 12 & 255) << 12 | rd << 7 | 0x6f


OPS = [(0x33, f3, 0) for f3 in range(8)] + [(0x33, 0, 32), (0x33, 5, 32)]
OPS += [(0x3b, 0, 0), (0x3b, 0, 32), (0x3b, 1, 0), (0x3b, 5, 0), (0x3b, 5, 32)]
OPS_M = [(0x33, f3, 1) for f3 in range(8)] + [(0x3b, f3, 1) for f3 in (0, 4, 5, 6, 7)]


def edge(r):
    k = r.randrange(6)
    if k == 0:
        return r.randrange(16)
    if k == 1:
        return ((1 << r.randrange(64)) + r.randrange(-2, 3)) & M
    if k == 2:
        return (M << r.randrange(64)) & M
    if k == 3:
        return r.choice([0x7fffffff, 0x80000000, 0xffffffff, 0x7fffffffffffffff, 1 << 63, M, 0xffffffff80000000, 0x100000000])
    if k == 4:
        return r.getrandbits(64) >> r.randrange(64)
    return r.getrandbits(64)


def pair(r):
    """Operands for RV64M words: a divisor of zero, overflow, the same in the low words alone, signs, any."""
    dirt = [r.getrandbits(32) << 32, r.getrandbits(32) << 32]
    small = [r.randrange(-100, 100) & M, r.choice([-7, -3, -2, -1, 1, 2, 3, 10]) & M]
    return r.choice([(edge(r), 0), (1 << 63, M), (dirt[0] | 1 << 31, dirt[1] | 0xffffffff), (dirt[0] | edge(r) >> 32, dirt[1]),
                     small, (small[0], small[0]), (edge(r), edge(r)), (r.getrandbits(64), r.getrandbits(64))])


def program(r, ops, first):
    """Words of the program, whose register operations are `ops`, and the start of the data. Each operation of `first` is
    made once of x5 and x6, aimed, and what it gives is stored. x1, x2 point into the data,
    x4 into the middle of the code, x28 counts loops down, x30 and x31 are not used."""
    free = [n for n in range(3, 30) if n != 4 and n != 28]
    words = [U(0x37, 1, 4), I(0x13, 0, 1, 1, 0x400), U(0x37, 2, 5), I(0x13, 0, 2, 2, -0x400), U(0x37, 4, 2), I(0x13, 0, 4, 4, -0x800)]
    for i, n in enumerate(free):
        words.append(I(0x03, 3, n, 1, 8 * i - 0x400))
    for i, op in enumerate(first):
        words += [R(*op, 7, 5, 6), S(0x23, 3, 1, 7, 0x300 + 8 * i)]
    body = []

    def rd(): return r.choice(free) if r.randrange(16) else 0
    def rs(): return r.choice(free + [0, 1, 2]) if r.randrange(4) else r.choice([5, 6, 7])
    loop = None
    count = r.randrange(60, 200)
    while len(body) < count or loop is not None:
        k = r.randrange(100)
        left = count - len(body)
        if loop is not None and (len(body) - loop > r.randrange(6, 40) or left <= 0):
            body.append(B(4, 0, 28, 4 * (loop - len(body))))
            loop = None
        elif loop is None and k < 4 and left > 12:
            body.append(I(0x13, 0, 28, 0, r.randrange(1, 12)))
            loop = len(body)
            body.append(I(0x13, 0, 28, 28, -1))
        elif k < 34:
            body.append(R(*r.choice(ops), rd(), rs(), rs()))
        elif k < 50:
            imm = r.choice([-2048, -1, 0, 1, 2047, r.randrange(-2048, 2048), r.randrange(-2048, 2048)])
            body.append(I(*r.choice([(0x13, 0), (0x13, 2), (0x13, 3), (0x13, 4), (0x13, 6), (0x13, 7), (0x1b, 0)]), rd(), rs(), imm))
        elif k < 58:
            if r.randrange(2):
                body.append(I(0x13, *r.choice([(1, rd(), rs(), r.randrange(64)), (5, rd(), rs(), r.randrange(64)),
                                               (5, rd(), rs(), 0x400 | r.randrange(64))])))
            else:
                body.append(I(0x1b, *r.choice([(1, rd(), rs(), r.randrange(32)), (5, rd(), rs(), r.randrange(32)),
                                               (5, rd(), rs(), 0x400 | r.randrange(32))])))
        elif k < 70:
            body.append(I(0x03, r.randrange(7), rd(), r.choice([1, 2]), r.randrange(-512, 512)))
        elif k < 82:
            body.append(S(0x23, r.randrange(4), r.choice([1, 2]), rs(), r.randrange(-512, 512)))
        elif k < 92:
            body.append(B(r.choice([0, 1, 4, 5, 6, 7]), rs(), rs(), 4 * r.randrange(1, 8)))
        elif k < 94:
            body.append(J(rd(), 4 * r.randrange(1, 6)))
        elif k < 96:
            target = 4 * (len(words) + len(body) + r.randrange(1, 8)) - 0x800
            body.append(I(0x67, 0, rd(), 4, target + r.randrange(2)))
        elif k < 99:
            body.append(U(r.choice([0x37, 0x17]), rd(), r.randrange(1 << 20)))
        else:
            body.append(r.choice([0x0ff0000f, 0x0000000f, 0x8330000f]))
    words += body
    words += [I(0x13, 0, 0, 0, 0)] * 8  # where forward jumps may land
    # mix the data into x29, x26 walks
    words += [U(0x37, 26, 4), U(0x37, 27, 5), I(0x03, 3, 25, 26, 0), I(0x13, 1, 24, 29, 7), I(0x13, 5, 23, 29, 57),
              R(0x33, 6, 0, 29, 24, 23), R(0x33, 4, 0, 29, 29, 25), I(0x13, 0, 26, 26, 8), B(6, 26, 27, -24), 0x73]
    data = [edge(r) for _ in range(64)] + [r.getrandbits(64) for _ in range(64)]
    if first:
        data[free.index(5)], data[free.index(6)] = pair(r)
    return words, data


def mixed_program(r, ops):
    """A program of half-words and long words, as in `program`, each word where it comes to stand: the words with their
    lengths, and the start of the data. x9 and x2 point into the data, x4 into the middle of the code, x8 and x28 count loops down,
    x1 is what C.JALR links, x30 and x31 are not used."""
    short = [10, 11, 12, 13, 14, 15]
    free = [1, 3, 5, 6, 7, *range(10, 28), 29]
    items = []      # (length, the word by its own address and those of all)
    inner = set()   # where no jump may land
    furthest = 0    # where the jumps so far may land

    def long(word): items.append((4, lambda at, to: word))
    def half(word): items.append((2, lambda at, to: word))
    def rd(): return r.choice(free) if r.randrange(16) else 0
    def any_rd(): return r.choice(free)
    def rs(): return r.choice(free + [0, 2, 9]) if r.randrange(4) else r.choice([5, 10, 11])
    def s(): return r.choice(short)
    def six(): return r.choice([-32, -1, 0, 1, 31, r.randrange(-32, 32), r.randrange(-32, 32)])
    def amount(): return r.choice([0, 1, 31, 32, 63, r.randrange(64)])

    def ahead(most):
        nonlocal furthest
        target = len(items) + r.randrange(1, most)
        furthest = max(furthest, target)
        return target

    def jump(make, most, length):
        target = ahead(most)
        items.append((length, lambda at, to: make(to(target) - at)))

    long(U(0x37, 9, 4))
    half(c.c_mv(2, 9))
    half(c.c_addi16sp(0x1f0))
    long(I(0x13, 0, 9, 9, 0x400))
    long(I(0x13, 0, 2, 2, 0x610))
    half(c.c_lui(4, 2))
    long(I(0x13, 0, 4, 4, -0x800))
    for i, n in enumerate(free):
        long(I(0x03, 3, n, 9, 8 * i - 0x400))
    loop = None
    count = r.randrange(120, 300)
    first = len(items)
    while len(items) < first + count or loop is not None:
        k = r.randrange(100)
        left = first + count - len(items)
        if loop is not None and (len(items) - loop[0] > r.randrange(6, 40) or left <= 0):
            begin, counter = loop
            # its far end is kept in reach of C.BNEZ
            items.append((2, lambda at, to, begin=begin: c.c_bnez(8, to(begin) - at)) if counter == 8 else
                         (4, lambda at, to, begin=begin: B(4, 0, 28, to(begin) - at)))
            loop = None
        elif loop is None and k < 5 and left > 12:
            # C.BNEZ would not end if a jump came past the start of the count; BLT would
            counter = r.choice([8, 28]) if furthest <= len(items) else 28
            half(c.c_li(counter, r.randrange(1, 12)))
            loop = (len(items), counter)
            half(c.c_addi(counter, -1)) if r.randrange(2) else half(c.c_addiw(counter, -1))
        elif k < 12:
            half(r.choice([c.c_sub, c.c_xor, c.c_or, c.c_and, c.c_subw, c.c_addw])(s(), s()))
        elif k < 20:
            half(r.choice([c.c_mv, c.c_add])(rd(), any_rd()))
        elif k < 30:
            make = r.choice([c.c_addi, c.c_addi, c.c_addiw, c.c_li, c.c_lui])
            half(make(any_rd() if make is c.c_addiw else rd(), six() or 7 if make is c.c_lui else six()))
        elif k < 37:
            half(r.choice([lambda: c.c_srli(s(), amount()), lambda: c.c_srai(s(), amount()), lambda: c.c_slli(rd(), amount()),
                           lambda: c.c_andi(s(), six()), lambda: c.c_nop(six()), lambda: c.c_addi4spn(s(), 4 * r.randrange(1, 256))])())
        elif k < 44:
            half(r.choice([lambda: c.c_lw(s(), 9, 4 * r.randrange(32)), lambda: c.c_ld(s(), 9, 8 * r.randrange(32)),
                           lambda: c.c_lwsp(any_rd(), 4 * r.randrange(64)), lambda: c.c_ldsp(any_rd(), 8 * r.randrange(64))])())
        elif k < 51:
            half(r.choice([lambda: c.c_sw(s(), 9, 4 * r.randrange(32)), lambda: c.c_sd(s(), 9, 8 * r.randrange(32)),
                           lambda: c.c_swsp(rs(), 4 * r.randrange(64)), lambda: c.c_sdsp(rs(), 8 * r.randrange(64))])())
        elif k < 56:
            jump(lambda off, make=r.choice([c.c_beqz, c.c_bnez]), n=s(): make(n, off), 9, 2)
        elif k < 58:
            jump(c.c_j, 8, 2)
        elif k < 61:
            # pc into a register, 4 + 2 + 2 and what lies between added, an odd number too, and there
            n, between = any_rd(), r.randrange(6)
            inner.update((len(items) + 1, len(items) + 2))
            long(U(0x17, n, 0))
            half(c.c_addi(n, 8 + 2 * between + r.randrange(2)))
            half(r.choice([c.c_jr, c.c_jalr])(n))
            for _ in range(between):
                half(c.c_nop(six()))
        elif k < 62:
            n = 16 * r.randrange(1, 32)
            inner.update(range(len(items) + 1, len(items) + 4))
            half(c.c_addi16sp(-n))
            half(c.c_ldsp(any_rd(), 8 * r.randrange(64)))
            half(c.c_sdsp(rs(), 8 * r.randrange(64)))
            long(I(0x13, 0, 2, 2, n))
        elif k < 74:
            long(R(*r.choice(ops), rd(), rs(), rs()))
        elif k < 81:
            imm = r.choice([-2048, -1, 0, 1, 2047, r.randrange(-2048, 2048)])
            long(I(*r.choice([(0x13, 0), (0x13, 2), (0x13, 3), (0x13, 4), (0x13, 6), (0x13, 7), (0x1b, 0)]), rd(), rs(), imm))
        elif k < 86:
            long(I(0x03, r.randrange(7), rd(), r.choice([2, 9]), r.randrange(-512, 512)))
        elif k < 91:
            long(S(0x23, r.randrange(4), r.choice([2, 9]), rs(), r.randrange(-512, 512)))
        elif k < 95:
            jump(lambda off, f3=r.choice([0, 1, 4, 5, 6, 7]), a=rs(), b=rs(): B(f3, a, b, off), 9, 4)
        elif k < 97:
            jump(lambda off, n=rd(): J(n, off), 7, 4)
        elif k < 99:
            items.append((4, lambda at, to, n=rd(), odd=r.randrange(2), target=ahead(8): I(0x67, 0, n, 4, to(target) - 0x1800 + odd)))
        else:
            long(U(r.choice([0x37, 0x17]), rd(), r.randrange(1 << 20)))
    for _ in range(9):
        half(c.c_nop())     # where forward jumps may land
    # mix the data into x29, x13 walks
    half(c.c_lui(13, 4))
    half(c.c_lui(14, 5))
    begin = len(items)
    half(c.c_ld(12, 13, 0))
    for word in (I(0x13, 1, 24, 29, 7), I(0x13, 5, 23, 29, 57), R(0x33, 6, 0, 29, 24, 23), R(0x33, 4, 0, 29, 29, 12)):
        long(word)
    half(c.c_addi(13, 8))
    items.append((4, lambda at, to: B(6, 13, 14, to(begin) - at)))
    data = [edge(r) for _ in range(64)] + [r.getrandbits(64) for _ in range(64)]
    places = [CODE]
    for length, _ in items:
        places.append(places[-1] + length)

    def to(k): return places[k] if k not in inner else to(k + 1)
    return [(length, word(at, to)) for at, (length, word) in zip(places, items)], data


STUB_TEXT = ".option norvc\n" + "".join("li x%d,0\n" % n for n in range(1, 30)) + """
  li x31,%d
  jr x31
.balign 512
finish:
  addi x31,x31,-4
  li x30,%d
  sd x31,0(x30)
""" % (CODE, DUMP) + "".join("sd x%d,%d(x30)\n" % (n, 8 * n) for n in range(1, 30)) + """
  li a0,1
  mv a1,x30
  li a2,240
  li a7,64
  ecall
  li a0,0
  li a7,93
  ecall
"""


def assemble(folder, text, at):
    source, thing, image = (os.path.join(folder, n) for n in ("a.s", "a.o", "a.bin"))
    open(source, "w").write(text)
    subprocess.run([TOOLS + "as", "-march=rv64i", "-mno-relax", source, "-o", thing], check=True)
    subprocess.run([TOOLS + "ld", "--no-relax", "-Ttext=%#x" % at, "-e", "0", thing, "-o", thing + "2"], check=True)
    subprocess.run([TOOLS + "objcopy", "-O", "binary", "-j", ".text", thing + "2", image], check=True)
    return open(image, "rb").read()


def elf(image):
    header = b"\x7fELF" + bytes([2, 1, 1, 0]) + bytes(8)
    header += struct.pack("<HHIQQQIHHHHHH", 2, 243, 1, STUB, 64, 0, 0, 64, 56, 1, 0, 0, 0)
    header += struct.pack("<IIQQQQQQ", 1, 7, 0x1000, 0, 0, len(image), len(image), 0x1000)
    return header + bytes(0x1000 - len(header)) + image


def sheet_of(image, setup, ranges):
    """A sheet with all words of these addresses."""
    text = setup
    for low, high in ranges:
        for at in range(low, high, 4):
            text += "%x,%x\n" % (at, struct.unpack("<I", image[at:at + 4])[0])
    assert len(text) <= 65536
    return text


def ask(folder, stub, image, last, half_words, m):
    """Registers and number of steps, by QEMU: it goes to the stub in place of the last word, which is at `last`."""
    path, trace = os.path.join(folder, "p.elf"), os.path.join(folder, "trace")
    image = bytearray(image)
    image[last:last + 4] = struct.pack("<I", J(31, STUB + 512 - last))
    image[STUB:STUB + len(stub)] = stub
    open(path, "wb").write(elf(bytes(image)))
    os.chmod(path, 0o755)
    cpu = CPU % tuple("true" if has else "false" for has in (half_words, m))
    out = subprocess.run(["qemu-riscv64", "-cpu", cpu, "-singlestep", "-d", "exec,nochain", "-D", trace, path], stdout=subprocess.PIPE, timeout=60)
    if out.returncode != 0 or len(out.stdout) != 240:
        sys.exit("qemu answered %d, %d bytes" % (out.returncode, len(out.stdout)))
    values = struct.unpack("<30Q", out.stdout)
    assert values[0] == last
    places = [int(line.split("[")[1].split("/")[1], 16) for line in open(trace)]
    return values, [at for at in places if CODE <= at < STUB and at != last]


def first_line(end, last, steps):
    if end == EXIT:
        return "20,%x,%x,1,%x,0,0,0,0\n" % (steps + 1, last + 4, last)
    return "%d,%x,%x,0,0,0,0,0,0\n" % (18 if end == ECALL else 19, steps, last)


def answer(name, end, last, steps, values):
    return "%s\n%s" % (name, first_line(end, last, steps)) + "".join("%d,%x\n" % (n, values[n]) for n in range(1, 30) if values[n])


def random_programs(folder, stub):
    for number in range(NUMBER):
        r = random.Random(1000 + number)
        m = number in WITH_M
        end = ECALL
        if number < LONG:
            words, data = program(r, OPS + 3 * OPS_M, OPS_M) if m else program(r, OPS, [])
            bytes_of_code = struct.pack("<%dI" % len(words), *words)
            last = CODE + len(bytes_of_code) - 4
        else:
            words, data = mixed_program(r, OPS + 3 * OPS_M if m else OPS)
            end = (ECALL, ECALL, c.c_ebreak(), EXIT, EBREAK, EXIT)[number % 6]
            bytes_of_code = b"".join(struct.pack("<H" if length == 2 else "<I", word) for length, word in words)
            last = CODE + len(bytes_of_code)
            bytes_of_code += struct.pack("<I", end)
            bytes_of_code += bytes(-len(bytes_of_code) % 4)
        assert last < 0x2000
        image = bytearray(65536)
        image[CODE:CODE + len(bytes_of_code)] = bytes_of_code
        image[DATA:DATA + 8 * len(data)] = struct.pack("<%dQ" % len(data), *data)
        sheet = sheet_of(image, "1000,1,0,0,0,0,4000,fffffffffffff000,3,1000,fffffffffffff000,4,f4240\n",
                         [(CODE, CODE + len(bytes_of_code)), (DATA, DATA + 8 * len(data))])
        values, places = ask(folder, stub, image, last, number >= LONG, m)
        yield "p%03d" % number, sheet, answer("p%03d" % number, end, last, len(places), values), (image, places)


# What each compiled program answers in x10, by other means than the program.
def sorted_numbers():
    n, numbers = 12345, []
    for _ in range(150):
        n = (n * 1103515245 + 12345) % 2 ** 31
        numbers.append(n)
    total = 0
    for n in sorted(numbers):
        total = (total * 31 + n) % 2 ** 64
    return total


def curve():
    """Degrees at each half minute of a piecewise linear curve, in 16.16 fixed point, mixed."""
    points = [(0, 20), (10, 80), (25, 80), (40, 210), (70, 230), (90, 60)]
    total = 0
    for half_minute in range(181):
        x = half_minute * 32768
        for (x0, y0), (x1, y1) in zip(points, points[1:]):
            if x <= x1 * 65536:
                slope = int((y1 - y0) * 65536 / (x1 - x0))       # towards zero, exact in so few bits
                y = y0 * 65536 + ((x - x0 * 65536) * slope >> 16)
                break
        total = (total * 33 ^ y) % 2 ** 64
    return total


TEXT = b"Half-words stand for long words, one each; no two answers."
ANSWERS = {
    "sort": sorted_numbers(),
    "crc": zlib.crc32(b"123456789") << 32 | zlib.crc32(TEXT),
    "product": int(str(math.factorial(40))[:18]),
    "base64": zlib.crc32(base64.b64encode(TEXT)),
    "curve": curve(),
    "states": 987,
    "recursion": 40 * 1000000 + 1023 * 100 + 9,
    "structs": sum((k + 1) * k * k for k in range(12)) * 1000 + 12,
    "strings": zlib.crc32(b" ".join(reversed(TEXT.split(b" ")))),
    "digest": int(hashlib.sha256(b"abc").hexdigest()[:16], 16),
    "divisions": 168 * 1000000 + pow(7, 1234, 99991),
}
ENDS = {"ecall": ECALL, "ebreak": c.c_ebreak(), "exit": EXIT}


def compiled_programs(folder, stub):
    """Debian's gcc for RV64IMC; each source for size and for speed, in turn with ECALL, EBREAK and an exit at the end."""
    sources = sorted(glob.glob(os.path.join(HERE, "compiled", "*.c")))
    for number, source in enumerate(sources):
        for size, option in enumerate(("-Os", "-O2")):
            name = os.path.basename(source)[:-2]
            ending = list(ENDS)[(number + size) % 3]
            thing, image_path = os.path.join(folder, "c.elf"), os.path.join(folder, "c.bin")
            subprocess.run([TOOLS + "gcc", "-march=rv64imc", "-mabi=lp64", option, "-ffreestanding", "-nostdlib", "-static", "-fno-pic", "-no-pie",
                            "-ffixed-t5", "-ffixed-t6", "-Wall", "-Wl,--build-id=none", "-DEND=" + ending, "-T", os.path.join(HERE, "compiled", "link.ld"),
                            os.path.join(HERE, "compiled", "start.S"), source, "-o", thing], check=True)
            symbols = {line.split()[2]: int(line.split()[0], 16) for line in
                       subprocess.run([TOOLS + "nm", thing], stdout=subprocess.PIPE, check=True, text=True).stdout.splitlines()}
            subprocess.run([TOOLS + "objcopy", "-O", "binary", "--gap-fill", "0", thing, image_path], check=True)
            content = open(image_path, "rb").read()
            image = bytearray(65536)
            image[CODE:CODE + len(content)] = content
            last, code_end, data_end = symbols["last"], symbols["code_end"], CODE + len(content)
            assert code_end <= 0x2000 and data_end <= 0x7000
            sheet = sheet_of(image, "1000,1,0,0,0,0,4000,ffffffffffffc000,3,1000,fffffffffffff000,4,f4240\n",
                             [(CODE, code_end + 3 & ~3), (DATA, data_end + 3 & ~3)])
            values, places = ask(folder, stub, image, last, True, True)
            assert values[10] == ANSWERS[name], "%s: x10 is %x and not %x" % (name, values[10], ANSWERS[name])
            name = "compiled-" + name + option
            yield name.lower(), sheet, answer(name.lower(), ENDS[ending], last, len(places), values), (image, places)


def main():
    """The expected output goes to the file that the command line names, if it names one."""
    folder = tempfile.mkdtemp()
    stub = assemble(folder, STUB_TEXT, STUB)
    os.makedirs(OUT, exist_ok=True)
    expected, counts = [], {}
    for programs in (random_programs, compiled_programs):
        for name, sheet, ending, (image, places) in programs(folder, stub):
            open(os.path.join(OUT, name), "w").write(sheet)
            expected.append(ending)
            kind = "compiled" if name[0] == "c" else "p000 to p199" if int(name[1:]) < LONG else "p200 on"
            count = counts.setdefault(kind, [0] * 5)
            for k, n in enumerate((1, len(places), sum(image[at] & 3 != 3 for at in places), sum(image[at] & 3 == 3 and at % 4 == 2 for at in places))):
                count[k] += n
            assert kind[0] == "p" and kind[1] == "0" or all((sum(image[at] & 3 != 3 for at in places), sum(image[at] & 3 == 3 and at % 4 == 2 for at in places)))
    for kind, (number, steps, halves, across, _) in counts.items():
        print("%s: %d programs, %d steps, %d of half-words, %d of long words at 2 modulo 4" % (kind, number, steps, halves, across))
    if sys.argv[1:] == ["--check"]:
        stored = open(os.path.join(OUT, "..", "stdout"), encoding="latin-1").read()
        bad = [ending.split("\n")[0] for ending in expected if "\n" + ending not in stored]
        sys.exit("not as stored: " + " ".join(bad) if bad else None)
    if len(sys.argv) == 2:
        open(sys.argv[1], "w").write("".join(expected))


if __name__ == "__main__":
    main()
