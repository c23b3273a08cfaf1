#!/usr/bin/env python3
"""Writes the sheets of crates/sheets/data and the page sheets.md beside this file.

Each sheet stands below with the first line of its output, worked out by hand
from document 01, as document 02 has changed it; some of RV64M, some budgets, two
long ones, most of Job 5 and all of Jobs 6 to 8 with all their registers too. `oracle sheets FOLDER` then
prints what the oracle makes of them, and `--check FILE` holds that against the
lines here. `--store ORACLE` writes data/index and stdout, the answers being the
oracle's, if its first lines are those here.
"""
import os
import subprocess
import sys

from half_formats import *

HERE = os.path.dirname(os.path.abspath(__file__))
SHEETS = os.path.join(HERE, "..", "..", "crates", "sheets", "data")

rows = []       # (name, bytes, first line, what it shows, sentence)
registers = {}  # name: number and value of each register that is not 0
sections = []   # (index of first row, title)


def section(title):
    sections.append((len(rows), title))


def sheet(name, content, first, shows, sentence):
    assert len(name) <= 31 and name == name.lower() and " " not in name, name
    if isinstance(content, str):
        content = content.encode("latin-1")
    rows.append((name, content, first, shows, sentence))


# Words. A small assembler of its own, after the RISC-V manual's formats.
def R(op, f3, f7, rd, rs1, rs2):
    return f7 << 25 | rs2 << 20 | rs1 << 15 | f3 << 12 | rd << 7 | op


def I(op, f3, rd, rs1, imm):
    return (imm & 0xfff) << 20 | rs1 << 15 | f3 << 12 | rd << 7 | op


def S(op, f3, rs1, rs2, imm):
    return (imm >> 5 & 0x7f) << 25 | rs2 << 20 | rs1 << 15 | f3 << 12 | (imm & 31) << 7 | op


def B(f3, rs1, rs2, off):
    return ((off >> 12 & 1) << 31 | (off >> 5 & 63) << 25 | rs2 << 20 | rs1 << 15 | f3 << 12 | (off >> 1 & 15) << 8
            | (off >> 11 & 1) << 7 | 0x63)


def U(op, rd, field):
    return field << 12 | rd << 7 | op


def J(rd, off):
    return (off >> 20 & 1) << 31 | (off >> 1 & 0x3ff) << 21 | (off >> 11 & 1) << 20 | (off >> 12 & 255) << 12 | rd << 7 | 0x6f


def addi(rd, rs1, imm): return I(0x13, 0, rd, rs1, imm)
def slli(rd, rs1, n): return I(0x13, 1, rd, rs1, n)
def srli(rd, rs1, n): return I(0x13, 5, rd, rs1, n)
def lui(rd, field): return U(0x37, rd, field)
def jalr(rd, rs1, imm): return I(0x67, 0, rd, rs1, imm)
def load(f3, rd, rs1, imm): return I(0x03, f3, rd, rs1, imm)
def store(f3, rs2, rs1, imm): return S(0x23, f3, rs1, rs2, imm)
def hload(f3, rd, rs1, imm): return I(0x0b, f3, rd, rs1, imm)
def hstore(f3, rs2, rs1, imm): return S(0x2b, f3, rs1, rs2, imm)
def hfi(f7, rd=0, rs1=0, rs2=0): return R(0x5b, 0, f7, rd, rs1, rs2)


LB, LH, LW, LD, LBU, LHU, LWU = range(7)
SB, SH, SW, SD = range(4)
NOP, ECALL, EBREAK, EXIT = 0x13, 0x73, 0x00100073, 0x0400005b
SELECT, SETBASE, GETBASE, SETBOUND, GETBOUND, SETPERM, GETPERM, SETHANDLER, GETHANDLER, RESET = range(3, 13)
ONES = 0xffffffffffffffff


def mask(k):
    return ONES << k & ONES


NONE = (0, 0, 0)
CODE = (0, mask(12), 4)          # fetches from 0 to fff
SHORT = (0, mask(8), 4)          # fetches from 0 to ff, for locked sheets that write at 200 (Job 5)
DATA = (0x1000, mask(12), 3)     # ordinary data 1000 to 1fff
SMALL = (0x2000, 0x40, 3)        # h-words 2000 to 203f


def setup(pc=0, options=1, handler=0, r1=NONE, r2=NONE, r3=CODE, budget=""):
    fields = [pc, options, handler, *r1, *r2, *r3]
    text = ",".join("%x" % f if isinstance(f, int) else f for f in fields)
    return text + "," + ("%x" % budget if isinstance(budget, int) else budget) + "\n"


def code(*words, at=0):
    return "".join("%x,%08x\n" % (at + 4 * i, w) for i, w in enumerate(words))


def program(*words, at=0, more="", **how):
    return setup(**how) + code(*words, at=at) + more


SETUP = setup()

# ---------------------------------------------------------------- question 30
Q30 = "30: is the length 1 to 65,536 with last byte `0a`?"
section("Question 30")
sheet("empty-file", "", "sheet,30,0", "a file of no bytes", Q30)
sheet("no-final-line-end", SETUP[:-1], "sheet,30,0", "the last line lacks its end", Q30)
sheet("no-final-line-end-two-lines", SETUP + "0,13", "sheet,30,0", "the last word line lacks its end", Q30)


def sized(total):
    """A valid sheet of exactly that many bytes: words that do nothing, padded fields."""
    text = setup(r3=(0, mask(16), 4))
    line = 0
    while total - len(text) > 2 * 34:
        text += "%016x,%016x\n" % (4 * line, NOP)
        line += 1
    rest = total - len(text)          # two lines of 17 to 34 bytes
    first = rest // 2
    for length in (first, rest - first):
        digits = length - 2 - 8
        text += "%0*x,%08x\n" % (digits, 4 * line, NOP)
        line += 1
    assert len(text) == total
    return text


# This one stops after 1,000 steps, which are written out since Job 4; line 2 has three zeros fewer.
LONGEST = sized(65536).replace(",4,\n000", ",4,3e8\n", 1)
assert len(LONGEST) == 65536
sheet("length-65536", LONGEST, "21,3e8,fa0,0,0,0,0,0,0", "the longest sheet passes and runs its 1,000 steps", Q30)
sheet("length-65537", sized(65537), "sheet,30,0", "one byte more", Q30)
sheet("length-65536-only-line-ends", "\n" * 65536, "sheet,32,1", "65,536 line ends pass 30; line 1 has one field", Q30)
sheet("length-65537-only-line-ends", "\n" * 65537, "sheet,30,0", "65,537 line ends", Q30)
sheet("order-30-31-too-long", sized(65537).replace("13\n", "1X\n", 1), "sheet,30,0", "30 before 31", "The first no is printed")
sheet("order-30-31-no-line-end", "X", "sheet,30,0", "30 before 31", "The first no is printed")
sheet("order-30-32", "0,0", "sheet,30,0", "30 before 32", "The first no is printed")
sheet("order-30-33", SETUP + ",13", "sheet,30,0", "30 before 33", "The first no is printed")
sheet("order-30-34", SETUP + "2,13", "sheet,30,0", "30 before 34", "The first no is printed")
sheet("order-30-35", SETUP + "4,13\n4,13", "sheet,30,0", "30 before 35", "The first no is printed")

# ---------------------------------------------------------------- question 31
Q31 = "31: is every byte a digit 0-9, a-f, comma or `0a`?"
Q31L = "for 31 the line of the first such byte"
section("Question 31")
sheet("upper-case-digit", SETUP + "0,00A00513\n", "sheet,31,2", "an upper-case A", Q31)
sheet("letter-g", SETUP + "g,13\n", "sheet,31,2", "the letter after f", Q31)
sheet("back-quote", SETUP + "`,13\n", "sheet,31,2", "the byte before a", Q31)
sheet("colon", SETUP + "0,1:\n", "sheet,31,2", "the byte after 9", Q31)
sheet("slash", SETUP + "0,1/\n", "sheet,31,2", "the byte before 0", Q31)
sheet("space-after-comma", SETUP + "0, 13\n", "sheet,31,2", "a space", Q31)
sheet("carriage-return", SETUP.replace("\n", "\r\n") + "0,13\r\n", "sheet,31,1", "line ends of two bytes", Q31)
sheet("tab-for-comma", SETUP + "0\t13\n", "sheet,31,2", "a tab", Q31)
sheet("zero-x-in-front", SETUP + "0,0x13\n", "sheet,31,2", "a prefix 0x", Q31)
sheet("minus-sign", SETUP + "0,-1\n", "sheet,31,2", "a sign", Q31)
sheet("quoted-field", SETUP + '"0",13\n', "sheet,31,2", "quotes", "no quoting")
sheet("semicolon", SETUP + "0;13\n", "sheet,31,2", "another separator", Q31)
sheet("byte-zero", SETUP + "0,13\0\n", "sheet,31,2", "byte 00", Q31)
sheet("byte-ff", SETUP + "0,1\xff\n", "sheet,31,2", "byte ff", Q31)
sheet("byte-b0", SETUP + "0,1\xb0\n", "sheet,31,2", "byte b0: 30 with the top bit set", Q31)
sheet("bad-byte-first-line", "X" + SETUP, "sheet,31,1", "in line 1", Q31L)
sheet("bad-bytes-two-lines", SETUP + "0,1X\n4,1X\n", "sheet,31,2", "the first of two bad bytes counts", Q31L)
sheet("bad-byte-after-blank-lines", "\n\n\nX\n", "sheet,31,4", "blank lines count", Q31L)
sheet("order-31-32", "0\n" + code(NOP) + "X\n", "sheet,31,3", "a bad byte in the last line before the wrong count of line 1",
      "31: is every byte ... Then line by line: 32")
sheet("order-31-32-same-line", "0,X\n", "sheet,31,1", "both in line 1", "31: is every byte ... Then line by line: 32")
sheet("order-31-33", SETUP + ",13\n4,1X\n", "sheet,31,3", "a bad byte in line 3 before an empty field in line 2",
      "31: is every byte ... Then line by line: 32")
sheet("order-31-34", SETUP + "2,13\n4,1X\n", "sheet,31,3", "a bad byte in line 3 before a bad address in line 2",
      "31: is every byte ... Then line by line: 32")
sheet("order-31-35", SETUP + "4,13\n4,13\n8,1X\n", "sheet,31,4", "a bad byte in line 4 before equal addresses in line 3",
      "31: is every byte ... Then line by line: 32")

# ---------------------------------------------------------------- question 32
Q32 = "32: are there 13 fields (line 1) or 2?"
LINES = "Then line by line"
section("Question 32")
sheet("only-a-line-end", "\n", "sheet,32,1", "a line without commas has one field", Q32)
sheet("one-field-in-line-one", "0\n", "sheet,32,1", "one field", Q32)
sheet("twelve-fields", "0,1,0,0,0,0,0,0,0,0,fffffffffffff000,4\n", "sheet,32,1", "12 fields: the budget's comma is missing", Q32)
sheet("fourteen-fields", "0,1,0,0,0,0,0,0,0,0,fffffffffffff000,4,a,\n", "sheet,32,1", "14 fields", Q32)
sheet("word-line-first", code(NOP), "sheet,32,1", "no setup line", Q32)
sheet("word-line-one-field", SETUP + "0\n", "sheet,32,2", "a word line of one field", Q32)
sheet("word-line-three-fields", SETUP + "0,13,0\n", "sheet,32,2", "a word line of three fields", Q32)
sheet("word-line-comma-at-end", SETUP + "0,13,\n", "sheet,32,2", "a comma too many", Q32)
sheet("blank-last-line", SETUP + "0,13\n\n", "sheet,32,3", "a blank line at the end", Q32)
sheet("blank-line-between", SETUP + "0,13\n\n4,13\n", "sheet,32,3", "a blank line between", Q32)
sheet("blank-second-line", SETUP + "\n", "sheet,32,2", "a blank line 2", Q32)
sheet("setup-line-twice", SETUP + SETUP, "sheet,32,2", "13 fields in line 2", Q32)
sheet("order-32-33-line-one", ",,\n", "sheet,32,1", "three empty fields in line 1: 32 before 33", "The first no is printed")
sheet("order-32-33-same-line", SETUP + ",13,\n", "sheet,32,2", "32 before 33 in one line", "The first no is printed")
sheet("order-32-34-same-line", SETUP + "1,13,0\n", "sheet,32,2", "32 before 34 in one line", "The first no is printed")
sheet("order-32-35-same-line", SETUP + "4,13\n0,13,0\n", "sheet,32,3", "32 before 35 in one line", "The first no is printed")
sheet("order-32-then-33", SETUP + "0\n4,\n", "sheet,32,2", "32 in line 2, 33 in line 3", LINES)

# ---------------------------------------------------------------- question 33
Q33 = "33: has each field 1 to 16 digits (an empty budget passes)?"
section("Question 33")
sheet("empty-pc", "," + SETUP.split(",", 1)[1], "sheet,33,1", "an empty pc", Q33)
sheet("empty-options", setup(options=""), "sheet,33,1", "empty options", Q33)
sheet("empty-handler", setup(handler=""), "sheet,33,1", "an empty handler", Q33)
sheet("empty-permission", setup(r3=(0, mask(12), "")), "sheet,33,1", "an empty permission, beside the budget", Q33)
sheet("empty-base", setup(r1=("", 0, 0)), "sheet,33,1", "an empty base", Q33)
for name, region, shows in [
    ("empty-bound-one", {"r1": (0, "", 0)}, "bound of region 1"), ("empty-permission-one", {"r1": (0, 0, "")}, "permission of region 1"),
    ("empty-base-two", {"r2": ("", 0, 0)}, "base of region 2"), ("empty-mask-two", {"r2": (0, "", 0)}, "mask of region 2"),
    ("empty-permission-two", {"r2": (0, 0, "")}, "permission of region 2"),
    ("empty-base-three", {"r3": ("", mask(12), 4)}, "base of region 3"), ("empty-mask-three", {"r3": (0, "", 4)}, "mask of region 3"),
]:
    sheet(name, setup(budget=0xa, **region), "sheet,33,1", "an empty %s, the budget written out" % shows, Q33)
sheet("empty-handler-c350", setup(handler="", budget=0xc350), "sheet,33,1", "an empty handler, 50,000 as budget", Q33)
sheet("empty-handler-and-budget", program(J(0, 0), handler=""), "sheet,33,1", "handler and budget empty, a word follows: only the budget may be", Q33)
sheet("thirteen-empty-fields", ",,,,,,,,,,,,\n", "sheet,33,1", "13 empty fields: only the budget may be", Q33)
sheet("empty-address", SETUP + ",13\n", "sheet,33,2", "an empty address", Q33)
sheet("empty-word", SETUP + "0,\n", "sheet,33,2", "an empty word", Q33)
sheet("two-empty-fields", SETUP + ",\n", "sheet,33,2", "a lone comma", Q33)
sheet("seventeen-digit-word", SETUP + "0,00000000000000013\n", "sheet,33,2", "17 digits in a word", Q33)
sheet("seventeen-digit-address", SETUP + "00000000000000000,13\n", "sheet,33,2", "17 digits in an address", Q33)
sheet("seventeen-digit-pc", "00000000000000000" + SETUP[1:], "sheet,33,1", "17 digits in pc", Q33)
sheet("seventeen-digit-budget", setup(budget="0000000000000000a"), "sheet,33,1", "17 digits in the budget", Q33)
sheet("sixteen-digit-fields", "0000000000000000,0000000000000001,0000000000000000," + "0000000000000000," * 7
      + "fffffffffffff000,0000000000000004,000000000000000a\n0000000000000000,0000000000500513\n0000000000000004,0000000000000073\n",
      "18,1,4,0,0,0,0,0,0", "16 digits everywhere pass", Q33)
sheet("leading-zeros", "00,001,0,0,0,0,0,0,0,0,fffffffffffff000,04,0000a\n00000,500513\n0004,073\n", "18,1,4,0,0,0,0,0,0",
      "leading zeros of any number up to 16 digits", Q33)
sheet("order-33-34-line-one", setup(options=0x100, budget="0" * 17), "sheet,33,1", "33 before 34 in line 1", "The first no is printed")
sheet("order-33-34-same-line", SETUP + "1,\n", "sheet,33,2", "33 before 34 in one line", "The first no is printed")
sheet("order-33-35-same-line", SETUP + "4,13\n4,\n", "sheet,33,3", "33 before 35 in one line", "The first no is printed")
sheet("order-33-then-32", SETUP + "0,\n4\n", "sheet,33,2", "33 in line 2 before 32 in line 3", LINES)
sheet("order-33-line-one-then-32", setup(handler="") + "0\n", "sheet,33,1", "33 in line 1 before 32 in line 2", LINES)

# ---------------------------------------------------------------- question 34
Q34 = "34: are options and permissions at most `ff`, budget and words at most `ffffffff`, addresses multiples of 4 and at most `fffc`?"
section("Question 34")
sheet("options-100", setup(options=0x100), "sheet,34,1", "options above ff", Q34)
sheet("options-all-ones", setup(options=ONES), "sheet,34,1", "options of 16 digits f", Q34)
sheet("permission-one-100", setup(r1=(0, 0, 0x100)), "sheet,34,1", "permission of region 1 above ff", Q34)
sheet("permission-two-100", setup(r2=(0, 0, 0x100)), "sheet,34,1", "permission of region 2 above ff", Q34)
sheet("permission-three-100", setup(r3=(0, mask(12), 0x100)), "sheet,34,1", "permission of region 3 above ff", Q34)
sheet("budget-100000000", setup(budget=0x100000000), "sheet,34,1", "a budget above ffffffff", Q34)
sheet("budget-sixteen-digits", setup(budget=ONES), "sheet,34,1", "a budget of 16 digits f", Q34)
sheet("word-100000000", SETUP + "0,100000013\n", "sheet,34,2", "a word above ffffffff", Q34)
sheet("address-1", SETUP + "1,13\n", "sheet,34,2", "an address that is no multiple of 4", Q34)
sheet("address-2", SETUP + "2,13\n", "sheet,34,2", "an address that is a multiple of 2 only", Q34)
sheet("address-fffe", SETUP + "fffe,13\n", "sheet,34,2", "misaligned and above fffc", Q34)
sheet("address-10000", SETUP + "0,13\n10000,13\n", "sheet,34,3", "the first address past the end", Q34)
sheet("address-top-of-64-bits", SETUP + "fffffffffffffffc,13\n", "sheet,34,2", "an address far past the end", Q34)
sheet("address-fffc", setup(pc=0xfffc, r3=(0, mask(16), 4)) + "fffc,00000073\n", "18,0,fffc,0,0,0,0,0,0",
      "the last address passes and is run", Q34)
sheet("order-34-35-same-line", SETUP + "4,13\n3,13\n", "sheet,34,3", "34 before 35 in one line", "The first no is printed")
sheet("order-34-35-same-line-word", SETUP + "4,13\n4,100000000\n", "sheet,34,3", "34 before 35 in one line, by the word",
      "The first no is printed")
sheet("order-34-then-32", SETUP + "2,13\n4\n", "sheet,34,2", "34 in line 2 before 32 in line 3", LINES)
sheet("order-34-then-33", SETUP + "2,13\n4,\n", "sheet,34,2", "34 in line 2 before 33 in line 3", LINES)
sheet("order-34-line-one-then-33", setup(options=0x100) + ",13\n", "sheet,34,1", "34 in line 1 before 33 in line 2", LINES)
sheet("order-34-line-one-then-35", setup(budget=0x100000000) + "4,13\n0,13\n", "sheet,34,1", "34 in line 1 before 35 in line 3", LINES)

# ---------------------------------------------------------------- question 35
Q35 = "35: do addresses rise strictly?"
section("Question 35")
sheet("equal-addresses", SETUP + "0,13\n0,13\n", "sheet,35,3", "the same address twice", Q35)
sheet("equal-addresses-other-digits", SETUP + "4,13\n0004,13\n", "sheet,35,3", "the same address in other digits", Q35)
sheet("falling-addresses", SETUP + "4,13\n0,13\n", "sheet,35,3", "a lower address after", Q35)
sheet("falling-later", SETUP + code(NOP, NOP, NOP, NOP) + "8,13\n", "sheet,35,6", "a lower address after four", Q35)
sheet("line-number-in-decimal", SETUP + code(*[NOP] * 9) + "20,13\n", "sheet,35,11", "line 11 is printed as 11",
      "line number in decimal")
sheet("order-35-then-32", SETUP + "4,13\n4,13\n8\n", "sheet,35,3", "35 in line 3 before 32 in line 4", LINES)
sheet("order-35-then-33", SETUP + "4,13\n4,13\n8,\n", "sheet,35,3", "35 in line 3 before 33 in line 4", LINES)
sheet("order-35-then-34", SETUP + "4,13\n4,13\na,13\n", "sheet,35,3", "35 in line 3 before 34 in line 4", LINES)
sheet("addresses-with-gaps", setup(r3=(0, mask(16), 4)) + "0,%08x\n1000,%08x\nfffc,00000073\n" % (J(0, 0x1000), J(0, 0xeffc)),
      "18,2,fffc,0,0,0,0,0,0", "gaps between addresses stay zero", "Memory is 65,536 zero bytes before the words are placed")

# ---------------------------------------------------------------- refusals of the run
section("Valid sheets whose run answers 2 or 3")
Q2 = "2. (Run) Is the budget at most 1,000,000? No: **2**."
Q3 = "3. Is the machine well formed? No: **3**."
sheet("budget-f4241", program(NOP, budget=1000001), "2,0,0,0,0,0,0,0,0", "1,000,001 steps", Q2)
sheet("budget-ffffffff", program(NOP, budget=0xffffffff), "2,0,0,0,0,0,0,0,0", "the largest budget a sheet holds", Q2)
sheet("two-before-three", setup(pc=0x24, options=0x10, budget=1000001), "2,0,24,0,0,0,0,0,0", "2 before 3, pc printed as given", Q2)
sheet("two-with-odd-pc", setup(pc=ONES, budget=1000001), "2,0,ffffffffffffffff,0,0,0,0,0,0", "2 before 10", Q2)
WELL = "Well formed means: ... options at most 15"
sheet("options-10", program(NOP, options=0x10), "3,0,0,0,0,0,0,0,0", "options 16", WELL)
sheet("options-ff", program(NOP, options=0xff, pc=8), "3,0,8,0,0,0,0,0,0", "options ff pass 34 and not 3", WELL)
HB = "handler bits 0, 1, 62, 63 clear"
sheet("handler-bit-0", program(NOP, handler=0x101), "3,0,0,0,0,0,0,0,0", "handler bit 0", HB)
sheet("handler-bit-1", program(NOP, handler=0x102), "3,0,0,0,0,0,0,0,0", "handler bit 1", HB)
sheet("handler-bit-62", program(NOP, handler=1 << 62), "3,0,0,0,0,0,0,0,0", "handler bit 62", HB)
sheet("handler-bit-63", program(NOP, handler=1 << 63), "3,0,0,0,0,0,0,0,0", "handler bit 63", HB)
sheet("handler-largest", program(ECALL, options=3, handler=0x3ffffffffffffffc), "20,1,3ffffffffffffffc,2,0,0,0,0,0",
      "the largest handler that is well formed", HB)
PB = "only the permission bits listed"
sheet("permission-one-execute", program(NOP, r1=(0x2000, 0x40, 7)), "3,0,0,0,0,0,0,0,0", "region 1 has no execute bit", PB)
sheet("permission-one-bit-4", program(NOP, r1=(0x2000, 0x40, 0x10)), "3,0,0,0,0,0,0,0,0", "region 1 has no bit 4", PB)
sheet("permission-two-execute", program(NOP, r2=(0x1000, mask(12), 7)), "3,0,0,0,0,0,0,0,0", "region 2 has no execute bit", PB)
sheet("permission-two-large", program(NOP, r2=(0x1000, mask(12), 8)), "3,0,0,0,0,0,0,0,0", "region 2 has no large bit", PB)
sheet("permission-three-read", program(NOP, r3=(0, mask(12), 5)), "3,0,0,0,0,0,0,0,0", "region 3 has no read bit", PB)
sheet("permission-three-write", program(NOP, r3=(0, mask(12), 6)), "3,0,0,0,0,0,0,0,0", "region 3 has no write bit", PB)
sheet("permission-three-large", program(NOP, r3=(0, mask(12), 0xc)), "3,0,0,0,0,0,0,0,0", "region 3 has no large bit", PB)
sheet("permission-ff", program(NOP, r3=(0, mask(12), 0xff)), "3,0,0,0,0,0,0,0,0", "ff passes 34 and not 3", PB)
sheet("permission-one-all-it-has", program(ECALL, r1=(0x10000, 0x10000, 0xb)), "18,0,0,0,0,0,0,0,0", "bits 0, 1, 3 are region 1's", PB)
sheet("three-before-twenty-one", program(NOP, options=0x10, budget=0), "3,0,0,0,0,0,0,0,0", "3 before 21 with budget 0",
      "Before each step of a run: does the budget have a step left?")
sheet("three-before-ten", program(NOP, options=0x10, pc=2), "3,0,2,0,0,0,0,0,0", "3 before 10", Q3)

# ---------------------------------------------------------------- budgets
section("Budgets and stop 21")
Q21 = "Before each step of a run: does the budget have a step left? No: **21**."
LOOP = J(0, 0)
EMPTY = "02, Job 4: An empty budget now means 50,000."
OLD = "02, Job 4: Your stored test sheets that relied on the old stop write `3e8`"
sheet("budget-empty-loop", program(LOOP), "21,c350,0,0,0,0,0,0,0", "an empty budget is 50,000 steps", EMPTY)
sheet("budget-c350-loop", program(LOOP, budget=0xc350), "21,c350,0,0,0,0,0,0,0", "50,000 written out: the same", EMPTY)
sheet("budget-c350-sixteen-digits", program(LOOP, budget="000000000000c350"), "21,c350,0,0,0,0,0,0,0", "50,000 with leading zeros", EMPTY)
sheet("budget-c34f-loop", program(LOOP, budget=0xc34f), "21,c34f,0,0,0,0,0,0,0", "one step fewer than the empty budget has", EMPTY)
sheet("budget-c351-loop", program(LOOP, budget=0xc351), "21,c351,0,0,0,0,0,0,0", "one step more", EMPTY)
sheet("budget-3e8-loop", program(LOOP, budget=0x3e8), "21,3e8,0,0,0,0,0,0,0", "1,000 written out stay 1,000 steps", OLD)
sheet("budget-empty-unlocked", program(LOOP, options=0), "21,c350,0,0,0,0,0,0,0", "50,000 steps with regions unlocked", EMPTY)
sheet("budget-empty-no-words", setup(pc=8), "13,0,8,0,0,0,0,0,0", "line 1 alone: there is a step left, and zeros are illegal", EMPTY)
sheet("budget-empty-all-options", program(LOOP, options=0xf), "21,c350,0,0,0,0,0,0,0", "50,000 steps with every option", EMPTY)


def long_loop(total):
    """A sheet of that many bytes with an empty budget: a jump to itself, then words that are never fetched."""
    return sized(total).replace("%016x\n" % NOP, "%016x\n" % LOOP, 1)


ROOM = long_loop(65532)
sheet("budget-empty-longest", long_loop(65536), "21,c350,0,0,0,0,0,0,0", "the longest sheet has no room for the digits of its budget", EMPTY)
sheet("budget-empty-last-room", ROOM, "21,c350,0,0,0,0,0,0,0", "65,532 bytes: there is room for four digits", EMPTY)
sheet("budget-c350-last-room", ROOM.replace(",4,\n", ",4,c350\n", 1), "21,c350,0,0,0,0,0,0,0", "with the digits it is 65,536 bytes long: the same", EMPTY)
# 25,000 rounds of two words: x5 is 25,000 and pc at the start again.
for name, budget in [("budget-empty-counting", ""), ("budget-c350-counting", 0xc350)]:
    registers[name] = {5: 25000}
    sheet(name, program(addi(5, 5, 1), J(0, -4), budget=budget), "21,c350,0,0,0,0,0,0,0", "25,000 rounds of two words", EMPTY)
# The sum of 500 down to 1: one step, then 500 rounds of three, which are 1,501, or 5dd. 1,000 steps are 333 rounds: 167 is
# still to be added, and 500 down to 168 are 125,250 less 167 * 168 / 2.
SUM_DOWN = [addi(5, 0, 500), R(0x33, 0, 0, 10, 10, 5), addi(5, 5, -1), B(1, 5, 0, -8), ECALL]
registers["budget-empty-past-1000"] = {10: 125250}
registers["budget-3e8-too-small"] = {5: 167, 10: 111222}
sheet("budget-empty-past-1000", program(*SUM_DOWN), "18,5dd,10,0,0,0,0,0,0", "1,501 steps by themselves: 21 before Job 4", EMPTY)
sheet("budget-3e8-too-small", program(*SUM_DOWN, budget=0x3e8), "21,3e8,4,0,0,0,0,0,0", "the same with 1,000 written out: 21 as before", OLD)


def rounds(n):
    """x5 counts from n down to 0: two steps, then n rounds of two. The word after them stands at 10."""
    assert n % 4096 < 2048
    return [lui(5, n >> 12), addi(5, 5, n % 4096), addi(5, 5, -1), B(1, 5, 0, -4)]


# 2 + 2 * 499 = 1,000; 2 + 2 * 24,999 = 50,000; 2 + 2 * 24,998 + 1 = 49,999, the one being a word that does nothing.
for name, words, budget, first, shows in [
    ("budget-empty-1000-then-call", [*rounds(499), ECALL], "", "18,3e8,10,0,0,0,0,0,0", "18 after 1,000 steps: 21 before Job 4"),
    ("budget-empty-1000-then-exit", [*rounds(499), EXIT], "", "20,3e9,14,1,10,0,0,0,0", "step 1,001 leaves"),
    ("budget-empty-exact-then-call", [*rounds(24999), ECALL], "", "21,c350,10,0,0,0,0,0,0", "50,000 steps: 21 before the step that would stop with 18"),
    ("budget-empty-one-to-spare", [*rounds(24998), NOP, ECALL], "", "18,c34f,14,0,0,0,0,0,0", "49,999 steps, then 18"),
    ("budget-empty-exact-leaving", [*rounds(24998), NOP, EXIT], "", "20,c350,18,1,14,0,0,0,0", "step 50,000 leaves: 20"),
    ("budget-empty-one-short", [*rounds(24999), EXIT], "", "21,c350,10,0,0,0,0,0,0", "step 50,001 would leave: 21"),
    ("budget-c351-then-call", [*rounds(24999), ECALL], 0xc351, "18,c350,10,0,0,0,0,0,0", "with one step more, 18 after 50,000"),
    ("budget-c34f-then-call", [*rounds(24998), NOP, ECALL], 0xc34f, "21,c34f,14,0,0,0,0,0,0", "with one step fewer, 21 after 49,999"),
]:
    registers[name] = {}
    sheet(name, program(*words, budget=budget), first, shows, EMPTY)
sheet("budget-0", program(NOP, budget=0), "21,0,0,0,0,0,0,0,0", "no step", Q21)
sheet("budget-0-odd-pc", program(NOP, pc=1, budget=0), "21,0,1,0,0,0,0,0,0", "21 before 10", Q21)
sheet("budget-1", program(NOP, NOP, budget=1), "21,1,4,0,0,0,0,0,0", "one step", Q21)
sheet("budget-exact-then-stop", program(NOP, NOP, ECALL, budget=2), "21,2,8,0,0,0,0,0,0", "21 before the step that would stop with 18", Q21)
sheet("budget-one-more-than-needed", program(NOP, NOP, ECALL, budget=3), "18,2,8,0,0,0,0,0,0", "the stopping step needs budget, is not counted",
      "For 10 to 19 the stopping step isn't counted")
sheet("budget-exact-leaving", program(NOP, EXIT, budget=2), "20,2,8,1,4,0,0,0,0", "the leaving step is the last allowed: 20", "20 counts its step.")
sheet("budget-one-short-of-leaving", program(NOP, EXIT, budget=1), "21,1,4,0,0,0,0,0,0", "the budget ends before the exit", Q21)
sheet("budget-f4240-loop", program(LOOP, budget=1000000), "21,f4240,0,0,0,0,0,0,0", "1,000,000 steps", Q2)
sheet("budget-f4240-counting", program(addi(5, 5, 1), J(0, -4), budget=1000000), "21,f4240,0,0,0,0,0,0,0", "500,000 rounds of two words", Q2)
sheet("steps-in-hexadecimal", program(LOOP, budget=0x1f), "21,1f,0,0,0,0,0,0,0", "31 steps print as 1f", "All else is hexadecimal")

# ---------------------------------------------------------------- 10, 11, 12
section("Stops 10, 11 and 12: the fetch")
Q4 = "02, Job 8: 10 now asks for a multiple of 2."
Q5 = "5. In HFI mode, are all four bytes executable? No: **11**."
FETCH = "02, Job 8: A fetch takes two bytes, asks 11 and 12 of them, and takes two more only if the low two bits are both ones"
Q6 = "6. Are they in memory? No: **12**."
sheet("pc-1", program(NOP, pc=1), "10,0,1,0,0,0,0,0,0", "pc 1", Q4)
sheet("pc-2", program(NOP, pc=2), "13,0,2,0,0,0,0,0,0", "pc 2: the upper half of a NOP is 0, which is illegal", Q4)
sheet("pc-3", program(NOP, pc=3), "10,0,3,0,0,0,0,0,0", "pc 3", Q4)
sheet("pc-all-ones", program(NOP, pc=ONES), "10,0,ffffffffffffffff,0,0,0,0,0,0", "10 before 11", Q4)
sheet("setup-line-alone", SETUP, "13,0,0,0,0,0,0,0,0", "no words: zeros are fetched and illegal", "Each further line: address, word.")
FR = "Its fault region is 1 for explicit; otherwise the region that matched without permission, or 0 if none matched."
sheet("code-region-zero", program(NOP, r3=NONE), "11,0,0,0,0,1,0,3,0", "an unset code region lets nothing through",
      "An unset mask that lets every address through (seen in 001).")
sheet("code-region-not-executable", program(NOP, r3=(0, mask(12), 0)), "11,0,0,0,0,1,3,3,0", "a match without permission is region 3", FR)
sheet("code-region-elsewhere", program(NOP, r3=(0x1000, mask(12), 4)), "11,0,0,0,0,1,0,3,0", "no match is region 0", FR)
sheet("code-region-broken-base", program(NOP, r3=(8, mask(4), 4)), "11,0,0,0,0,1,0,3,0", "a base that is no multiple of 2^k",
      "A region that breaks its rule keeps its values and matches nothing")
sheet("code-region-broken-inside", program(NOP, NOP, NOP, pc=8, r3=(8, mask(4), 4)), "11,0,8,0,0,1,0,3,8",
      "the same at the base itself", "A region that breaks its rule keeps its values and matches nothing")
sheet("code-region-two-bytes", program(NOP, NOP, pc=4, r3=(4, mask(1), 4)), "11,0,4,0,0,1,0,3,6", "two bytes of code: the third is refused",
      "The first refused byte, counted from the access's start, is the one recorded.")
sheet("code-region-one-byte", program(NOP, r3=(0, mask(0), 4)), "11,0,0,0,0,1,0,3,1", "k = 0: one byte of code",
      "the count k of the mask's trailing zero bits is 0 to 48")
sheet("code-region-four-bytes", program(NOP, r3=(0, mask(2), 4)), "11,1,4,0,0,1,0,3,4", "four bytes: one word runs",
      "A byte matches when its address, and-ed with the mask, equals base.")
sheet("code-region-run-off-the-end", program(NOP, NOP, NOP, NOP, NOP, r3=(0, mask(4), 4)), "11,4,10,0,0,1,0,3,10",
      "sixteen bytes: the fifth word is refused", "`f` matches, `10` doesn't")
sheet("jump-out-of-code", program(J(1, 0x1000)), "11,1,1000,0,0,1,0,3,1000", "a jump into data", Q5)
sheet("jump-to-high-address", program(addi(5, 0, -16), jalr(0, 5, 0)), "11,2,fffffffffffffff0,0,0,1,0,3,fffffffffffffff0",
      "a jump near the top", Q5)
sheet("code-in-data-region", program(NOP, pc=0x1000, at=0x1000, r2=DATA, r3=NONE), "11,0,1000,0,0,1,0,3,1000",
      "region 2 is not asked about a fetch", "A fetch asks region 3")
sheet("pc-past-memory", setup(pc=0x10000, r3=(0x10000, mask(16), 4)), "12,0,10000,0,0,0,0,0,0",
      "granted and absent; the address 12 gives is not printed", Q6)
sheet("run-off-memory", program(NOP, pc=0xfffc, at=0xfffc, r3=(0, mask(17), 4)), "12,1,10000,0,0,0,0,0,0", "past the last word", Q6)
sheet("eleven-before-twelve", setup(pc=0x20000, r3=(0, mask(17), 4)), "11,0,20000,0,0,1,0,3,20000", "refused and absent: 11", Q6)
sheet("code-region-widest", setup(pc=0xfffffffffffc, r3=(0, mask(48), 4)), "12,0,fffffffffffc,0,0,0,0,0,0", "k = 48 grants all below 2^48",
      "base + 2^k is at most 2^48")
sheet("code-region-too-wide", program(NOP, r3=(0, mask(49), 4)), "11,0,0,0,0,1,0,3,0", "k = 49 breaks the rule",
      "the count k of the mask's trailing zero bits is 0 to 48")
sheet("code-region-top", setup(pc=0xfffffffff000, r3=(0xfffffffff000, mask(12), 4)), "12,0,fffffffff000,0,0,0,0,0,0",
      "base + 2^k is exactly 2^48", "base + 2^k is at most 2^48")
sheet("code-region-past-top", setup(pc=0x1000000000000, r3=(0x1000000000000, mask(12), 4)), "11,0,1000000000000,0,0,1,0,3,1000000000000",
      "base 2^48 breaks the rule", "base + 2^k is at most 2^48")
sheet("code-mask-with-a-hole", program(NOP, r3=(0, 0xffffffffffffe000 ^ (1 << 40), 4)), "11,0,0,0,0,1,0,3,0", "a zero among the ones",
      "the bits above them are all ones")
sheet("code-mask-without-top-bit", program(NOP, r3=(0, 0x7ffffffffffff000, 4)), "11,0,0,0,0,1,0,3,0", "bit 63 is zero",
      "the bits above them are all ones")

# ---------------------------------------------------------------- 13
section("Stop 13: illegal words")
Q7 = "7. Is the word legal? No: **13**."
for name, word, shows in [
    ("illegal-zero", 0, "the zero word"),
    ("illegal-all-ones", 0xffffffff, "the word of ones"),
    ("illegal-half-word", 0x00002000, "C.FLD"),
    ("illegal-multiply-bit-26", 0x06b50533, "MUL with bit 26"),
    ("illegal-multiply-bit-30", 0x42b50533, "MUL with bit 30"),
    ("illegal-divide-word-bit-31", 0x82b5453b, "DIVW with bit 31"),
    ("illegal-op-32-funct3-1", 0x02b5153b, "funct7 1 of OP-32 with funct3 1: no high half of a word"),
    ("illegal-op-32-funct3-2", 0x02b5253b, "the same with funct3 2"),
    ("illegal-op-32-funct3-3", 0x02b5353b, "the same with funct3 3"),
    ("illegal-fence-i", 0x0000100f, "FENCE.I"),
    ("illegal-csr", 0xc0002573, "a CSR read"),
    ("illegal-ecall-with-rd", 0x000000f3, "ECALL with rd 1"),
    ("illegal-system-return", 0x30200073, "a return from a trap"),
    ("illegal-wait", 0x10500073, "wait for interrupt"),
    ("illegal-slli-bit-26", 0x04051513, "SLLI with bit 26"),
    ("illegal-slli-bit-30", 0x40051513, "SLLI with bit 30"),
    ("illegal-slliw-bit-25", 0x0205151b, "SLLIW with bit 25"),
    ("illegal-srliw-bit-25", 0x0205551b, "SRLIW with bit 25"),
    ("illegal-sraiw-bit-25", 0x4205551b, "SRAIW with bit 25"),
    ("illegal-sub-with-funct3-1", 0x40b51533, "funct7 32 with funct3 1"),
    ("illegal-jalr-funct3", 0x00051567, "JALR with funct3 1"),
    ("illegal-load-funct3", 0x00057503, "a load with funct3 7"),
    ("illegal-store-funct3", 0x00a54023, "a store with funct3 4"),
    ("illegal-branch-funct3", 0x00002063, "a branch with funct3 2"),
    ("illegal-atomic", 0x00a5252f, "an atomic word"),
    ("illegal-float-load", 0x00052507, "a floating-point load"),
]:
    sheet(name, program(NOP, word), "13,1,4,0,0,0,0,0,0", shows, Q7)
TABLE = "Fields not named in a row are zero, else the word is illegal."
sheet("illegal-exit-with-rd", program(NOP, 0x0400015b, r1=SMALL), "13,1,4,0,0,0,0,0,0", "case C: exit with rd 2", TABLE)
sheet("illegal-exit-with-rs1", program(NOP, hfi(2, 0, 1)), "13,1,4,0,0,0,0,0,0", "exit with rs1", TABLE)
sheet("illegal-enter-with-rs2", program(NOP, hfi(0, 0, 5, 6)), "13,1,4,0,0,0,0,0,0", "enter without jump with rs2: 13 before 14", TABLE)
sheet("illegal-select-with-rd", program(NOP, hfi(SELECT, 1, 5)), "13,1,4,0,0,0,0,0,0", "select with rd", TABLE)
sheet("illegal-get-with-rs1", program(NOP, hfi(GETBASE, 5, 1)), "13,1,4,0,0,0,0,0,0", "get base with rs1", TABLE)
sheet("illegal-set-with-rd", program(NOP, hfi(SETBASE, 1, 5)), "13,1,4,0,0,0,0,0,0", "set base with rd", TABLE)
sheet("illegal-reset-with-rs2", program(NOP, hfi(RESET, 0, 0, 1)), "13,1,4,0,0,0,0,0,0", "reset with rs2", TABLE)
sheet("illegal-funct7-13", program(NOP, hfi(13)), "13,1,4,0,0,0,0,0,0", "no row 13", "The rest (ours) are R-type words, opcode `5b`, funct3 0.")
sheet("illegal-funct3-1", program(NOP, hfi(2) | 1 << 12), "13,1,4,0,0,0,0,0,0", "exit with funct3 1",
      "The rest (ours) are R-type words, opcode `5b`, funct3 0.")
sheet("illegal-h-load-funct3-7", program(NOP, hload(7, 5, 0, 0), r1=SMALL), "13,1,4,0,0,0,0,0,0", "an h-load with funct3 7",
      "opcode `0b`, funct3 0 to 6")
sheet("illegal-h-store-funct3-4", program(NOP, hstore(4, 5, 0, 0), r1=SMALL), "13,1,4,0,0,0,0,0,0", "an h-store with funct3 4",
      "opcode `2b`, funct3 0 to 3")

# ---------------------------------------------------------------- 14, 23, 25
# A sheet starts in HFI mode, and where it leaves it ends with 20: so no sheet comes to 24, nor to an h-word outside.
section("Stops 14, 23 and 25: what HFI forbids (in HFI mode, as a sheet starts there; so none comes to 24)")
R23 = "02, Job 6: 23, enter in HFI mode"
R25 = "02, Job 6: 25, a region or handler instruction that HFI mode forbids"
sheet("enter-inside", program(hfi(0, 0, 0)), "23,0,0,0,0,0,0,0,0", "enter in HFI mode", R23)
sheet("enter-inside-unlocked", program(hfi(0, 0, 0), options=0), "23,0,0,0,0,0,0,0,0", "the same, unlocked", R23)
sheet("enter-jump-inside", program(addi(5, 0, 2), hfi(1, 0, 0, 5)), "23,1,4,0,0,0,0,0,0", "enter with jump to 2, which 15 refused before Job 8", R23)
LK = R25 + ", with 01: funct7 3 to 9, 11 or 12 in HFI mode when locked"
for name, f7, rd, rs1 in [
    ("locked-select", SELECT, 0, 5), ("locked-set-base", SETBASE, 0, 5), ("locked-get-base", GETBASE, 6, 0),
    ("locked-set-bound", SETBOUND, 0, 5), ("locked-get-bound", GETBOUND, 6, 0), ("locked-set-permission", SETPERM, 0, 5),
    ("locked-get-permission", GETPERM, 6, 0), ("locked-get-handler", GETHANDLER, 6, 0), ("locked-reset", RESET, 0, 0),
]:
    sheet(name, program(addi(5, 0, 1), hfi(f7, rd, rs1)), "25,1,4,0,0,0,0,0,0", name.replace("-", " "), LK)
HANDLER = R25 + ", with 01: set handler in HFI mode, locked or unlocked"
sheet("locked-set-handler", program(addi(5, 0, 8), hfi(SETHANDLER, 0, 5)), "25,1,4,0,0,0,0,0,0", "set handler, locked", HANDLER)
sheet("unlocked-set-handler", program(addi(5, 0, 8), hfi(SETHANDLER, 0, 5), options=14), "25,1,4,0,0,0,0,0,0", "set handler, unlocked", HANDLER)
NUM = "a selected number not 1 to 3"
sheet("select-0", program(hfi(SELECT, 0, 0), options=0), "14,0,0,0,0,0,0,0,0", "number 0", NUM)
sheet("select-4", program(addi(5, 0, 4), hfi(SELECT, 0, 5), options=0), "13,2,8,0,0,0,0,0,0", "number 4 passes; the zero word after it is illegal",
      "02, Job 7: Selector, selected number and fault region go up to 10")
sheet("select-100000001", program(addi(5, 0, 1), slli(5, 5, 32), addi(5, 5, 1), hfi(SELECT, 0, 5), options=0), "14,3,c,0,0,0,0,0,0",
      "the whole register is the number", NUM)
SEL0 = "funct7 4 to 9 with selector 0"
for name, f7, rd, rs1 in [
    ("no-selection-set-base", SETBASE, 0, 5), ("no-selection-get-base", GETBASE, 6, 0), ("no-selection-set-bound", SETBOUND, 0, 5),
    ("no-selection-get-bound", GETBOUND, 6, 0), ("no-selection-set-permission", SETPERM, 0, 5), ("no-selection-get-permission", GETPERM, 6, 0),
]:
    sheet(name, program(addi(5, 0, 1), hfi(f7, rd, rs1), options=0), "14,1,4,0,0,0,0,0,0", name.replace("-", " "), SEL0)
sheet("no-selection-get-into-x0", program(hfi(GETBASE, 0, 0), options=0), "14,0,0,0,0,0,0,0,0", "a get into x0 still asks", SEL0)
LACK = "a permission bit the region lacks"
for name, region, value, in [
    ("lacking-one-execute", 1, 4), ("lacking-one-bit-4", 1, 16), ("lacking-two-execute", 2, 4), ("lacking-two-large", 2, 8),
    ("lacking-three-read", 3, 1), ("lacking-three-write", 3, 2), ("lacking-three-large", 3, 8), ("lacking-three-read-execute", 3, 5),
]:
    sheet(name, program(addi(5, 0, region), hfi(SELECT, 0, 5), addi(5, 0, value), hfi(SETPERM, 0, 5), options=0), "14,3,c,0,0,0,0,0,0",
          "permission %x for region %d" % (value, region), LACK)
sheet("lacking-one-all-ones", program(addi(5, 0, 1), hfi(SELECT, 0, 5), addi(5, 0, -1), hfi(SETPERM, 0, 5), options=0),
      "14,3,c,0,0,0,0,0,0", "all 64 bits", LACK)

section("Unlocked region instructions that pass")
sheet("unlocked-set-and-get", program(
    addi(5, 0, 1), hfi(SELECT, 0, 5), addi(6, 0, 0x700), hfi(SETBASE, 0, 6), addi(7, 0, 16), hfi(SETBOUND, 0, 7), addi(8, 0, 3),
    hfi(SETPERM, 0, 8), hfi(GETBASE, 11), hfi(GETBOUND, 12), hfi(GETPERM, 13), hfi(GETHANDLER, 14), hstore(SD, 6, 0, 8),
    hload(LD, 15, 0, 8), ECALL, options=0, handler=0x80), "18,e,38,0,0,0,0,0,0", "set region 1, read it back, use it", "The rest (ours) are R-type words")
sheet("unlocked-narrowing-code", program(addi(5, 0, 3), hfi(SELECT, 0, 5), addi(6, 0, -16), hfi(SETBOUND, 0, 6), NOP, options=0),
      "11,4,10,0,0,1,0,3,10", "a narrower code mask takes effect at the next fetch", "In HFI mode each byte is judged singly.")
sheet("unlocked-taking-execute-away", program(addi(5, 0, 3), hfi(SELECT, 0, 5), hfi(SETPERM, 0, 0), NOP, options=0), "11,3,c,0,0,1,3,3,c",
      "permission 0 for the code region", FR)
sheet("unlocked-reset", program(NOP, hfi(RESET), NOP, options=0, r1=SMALL, r2=DATA), "11,2,8,0,0,1,0,3,8", "after a reset no fetch passes",
      "Reset zeroes regions and selector.")
sheet("unlocked-data-region-moved", program(
    addi(5, 0, 2), hfi(SELECT, 0, 5), lui(6, 3), hfi(SETBASE, 0, 6), store(SW, 5, 6, 0), load(LW, 10, 6, 0), lui(7, 1), load(LB, 10, 7, 0),
    options=0, r2=DATA), "16,7,1c,0,0,1,0,1,1000", "region 2 moved from 1000 to 3000", "an ordinary load or store region 2")
sheet("unlocked-broken-base-kept", program(
    addi(5, 0, 2), hfi(SELECT, 0, 5), addi(6, 0, 9), hfi(SETBASE, 0, 6), hfi(GETBASE, 10), load(LB, 11, 6, 0), options=0, r2=DATA),
    "16,5,14,0,0,1,0,1,9", "a broken region keeps its values and matches nothing",
    "A region that breaks its rule keeps its values and matches nothing")

# ---------------------------------------------------------------- 15
section("Targets; a sheet comes to no 15")
Q9 = "02, Job 8: jumps and branches never get it"
sheet("branch-to-half-word", program(NOP, B(0, 0, 0, 6)), "13,2,a,0,0,0,0,0,0", "a taken branch to a", Q9)
sheet("branch-not-taken-to-half-word", program(NOP, B(1, 0, 0, 6), ECALL), "18,2,8,0,0,0,0,0,0", "a branch not taken", Q9)
sheet("jal-to-half-word", program(NOP, J(1, 2)), "13,3,8,0,0,0,0,0,0", "JAL to 6, its own upper half, which is C.ADDI4SPN x8, 8", Q9)
registers["jal-to-half-word"] = {1: 8, 8: 8}
sheet("jal-back-to-half-word", program(NOP, J(1, -2)), "13,2,2,0,0,0,0,0,0", "JAL to 2", Q9)
sheet("jalr-to-half-word", program(addi(5, 0, 6), jalr(1, 5, 0)), "13,3,8,0,0,0,0,0,0", "JALR to 6, its own upper half, which is C.SLLI x0, 0", Q9)
sheet("jalr-to-seven", program(addi(5, 0, 7), jalr(1, 5, 0)), "13,3,8,0,0,0,0,0,0", "JALR to 7: bit 0 is cleared, 6 remains", Q9)
sheet("jalr-clears-bit-zero", program(addi(5, 0, 13), jalr(1, 5, 0), NOP, ECALL), "18,2,c,0,0,0,0,0,0", "JALR to d goes to c", Q9)
sheet("jalr-rd-is-rs1", program(addi(5, 0, 12), jalr(5, 5, 0), NOP, ECALL), "18,2,c,0,0,0,0,0,0", "the target is of the old value",
      "JALR with rd equal to rs1 that takes the new value.")

# ---------------------------------------------------------------- 16
section("Stop 16: implicit data")
Q10 = "10. Is every data byte granted? No: **16**."
P1000 = lui(5, 1)
sheet("load-first-byte", program(P1000, load(LBU, 10, 5, 0), ECALL, r2=DATA), "18,2,8,0,0,0,0,0,0", "the region's first byte",
      "A byte matches when its address, and-ed with the mask, equals base.")
sheet("load-before-first-byte", program(P1000, load(LB, 10, 5, -1), r2=DATA), "16,1,4,0,0,1,0,1,fff", "one byte before", Q10)
sheet("load-last-byte", program(lui(5, 2), load(LBU, 10, 5, -1), ECALL, r2=DATA), "18,2,8,0,0,0,0,0,0", "the region's last byte",
      "A byte matches when its address, and-ed with the mask, equals base.")
sheet("load-past-last-byte", program(lui(5, 2), load(LB, 10, 5, 0), r2=DATA), "16,1,4,0,0,1,0,1,2000", "one byte past", Q10)
for name, f3, size in [("load-half-over-the-end", LH, 2), ("load-word-over-the-end", LW, 4), ("load-double-over-the-end", LD, 8)]:
    sheet(name, program(lui(5, 2), load(f3, 10, 5, 1 - size), r2=DATA), "16,1,4,0,0,1,0,1,2000", "only its last byte is outside",
          "Checking only the first byte of an access")
for name, f3, size in [("store-half-over-the-end", SH, 2), ("store-word-over-the-end", SW, 4), ("store-double-over-the-end", SD, 8)]:
    sheet(name, program(lui(5, 2), addi(6, 0, -1), store(f3, 6, 5, 1 - size), r2=DATA), "16,2,8,0,0,1,0,2,2000", "only its last byte is outside",
          "storing its lower bytes before a later one is refused")
sheet("load-double-over-the-start", program(P1000, load(LD, 10, 5, -7), r2=DATA), "16,1,4,0,0,1,0,1,ff9", "the first refused byte is the first",
      "The first refused byte, counted from the access's start, is the one recorded.")
sheet("load-not-readable", program(P1000, load(LD, 10, 5, 8), r2=(0x1000, mask(12), 2)), "16,1,4,0,0,1,2,1,1008", "a match without read is region 2", FR)
sheet("store-not-writable", program(P1000, store(SB, 5, 5, 8), r2=(0x1000, mask(12), 1)), "16,1,4,0,0,1,2,2,1008", "a match without write is region 2", FR)
sheet("load-into-x0-refused", program(load(LW, 0, 0, 0), r2=DATA), "16,0,0,0,0,1,0,1,0", "a load into x0 asks too", Q10)
sheet("load-own-code", program(load(LW, 10, 0, 0), r2=DATA), "16,0,0,0,0,1,0,1,0", "region 3 is not asked about a load", "an ordinary load or store region 2")
sheet("store-own-code", program(store(SW, 0, 0, 0), r2=DATA), "16,0,0,0,0,1,0,2,0", "region 3 is not asked about a store", "an ordinary load or store region 2")
sheet("load-of-explicit-bytes", program(lui(5, 2), load(LB, 10, 5, 0), r1=SMALL, r2=DATA), "16,1,4,0,0,1,0,1,2000",
      "region 1 is not asked about an ordinary load", "an h-load or h-store region 1 only")
sheet("data-mask-0", program(load(LB, 10, 0, 0), r2=(0, 0, 3)), "16,0,0,0,0,1,0,1,0", "case E: mask 0 matches nothing", "E Mask 0 matches nothing.")
sheet("data-mask-0-high-address", program(addi(5, 0, -1), load(LB, 10, 5, 0), r2=(0, 0, 3)), "16,1,4,0,0,1,0,1,ffffffffffffffff",
      "mask 0, last address", "E Mask 0 matches nothing.")
sheet("data-misaligned-base", program(load(LB, 10, 0, 8), r2=(8, mask(4), 3)), "16,0,0,0,0,1,0,1,8", "case F", "F That mask with base 8 matches nothing.")
sheet("data-sixteen-bytes-last", program(load(LBU, 10, 0, 15), ECALL, r2=(0, mask(4), 1)), "18,1,4,0,0,0,0,0,0", "case D: f matches", "D Base 0, mask `fffffffffffffff0`: `f` matches")
sheet("data-sixteen-bytes-beyond", program(load(LBU, 10, 0, 16), r2=(0, mask(4), 1)), "16,0,0,0,0,1,0,1,10", "case D: 10 doesn't", "`10` doesn't")
sheet("data-one-byte", program(P1000, load(LBU, 10, 5, 1), ECALL, r2=(0x1001, mask(0), 1)), "18,2,8,0,0,0,0,0,0", "k = 0: the byte", "k ... is 0 to 48")
sheet("data-one-byte-before", program(P1000, load(LBU, 10, 5, 0), r2=(0x1001, mask(0), 1)), "16,1,4,0,0,1,0,1,1000", "k = 0: the byte before", "k ... is 0 to 48")
sheet("data-one-byte-half", program(P1000, load(LH, 10, 5, 1), r2=(0x1001, mask(0), 1)), "16,1,4,0,0,1,0,1,1002", "k = 0: two bytes", "k ... is 0 to 48")
sheet("data-widest-last-byte", program(addi(5, 0, -1), srli(5, 5, 16), load(LB, 10, 5, 0), r2=(0, mask(48), 1)), "17,2,8,0,0,0,0,0,0",
      "k = 48: the last byte below 2^48 is granted and absent", "base + 2^k is at most 2^48")
sheet("data-widest-beyond", program(addi(5, 0, 1), slli(5, 5, 48), load(LB, 10, 5, 0), r2=(0, mask(48), 1)), "16,2,8,0,0,1,0,1,1000000000000",
      "k = 48: 2^48 is not granted", "base + 2^k is at most 2^48")
sheet("data-too-wide", program(load(LB, 10, 0, 0), r2=(0, mask(49), 3)), "16,0,0,0,0,1,0,1,0", "k = 49", "k ... is 0 to 48")
sheet("data-mask-top-bit-alone", program(load(LB, 10, 0, 0), r2=(0, 1 << 63, 3)), "16,0,0,0,0,1,0,1,0", "k = 63", "k ... is 0 to 48")
sheet("data-mask-with-a-hole", program(load(LB, 10, 0, 0), r2=(0, 0xfffffffffffff0ff, 3)), "16,0,0,0,0,1,0,1,0", "a mask with k = 0 and zeros above",
      "the bits above them are all ones")
sheet("load-wraps-to-zero", program(addi(5, 0, -1), load(LW, 10, 5, 1), ECALL, r2=(0, mask(12), 1)), "18,2,8,0,0,0,0,0,0", "2^64 - 1 + 1 is 0",
      "Sums of addresses and registers are taken modulo 2^64.")
sheet("load-over-the-wrap", program(load(LD, 10, 0, -4), r2=(0, mask(12), 1)), "16,0,0,0,0,1,0,1,fffffffffffffffc",
      "the first byte at 2^64 - 4 is refused", "The first refused byte, counted from the access's start, is the one recorded.")

section("Stop 16: explicit data")
HW = "byte i passes when region 1 keeps its rule, has the read or write permission wanted, and offset + i is at least 0 and below the bound"
G = (0x200, 0x10, 3)
for name, f3, size in [("byte", 0, 1), ("half", 1, 2), ("word", 2, 4), ("double", 3, 8)]:
    sheet("h-load-%s-last" % name, program(hload(f3, 10, 0, 16 - size), ECALL, r1=G, r3=SHORT), "18,1,4,0,0,0,0,0,0", "the last %s of 16 bytes" % name, HW)
    sheet("h-load-%s-beyond" % name, program(hload(f3, 10, 0, 17 - size), r1=G, r3=SHORT), "16,0,0,0,0,1,1,1,210", "one byte further", HW)
    sheet("h-store-%s-last" % name, program(hstore(f3, 0, 0, 16 - size), ECALL, r1=G, r3=SHORT), "18,1,4,0,0,0,0,0,0", "the last %s of 16 bytes" % name, HW)
    sheet("h-store-%s-beyond" % name, program(hstore(f3, 0, 0, 17 - size), r1=G, r3=SHORT), "16,0,0,0,0,1,1,2,210", "one byte further (case G for 8)", HW)
sheet("h-store-minus-one", program(hstore(SD, 0, 0, -1), r1=G, r3=SHORT), "16,0,0,0,0,1,1,2,1ff", "case H: offset -1", "H There, offset -1 faults at `1ff`.")
sheet("h-load-minus-one", program(hload(LB, 10, 0, -1), r1=G, r3=SHORT), "16,0,0,0,0,1,1,1,1ff", "offset -1 in a load", HW)
sheet("h-load-minus-2048", program(hload(LB, 10, 0, -2048), r1=(0x800, 0x10, 3), r3=SHORT), "16,0,0,0,0,1,1,1,0", "the lowest offset", HW)
sheet("h-load-minus-one-of-base-0", program(hload(LB, 10, 0, -1), r1=(0, 0x10, 1)), "16,0,0,0,0,1,1,1,ffffffffffffffff",
      "base 0, offset -1: the address wraps", "The address is base + offset + i, modulo 2^64.")
sheet("h-load-offset-2047", program(hload(LD, 10, 0, 2047), ECALL, r1=(0x1000, 0x1000, 1)), "18,1,4,0,0,0,0,0,0",
      "an hld at 2,047 in a bound of 4,096", "So an hld at 2,047 in a region of bound 4,096 also reaches offsets 2,048 to 2,054.")
sheet("h-load-offset-2047-bound-2054", program(hload(LD, 10, 0, 2047), r1=(0x1000, 2054, 1)), "16,0,0,0,0,1,1,1,1806", "its last byte is outside a bound of 2,054", HW)
sheet("h-load-not-readable", program(hload(LD, 10, 0, 0), r1=(0x200, 0x10, 2), r3=SHORT), "16,0,0,0,0,1,1,1,200", "no read permission", HW)
sheet("h-store-not-writable", program(hstore(SD, 10, 0, 4), r1=(0x200, 0x10, 1)), "16,0,0,0,0,1,1,2,204", "no write permission", HW)
sheet("h-load-region-zero", program(hload(LB, 10, 0, 5), r2=(0, mask(12), 1)), "16,0,0,0,0,1,1,1,5", "an unset region 1; region 2 is not asked",
      "Asking the implicit region about an h-load.")
sheet("h-load-bound-zero", program(hload(LB, 10, 0, 0), r1=(0x200, 0, 3)), "16,0,0,0,0,1,1,1,200", "bound 0", "bound is 1 to 2^32")
sheet("h-load-bound-one", program(hload(LBU, 10, 0, 0), hload(LBU, 10, 0, 1), r1=(0x200, 1, 3), r3=SHORT), "16,1,4,0,0,1,1,1,201", "bound 1", "bound is 1 to 2^32")
sheet("h-load-bound-2-to-32", program(hload(LBU, 10, 0, 0), ECALL, r1=(0, 1 << 32, 1)), "18,1,4,0,0,0,0,0,0", "bound 2^32 at base 0", "bound is 1 to 2^32")
sheet("h-load-bound-2-to-32-base-1", program(hload(LBU, 10, 0, 0), r1=(1, 1 << 32, 3)), "16,0,0,0,0,1,1,1,1", "bound 2^32 at base 1",
      "first and last byte share the same multiple of 2^32")
sheet("h-load-bound-too-large", program(hload(LBU, 10, 0, 0), r1=(0, (1 << 32) + 1, 3)), "16,0,0,0,0,1,1,1,0", "bound 2^32 + 1", "bound is 1 to 2^32")
sheet("h-load-at-the-multiple", program(hload(LBU, 10, 0, 0), r1=(0xffffffff, 1, 3)), "17,0,0,0,0,0,0,0,0", "case I: bound 1 is good; the byte is absent",
      "I Small base `ffffffff`: bound 1 is good, 2 is not.")
sheet("h-load-over-the-multiple", program(hload(LBU, 10, 0, 0), r1=(0xffffffff, 2, 3)), "16,0,0,0,0,1,1,1,ffffffff", "case I: bound 2 is not",
      "I Small base `ffffffff`: bound 1 is good, 2 is not.")
sheet("h-load-across-a-multiple", program(hload(LD, 10, 0, 4), r1=(0xfffffff8, 0x10, 3)), "16,0,0,0,0,1,1,1,fffffffc", "16 bytes across 2^32",
      "first and last byte share the same multiple of 2^32")
sheet("h-load-small-top", program(hload(LBU, 10, 0, 0), r1=((1 << 48) - 1, 1, 3)), "17,0,0,0,0,0,0,0,0", "base + bound is 2^48", "base + bound is at most 2^48 (003)")
sheet("h-load-small-past-top", program(hload(LBU, 10, 0, 0), r1=(1 << 48, 1, 3)), "16,0,0,0,0,1,1,1,1000000000000", "base 2^48", "base + bound is at most 2^48 (003)")
sheet("h-load-base-all-ones", program(hload(LBU, 10, 0, 1), r1=(ONES, 1, 3)), "16,0,0,0,0,1,1,1,0", "base 2^64 - 1: no wrap in the rule, wrap in the address",
      "The address is base + offset + i, modulo 2^64.")
LG = "Explicit large: base and bound are multiples of 65,536, bound is not 0, base + bound is at most 2^48."
sheet("h-load-large", program(hload(LD, 10, 0, 2047), ECALL, r1=(0, 0x10000, 9)), "18,1,4,0,0,0,0,0,0", "a large region at 0", LG)
sheet("h-load-large-bound-good", program(hload(LB, 10, 0, 0), r1=(0x10000, 0x10000, 0xb)), "17,0,0,0,0,0,0,0,0", "case J: good; the byte is absent",
      "J Large base `10000`: bound `10000` is good, `10001` is not.")
sheet("h-load-large-bound-odd", program(hload(LB, 10, 0, 0), r1=(0x10000, 0x10001, 0xb)), "16,0,0,0,0,1,1,1,10000", "case J: not good",
      "J Large base `10000`: bound `10000` is good, `10001` is not.")
sheet("h-load-large-base-odd", program(hload(LB, 10, 0, 0), r1=(0x8000, 0x10000, 0xb)), "16,0,0,0,0,1,1,1,8000", "base is no multiple", LG)
sheet("h-load-large-bound-zero", program(hload(LB, 10, 0, 0), r1=(0, 0, 0xb)), "16,0,0,0,0,1,1,1,0", "bound 0", LG)
sheet("h-load-large-across-a-multiple", program(hload(LB, 10, 0, 0), r1=(0xffff0000, 0x20000, 0xb)), "17,0,0,0,0,0,0,0,0",
      "a large region may cross a multiple of 2^32", LG)
sheet("h-load-large-whole", program(hload(LBU, 10, 0, 1), ECALL, r1=(0, 1 << 48, 9)), "18,1,4,0,0,0,0,0,0", "base + bound is 2^48", LG)
sheet("h-load-large-too-long", program(hload(LBU, 10, 0, 1), r1=(0x10000, 1 << 48, 9)), "16,0,0,0,0,1,1,1,10001", "base + bound is above 2^48", LG)
sheet("h-load-large-without-read", program(hload(LB, 10, 0, 0), r1=(0, 0x10000, 8)), "16,0,0,0,0,1,1,1,0", "the large bit alone grants nothing", HW)
sheet("h-store-large-read-only", program(hstore(SB, 10, 0, 0), r1=(0, 0x10000, 9)), "16,0,0,0,0,1,1,2,0", "no write in a large region", HW)
sheet("h-load-minus-one-large", program(hload(LB, 10, 0, -1), r1=(0x10000, 0x10000, 0xb)), "16,0,0,0,0,1,1,1,ffff", "offset -1 of a large region", HW)

# ---------------------------------------------------------------- offsets of h-words
section("Offsets of h-words: rs1 counts (document 02, Job 1)")
SUM = ("02, Job 1: the offset of an h-prefixed word is the unsigned value of rs1 plus the signed immediate, "
       "as a whole number that does not wrap")
PASS = "02, Job 1: byte i passes when offset + i is at least 0 and below the bound"
KEPT = "02, Job 1: With rule and permission as before"
PATH = "02, Job 1: each load and store path takes the wider offset"
FOUR_KIB = (0x2000, 0x1000, 3)      # 4,096 bytes, 2000 to 2fff
WHOLE = (0, 1 << 48, 0xb)
END_LINES = "2ff8,89abcdef\n2ffc,81234567\n"


def power(n): return [addi(7, 0, 1), slli(7, 7, n)]
def below_power(n): return [addi(7, 0, -1), srli(7, 7, 64 - n)]


def both(name, words, f3, imm, r1, first, shows, sentence):
    """An h-load of x10 and an h-store of x7, by x7; op is 1 or 2 where the first line says OP. With 16 bytes at 200 code is
    short; with a region that has code, regions are not locked (Job 5)."""
    how = {"r3": SHORT} if r1 == G else {"options": 0} if r1[0] == 0 else {}
    sheet("h-load-" + name, program(*words, hload(f3, 10, 7, imm), ECALL, r1=r1, **how), first.replace("OP", "1"), shows, sentence)
    sheet("h-store-" + name, program(*words, hstore(f3, 7, 7, imm), ECALL, r1=r1, **how), first.replace("OP", "2"), shows + ", a store", sentence)


sheet("h-load-rs1-adds", program(addi(7, 0, 0x700), hload(LBU, 10, 7, 0x200), ECALL, r1=(0x2000, 0x1000, 1), more="2900,000000a5\n"),
      "18,2,8,0,0,0,0,0,0", "700 and 200 make 900: byte 2,304 of 4,096", SUM)
sheet("h-store-rs1-adds", program(addi(7, 0, 0x700), addi(6, 0, 0x5a), hstore(SB, 6, 7, 0x200), lui(5, 2), addi(5, 5, 0x700), load(LBU, 11, 5, 0x200),
      ECALL, r1=(0x2000, 0x1000, 2), r2=(0x2000, mask(12), 1)), "18,6,18,0,0,0,0,0,0", "the same stored, seen by an ordinary load", SUM)
for name, f3, size in [("byte", 0, 1), ("half", 1, 2), ("word", 2, 4), ("double", 3, 8)]:
    sheet("h-load-rs1-last-" + name, program(lui(7, 1), hload(f3, 10, 7, -size), ECALL, r1=FOUR_KIB, more=END_LINES), "18,2,8,0,0,0,0,0,0",
          "the last %s of 4,096 bytes" % name, PASS)
    sheet("h-store-rs1-last-" + name, program(lui(7, 1), addi(6, 0, -1), hstore(f3, 6, 7, -size), hload(LD, 10, 7, -8), ECALL, r1=FOUR_KIB),
          "18,4,10,0,0,0,0,0,0", "the last %s of 4,096 bytes, read back" % name, PASS)
    both("rs1-%s-beyond" % name, [lui(7, 1)], f3, 1 - size, FOUR_KIB, "16,1,4,0,0,1,1,OP,3000", "one byte further", PASS)
sheet("h-load-rs1-past-4-kib", program(lui(7, 2), hload(LD, 10, 7, 0x100), ECALL, r1=(0x2000, 0x3000, 1), more="4100,89abcdef\n4104,81234567\n"),
      "18,2,8,0,0,0,0,0,0", "offset 2100 of 12,288 bytes", SUM)
sheet("h-store-rs1-past-4-kib", program(lui(7, 2), addi(6, 0, -2), hstore(SW, 6, 7, 0x100), hload(LD, 10, 7, 0xfe), ECALL, r1=(0x2000, 0x3000, 3)),
      "18,4,10,0,0,0,0,0,0", "the same stored, read back from two bytes before", SUM)
sheet("h-load-rs1-walk", program(lui(5, 1), hload(LD, 6, 7, 0), R(0x33, 0, 0, 10, 10, 6), addi(7, 7, 8), B(1, 7, 5, -12), hload(LD, 6, 7, 0),
      r1=FOUR_KIB, more="2000,00000001\n2ffc,00000002\n", budget=0x1000), "16,801,14,0,0,1,1,1,3000", "512 doublewords added up, then one too many", PATH)
sheet("h-store-rs1-walk", program(lui(5, 1), hstore(SD, 7, 7, 0), addi(7, 7, 8), B(1, 7, 5, -8), hstore(SD, 7, 7, 0), r1=FOUR_KIB, budget=0x1000),
      "16,601,10,0,0,1,1,2,3000", "512 doublewords stored, then one too many", PATH)
sheet("h-load-rs1-large-last-double", program(lui(7, 0x10), hload(LD, 10, 7, -8), ECALL, r1=(0, 0x10000, 9), more="fff8,89abcdef\nfffc,81234567\n"),
      "18,2,8,0,0,0,0,0,0", "the last double of a large region", PASS)
sheet("h-store-rs1-large-last-double", program(lui(7, 0x10), addi(6, 0, -1), hstore(SD, 6, 7, -8), hload(LD, 10, 7, -8), ECALL, options=0, r1=(0, 0x10000, 0xb)),
      "18,4,10,0,0,0,0,0,0", "the same stored, read back", PASS)
both("rs1-large-beyond", [lui(7, 0x10)], 3, -7, (0, 0x10000, 0xb), "16,1,4,0,0,1,1,OP,10000", "one byte further", PASS)
# large values
sheet("h-load-rs1-all-ones", program(addi(7, 0, -1), hload(LBU, 10, 7, 0), ECALL, r1=G, r3=SHORT), "16,1,4,0,0,1,1,1,1ff",
      "rs1 holds 2^64 - 1: refused at base + 2^64 - 1", SUM)
sheet("h-store-rs1-all-ones", program(addi(7, 0, -1), hstore(SB, 7, 7, 0), ECALL, r1=G, r3=SHORT), "16,1,4,0,0,1,1,2,1ff", "the same in a store", SUM)
both("rs1-all-ones-plus-1", [addi(7, 0, -1)], 0, 1, G, "16,1,4,0,0,1,1,OP,200", "2^64 is no offset of 0; the address is base", SUM)
both("sum-past-2-to-64", [addi(7, 0, -16)], 3, 20, G, "16,1,4,0,0,1,1,OP,204", "2^64 - 16 and 20", SUM)
both("double-over-2-to-64", [addi(7, 0, -4)], 3, 0, G, "16,1,4,0,0,1,1,OP,1fc", "offset 2^64 - 4: its last four bytes are not 0 to 3", SUM)
both("rs1-2-to-63", power(63), 0, 0, G, "16,2,8,0,0,1,1,OP,8000000000000200", "rs1 2^63", SUM)
both("rs1-2-to-62", power(62), 0, 0, G, "16,2,8,0,0,1,1,OP,4000000000000200", "rs1 2^62", SUM)
both("rs1-2-to-32-plus-8", power(32), 0, 8, G, "16,2,8,0,0,1,1,OP,100000208", "the whole register counts, not its low half", SUM)
both("rs1-2-to-48", power(48), 0, 0, WHOLE, "16,2,8,0,0,1,1,OP,1000000000000", "rs1 is the largest bound", PASS)
both("rs1-2-to-48-less-1", below_power(48), 0, 0, WHOLE, "17,2,8,0,0,0,0,0,0", "the last byte of the largest region: granted and absent", PASS)
both("double-over-2-to-48", below_power(48), 3, 0, WHOLE, "16,2,8,0,0,1,1,OP,1000000000000", "first byte absent, second refused: 16", PASS)
both("rs1-2-to-32", power(32), 0, 0, (0, 1 << 32, 3), "16,2,8,0,0,1,1,OP,100000000", "rs1 is the largest small bound", PASS)
both("rs1-2-to-32-less-1", below_power(32), 0, 0, (0, 1 << 32, 3), "17,2,8,0,0,0,0,0,0", "the last byte of the largest small region", PASS)
# immediates below 0
both("rs1-3-minus-5", [addi(7, 0, 3)], 3, -5, G, "16,1,4,0,0,1,1,OP,1fe", "offset -2: the first byte is refused, though later ones are inside", PASS)
sheet("h-load-rs1-5-minus-5", program(addi(7, 0, 5), hload(LHU, 10, 7, -5), ECALL, r1=G, r3=SHORT, more="200,0000a55a\n"), "18,2,8,0,0,0,0,0,0", "offset 0", SUM)
sheet("h-store-rs1-5-minus-5", program(addi(7, 0, 5), hstore(SW, 7, 7, -5), hload(LD, 10, 0, 0), ECALL, r1=G, r3=SHORT), "18,3,c,0,0,0,0,0,0",
      "offset 0, read back by x0", SUM)
sheet("h-load-rs1-2048-minus-2048", program(addi(7, 0, 2047), addi(7, 7, 1), hload(LBU, 10, 7, -2048), ECALL, r1=G, r3=SHORT, more="200,0000a55a\n"),
      "18,3,c,0,0,0,0,0,0", "offset 0 by the lowest immediate", SUM)
sheet("h-store-rs1-2048-minus-2048", program(addi(7, 0, 2047), addi(7, 7, 1), hstore(SD, 7, 7, -2048), hload(LD, 10, 0, 0), ECALL, r1=G, r3=SHORT),
      "18,4,10,0,0,0,0,0,0", "the same stored, read back by x0", SUM)
both("rs1-2047-minus-2048", [addi(7, 0, 2047)], 3, -2048, G, "16,1,4,0,0,1,1,OP,1ff", "offset -1 by the lowest immediate", PASS)
# registers
sheet("h-load-rd-is-rs1", program(addi(7, 0, 8), hload(LD, 7, 7, 0), ECALL, r1=G, r3=SHORT, more="208,00001234\n"), "18,2,8,0,0,0,0,0,0",
      "rd is rs1: the offset is of the old value", SUM)
sheet("h-load-rd-is-rs1-twice", program(addi(7, 0, 8), hload(LBU, 7, 7, 0), hload(LBU, 7, 7, 0), ECALL, r1=G, r3=SHORT, more="208,0000000c\n20c,0000005a\n"),
      "18,3,c,0,0,0,0,0,0", "what was loaded is the next offset", SUM)
sheet("h-load-rd-is-rs1-refused", program(addi(7, 0, 16), hload(LD, 7, 7, 0), r1=G, r3=SHORT), "16,1,4,0,0,1,1,1,210", "rd is rs1 and keeps its value", PASS)
sheet("h-store-rs2-is-rs1", program(addi(7, 0, 8), hstore(SD, 7, 7, 0), hload(LD, 10, 0, 8), ECALL, r1=G, r3=SHORT), "18,3,c,0,0,0,0,0,0",
      "the offset is what is stored", SUM)
sheet("h-load-rs1-x0", program(addi(0, 0, -1), hload(LBU, 10, 0, 0), ECALL, r1=G, r3=SHORT, more="200,0000a55a\n"), "18,2,8,0,0,0,0,0,0",
      "x0 is 0 after a write", "02, Job 1: Words with rs1 = x0 act as before.")
# rule, permission, memory
sheet("h-load-rs1-not-readable", program(addi(7, 0, 0x700), hload(LBU, 10, 7, 0x200), r1=(0x2000, 0x1000, 2)), "16,1,4,0,0,1,1,1,2900", "no read permission", KEPT)
sheet("h-store-rs1-not-writable", program(addi(7, 0, 0x700), hstore(SB, 7, 7, 0x200), r1=(0x2000, 0x1000, 1)), "16,1,4,0,0,1,1,2,2900", "no write permission", KEPT)
both("rs1-base-all-ones", [addi(7, 0, 3)], 0, -1, (ONES, 1, 3), "16,1,4,0,0,1,1,OP,1", "a broken region; the address wraps", KEPT)
both("rs1-past-memory", [lui(7, 1)], 0, 0, (0xf000, 0x2000, 3), "17,1,4,0,0,0,0,0,0", "the first byte past memory", PATH)
both("rs1-over-memory-end", [lui(7, 1)], 3, -4, (0xf000, 0x2000, 3), "17,1,4,0,0,0,0,0,0", "its last four bytes are absent", PATH)
both("rs1-sixteen-first", [lui(7, 1)], 3, -1, (0xf000, 0x1004, 3), "16,1,4,0,0,1,1,OP,10004", "second byte absent, sixth refused: 16", PATH)

# ---------------------------------------------------------------- 17
section("Stop 17: granted and absent")
Q11 = "11. Are they in memory? No: **17**."
sheet("load-past-memory", program(lui(5, 0x10), load(LB, 10, 5, 0), r2=(0x10000, mask(16), 3)), "17,1,4,0,0,0,0,0,0", "the first byte past memory", Q11)
sheet("load-over-memory-end", program(lui(5, 0x10), load(LD, 10, 5, -4), r2=(0, mask(17), 1)), "17,1,4,0,0,0,0,0,0", "its last four bytes are absent", Q11)
sheet("load-last-double", program(lui(5, 0x10), load(LD, 10, 5, -8), ECALL, r2=(0, mask(17), 1)), "18,2,8,0,0,0,0,0,0", "the last eight bytes", Q11)
sheet("store-over-memory-end", program(lui(5, 0x10), store(SW, 5, 5, -1), options=0, r2=(0, mask(17), 3)), "17,1,4,0,0,0,0,0,0", "nothing of it is stored", Q11)
sheet("h-load-over-memory-end", program(hload(LW, 10, 0, 6), r1=(0xfff8, 0x10, 3)), "17,0,0,0,0,0,0,0,0", "an h-load over the end", Q11)
sheet("h-store-past-memory", program(hstore(SB, 0, 0, 8), r1=(0xfff8, 0x10, 3)), "17,0,0,0,0,0,0,0,0", "an h-store past the end", Q11)
sheet("load-into-x0-absent", program(lui(5, 0x10), load(LB, 0, 5, 0), r2=(0x10000, mask(16), 3)), "17,1,4,0,0,0,0,0,0", "a load into x0 asks too", Q11)
sheet("sixteen-before-seventeen", program(lui(5, 0x20), load(LD, 10, 5, -4), r2=(0x10000, mask(16), 3)), "16,1,4,0,0,1,0,1,20000",
      "first byte absent, fifth refused: 16", "10. Is every data byte granted? ... 11. Are they in memory?")

# ---------------------------------------------------------------- 18, 19, 20
section("Stops 18, 19 and 20")
sheet("ecall", program(addi(10, 0, 7), ECALL), "18,1,4,0,0,0,0,0,0", "ECALL, not redirected", "12. Is it anything but an ECALL that is not redirected? No: **18**.")
sheet("ecall-exits-redirected-only", program(ECALL, options=5, handler=0x80), "18,0,0,0,0,0,0,0,0", "option bit 2 does not redirect calls",
      "Options: bit 0 lock regions, bit 1 redirect system calls, bit 2 redirect exits")
sheet("ecall-redirected", program(NOP, ECALL, options=3, handler=0x80), "20,2,80,2,4,0,0,0,0", "ECALL with option bit 1",
      "ECALL in HFI mode with bit 1 set: mode 0, reason 2, exit pc is this pc, pc is the handler.")
sheet("ecall-redirected-to-0", program(NOP, ECALL, options=2), "20,2,0,2,4,0,0,0,0", "the handler may be 0", "pc is the handler")
sheet("ebreak", program(addi(10, 0, 7), EBREAK, options=15), "19,1,4,0,0,0,0,0,0", "EBREAK, all options set", "13. Is it anything but EBREAK? No: **19**.")
sheet("exit", program(addi(10, 0, 7), EXIT, options=3, handler=0x80), "20,2,8,1,4,0,0,0,0", "exit goes on at pc + 4", "else pc + 4")
sheet("exit-redirected", program(addi(10, 0, 7), EXIT, options=5, handler=0x80), "20,2,80,1,4,0,0,0,0", "exit with option bit 2",
      "then pc is the handler if exits are redirected, else pc + 4")
sheet("exit-redirected-far", program(EXIT, options=4, handler=0x3ffffffffffffffc), "20,1,3ffffffffffffffc,1,0,0,0,0,0",
      "a handler outside memory and regions: nothing is asked of it", "then pc is the handler if exits are redirected")
sheet("exit-first-word", program(EXIT, budget=1), "20,1,4,1,0,0,0,0,0", "the run's only step leaves", "20 counts its step.")
sheet("exit-at-high-pc", program(EXIT, pc=0xfffc, at=0xfffc, r3=(0, mask(16), 4)), "20,1,10000,1,fffc,0,0,0,0", "pc + 4 is past memory; the run ends before a fetch",
      "After a step of a run that began in HFI mode: is the mode still on? No: **20**.")
sheet("serialize-option", program(EXIT, options=9), "20,1,4,1,0,0,0,0,0", "option bit 3 has no effect", "Bit 3 is kept and has no effect on single steps.")
sheet("whole-example", "0,5,100,200,10,3,0,0,0,0,fffffffffffffff0,4,a\n0,00500513\n4,00a001ab\n8,0400005b\n", "20,3,100,1,8,0,0,0,0",
      "the example of document 01", "Whole example")

# ---------------------------------------------------------------- instruction groups
section("Instruction groups")
ISA = "All of RV64I; 32-bit words, little-endian."
sheet("group-register", program(
    addi(5, 0, -7), addi(6, 0, 3), R(0x33, 0, 0, 10, 5, 6), R(0x33, 0, 32, 11, 5, 6), R(0x33, 1, 0, 12, 5, 6), R(0x33, 2, 0, 13, 5, 6),
    R(0x33, 3, 0, 14, 5, 6), R(0x33, 4, 0, 15, 5, 6), R(0x33, 5, 0, 16, 5, 6), R(0x33, 5, 32, 17, 5, 6), R(0x33, 6, 0, 18, 5, 6),
    R(0x33, 7, 0, 19, 5, 6), ECALL), "18,c,30,0,0,0,0,0,0", "ADD SUB SLL SLT SLTU XOR SRL SRA OR AND of -7 and 3", ISA)
sheet("group-register-word", program(
    lui(5, 0x80000), addi(5, 5, 1), slli(6, 5, 1), addi(7, 0, 35), R(0x3b, 0, 0, 10, 5, 5), R(0x3b, 0, 32, 11, 0, 5), R(0x3b, 1, 0, 12, 5, 7),
    R(0x3b, 5, 0, 13, 5, 7), R(0x3b, 5, 32, 14, 5, 7), R(0x3b, 5, 0, 15, 5, 0), ECALL), "18,a,28,0,0,0,0,0,0", "ADDW SUBW SLLW SRLW SRAW, amounts modulo 32", ISA)
sheet("group-immediate", program(
    addi(5, 0, -5), I(0x13, 2, 10, 5, -4), I(0x13, 3, 11, 5, -4), I(0x13, 4, 12, 5, -1), I(0x13, 6, 13, 5, 2047), I(0x13, 7, 14, 5, 0xff),
    I(0x1b, 0, 15, 5, 5), I(0x1b, 0, 16, 5, 6), ECALL), "18,8,20,0,0,0,0,0,0", "ADDI SLTI SLTIU XORI ORI ANDI ADDIW", ISA)
sheet("group-shift", program(
    addi(5, 0, -16), I(0x13, 1, 10, 5, 60), I(0x13, 5, 11, 5, 60), I(0x13, 5, 12, 5, 0x400 | 3), I(0x1b, 1, 13, 5, 27), I(0x1b, 5, 14, 5, 4),
    I(0x1b, 5, 15, 5, 0x400 | 4), I(0x1b, 5, 16, 5, 0), ECALL), "18,8,20,0,0,0,0,0,0", "SLLI SRLI SRAI SLLIW SRLIW SRAIW", ISA)
sheet("group-addiw-case-l", program(lui(5, 0x80000), addi(6, 0, -1), srli(6, 6, 33), I(0x1b, 0, 10, 6, 1), ECALL), "18,4,10,0,0,0,0,0,0",
      "case L: ADDIW of 7fffffff and 1", "L ADDIW of `7fffffff` and 1 gives `ffffffff80000000`.")
sheet("group-upper", program(lui(5, 0x12345), lui(6, 0x80000), U(0x17, 7, 0), U(0x17, 8, 0xfffff), U(0x17, 9, 0x7ffff), lui(0, 1), ECALL),
      "18,6,18,0,0,0,0,0,0", "LUI and AUIPC", ISA)
sheet("group-jump", program(J(1, 12), NOP, ECALL, J(5, 8), NOP, U(0x17, 6, 0), jalr(7, 6, -12)), "18,4,8,0,0,0,0,0,0",
      "JAL forward twice, JALR back", ISA)
sheet("group-branch-taken", program(
    addi(5, 0, -1), addi(6, 0, 1), B(0, 5, 5, 8), ECALL, B(1, 5, 6, 8), ECALL, B(4, 5, 6, 8), ECALL, B(5, 6, 5, 8), ECALL, B(6, 6, 5, 8), ECALL,
    B(7, 5, 6, 8), EBREAK, ECALL), "18,8,38,0,0,0,0,0,0", "BEQ BNE BLT BGE BLTU BGEU, each taken", ISA)
sheet("group-branch-not-taken", program(
    addi(5, 0, -1), addi(6, 0, 1), B(0, 5, 6, 32), B(1, 5, 5, 32), B(4, 6, 5, 32), B(5, 5, 6, 32), B(6, 5, 6, 32), B(7, 6, 5, 32), ECALL),
    "18,8,20,0,0,0,0,0,0", "each not taken", ISA)
sheet("group-branch-back", program(addi(5, 0, 5), addi(6, 6, 2), addi(5, 5, -1), B(1, 5, 0, -8), ECALL), "18,10,10,0,0,0,0,0,0",
      "a loop of five rounds", ISA)
DATA_LINES = "1000,b5a69788\n1004,f1e2d3c4\n"
sheet("group-load", program(
    P1000, load(LB, 10, 5, 0), load(LBU, 11, 5, 0), load(LH, 12, 5, 0), load(LHU, 13, 5, 0), load(LW, 14, 5, 0), load(LWU, 15, 5, 0),
    load(LD, 16, 5, 0), load(LW, 17, 5, 3), load(LD, 18, 5, 1), ECALL, r2=DATA, more=DATA_LINES), "18,a,28,0,0,0,0,0,0",
    "LB LBU LH LHU LW LWU LD, and misaligned ones", "Misaligned data is allowed.")
sheet("group-store", program(
    P1000, addi(6, 0, -2), store(SD, 6, 5, 0), store(SB, 5, 5, 1), store(SH, 0, 5, 3), store(SW, 0, 5, 8), load(LD, 10, 5, 0), load(LD, 11, 5, 5),
    ECALL, r2=DATA), "18,8,20,0,0,0,0,0,0", "SB SH SW SD, read back", "Misaligned data is allowed.")
sheet("group-h-load", program(
    hload(LB, 10, 0, 0), hload(LBU, 11, 0, 0), hload(LH, 12, 0, 0), hload(LHU, 13, 0, 0), hload(LW, 14, 0, 0), hload(LWU, 15, 0, 0), hload(LD, 8, 0, 0),
    hload(LW, 9, 0, 3), hload(LB, 0, 0, 0), ECALL, r1=(0x1000, 8, 1), more=DATA_LINES), "18,9,24,0,0,0,0,0,0", "hlb hlbu hlh hlhu hlw hlwu hld",
    "funct3 0 to 6 for hlb, hlh, hlw, hld, hlbu, hlhu, hlwu")
sheet("group-h-store", program(
    addi(6, 0, -2), hstore(SD, 6, 0, 0), hstore(SB, 0, 0, 1), hstore(SH, 0, 0, 3), hstore(SW, 0, 0, 8), hload(LD, 10, 0, 0), hload(LD, 11, 0, 5),
    ECALL, r1=(0x1000, 16, 3)), "18,7,1c,0,0,0,0,0,0", "hsb hsh hsw hsd, read back", "funct3 0 to 3 for hsb, hsh, hsw, hsd")
sheet("group-h-load-rs1", program(
    lui(7, 1), hload(LB, 10, 7, 0), hload(LBU, 11, 7, 0), hload(LH, 12, 7, 0), hload(LHU, 13, 7, 0), hload(LW, 14, 7, 0), hload(LWU, 15, 7, 0),
    hload(LD, 8, 7, 0), hload(LW, 9, 7, 3), hload(LB, 0, 7, 0), ECALL, r1=(0, 0x1008, 1), more=DATA_LINES), "18,a,28,0,0,0,0,0,0",
    "the seven by an rs1 of 4,096", PATH)
sheet("group-h-store-rs1", program(
    lui(7, 1), addi(6, 0, -2), hstore(SD, 6, 7, 0), hstore(SB, 0, 7, 1), hstore(SH, 0, 7, 3), hstore(SW, 0, 7, 8), hload(LD, 10, 7, 0),
    hload(LD, 11, 7, 5), ECALL, r1=(0x100, 0x1010, 3), r3=SHORT), "18,8,20,0,0,0,0,0,0", "the four by an rs1 of 4,096, read back", PATH)
sheet("group-h-store-case-b", program(addi(10, 0, 0x5a), 0x00a001ab, P1000, load(LBU, 11, 5, 3), ECALL, r1=(0x1000, 16, 2), r2=(0x1000, mask(4), 1)),
      "18,4,10,0,0,0,0,0,0", "case B: hsb x10 at 3, seen by an ordinary load", "B `00a001ab` is hsb x10 at 3.")
sheet("group-fence", program(0x0ff0000f, 0x8330000f, 0x0100000f, 0xffff8f8f, 0x0000000f, ECALL), "18,5,14,0,0,0,0,0,0",
      "FENCE, FENCE.TSO, PAUSE, all spare bits set, all clear", "FENCE carries its spare fields and does nothing.")
sheet("group-hints", program(addi(0, 0, 5), lui(0, 5), R(0x33, 0, 0, 0, 0, 0), slli(0, 0, 3), U(0x17, 0, 1), ECALL), "18,5,14,0,0,0,0,0,0",
      "writes to x0 are lost", ISA)
sheet("registers-all", program(*[addi(n, 0, n) for n in range(1, 32)], ECALL), "18,1f,7c,0,0,0,0,0,0", "31 register lines in rising order",
      "then each non-zero register, rising, as number (decimal), value")
sheet("registers-none", program(addi(5, 0, 1), addi(5, 0, 0), ECALL), "18,2,8,0,0,0,0,0,0", "no register line", "then each non-zero register")
sheet("registers-negative", program(addi(31, 0, -1), addi(1, 0, -2048), ECALL), "18,2,8,0,0,0,0,0,0", "values of 16 digits", "All else is hexadecimal without leading zeros.")
sheet("pc-sum-wraps", program(lui(5, 0), jalr(1, 5, -4)), "11,2,fffffffffffffffc,0,0,1,0,3,fffffffffffffffc", "0 - 4 wraps",
      "Sums of addresses and registers are taken modulo 2^64.")
CHANGES = [lui(5, 0x500), I(0x13, 0, 5, 5, 0x513), store(SW, 5, 0, 16), NOP, EBREAK, ECALL]
sheet("code-changes-itself", program(*CHANGES, options=0, r2=(0, mask(12), 3)),
      "18,5,14,0,0,0,0,0,0", "a stored word is run (unlocked, readable and writable code)", "Is the word legal?")


# ---------------------------------------------------------------- RV64M
section("Multiplying and dividing (document 02, Job 2)")
ADD_M = "02, Job 2: Add RV64M from the unprivileged specification: the eight 64-bit operations and the five word ones."
BY_ZERO = "02, Job 2: Division by zero gives all ones as quotient and the dividend as remainder."
OVERFLOW = "02, Job 2: The most negative number divided by -1 gives itself, with remainder 0."
HIGH = "02, Job 2: The high half of a product is exact for signed, unsigned and mixed operands"
WORDS = "02, Job 2: Word forms should share the facts of the 64-bit ones"
LEGAL = "02, Job 2: These words are no longer stopped with 13."
A51 = BY_ZERO + " (Reading A51: of a word form the low 32 bits, sign extended, and 64 ones.)"
LEAST, LEAST_WORD = 1 << 63, 0xffffffff80000000
M_OPS = {"mul": (0x33, 0), "mulh": (0x33, 1), "mulhsu": (0x33, 2), "mulhu": (0x33, 3), "div": (0x33, 4), "divu": (0x33, 5),
         "rem": (0x33, 6), "remu": (0x33, 7), "mulw": (0x3b, 0), "divw": (0x3b, 4), "divuw": (0x3b, 5), "remw": (0x3b, 6),
         "remuw": (0x3b, 7)}


def m(name, rd, rs1, rs2):
    op, f3 = M_OPS[name]
    return R(op, f3, 1, rd, rs1, rs2)


def m_sheet(name, content, first, shows, sentence, values):
    """A sheet whose registers were worked out by hand too; those not named are 0."""
    registers[name] = {n: v & ONES for n, v in values.items() if v}
    sheet(name, content, first, shows, sentence)


def doubles(*values):
    """Lines of doublewords from 1000 on."""
    return "".join("%x,%08x\n%x,%08x\n" % (0x1000 + 8 * i, v & 0xffffffff, 0x1004 + 8 * i, v >> 32 & 0xffffffff)
                   for i, v in enumerate(values))


def with_operands(operands, *words, **how):
    """x5, x6 and so on are doublewords from 1000 on, x8 is 1000."""
    loads = [load(LD, 5 + i, 8, 8 * i) for i in range(len(operands))]
    return program(lui(8, 1), *loads, *words, ECALL, r2=DATA, more=doubles(*operands), **how)


# Eight pairs each and what comes of them.
CASES = {
    "mul": [(6, 7, 42), (-6, 7, -42), (-6, -7, 42), (0, -1, 0), (1 << 32, 1 << 32, 0), (LEAST, 2, 0), (-1, -1, 1),
            (0x123456789, 16, 0x1234567890)],
    "mulh": [(6, 7, 0), (-6, 7, -1), (-6, -7, 0), (1 << 32, 1 << 32, 1), (LEAST, 2, -1), (LEAST, LEAST, 1 << 62), (-1, -1, 0),
             (LEAST, LEAST - 1, 3 << 62)],
    "mulhsu": [(6, 7, 0), (-6, 7, -1), (6, -7, 5), (-6, -7, -6), (-1, -1, -1), (LEAST, 2, -1), (2, LEAST, 1), (LEAST, -1, LEAST)],
    "mulhu": [(6, 7, 0), (-6, 7, 6), (6, -7, 5), (-6, -7, -13), (-1, -1, -2), (LEAST, 2, 1), (LEAST, LEAST, 1 << 62),
              (1 << 32, 1 << 32, 1)],
    "div": [(7, 2, 3), (-7, 2, -3), (7, -2, -3), (-7, -2, 3), (7, 0, -1), (LEAST, -1, LEAST), (6, 7, 0),
            (LEAST, 3, -0x2aaaaaaaaaaaaaaa)],
    "divu": [(7, 2, 3), (-7, 2, 0x7ffffffffffffffc), (7, -2, 0), (-7, -2, 0), (7, 0, -1), (LEAST, -1, 0), (-1, 1, -1),
             (-1, 10, 0x1999999999999999)],
    "rem": [(7, 2, 1), (-7, 2, -1), (7, -2, 1), (-7, -2, -1), (7, 0, 7), (LEAST, -1, 0), (6, 7, 6), (LEAST, 3, -2)],
    "remu": [(7, 2, 1), (-7, 2, 1), (7, -2, 7), (-7, -2, -7), (7, 0, 7), (LEAST, -1, LEAST), (-7, 0, -7), (-1, 10, 5)],
    "mulw": [(6, 7, 42), (-6, 7, -42), (-6, -7, 42), (0x10000, 0x8000, LEAST_WORD), (0x10000, 0x10000, 0),
             (0x80000000, -1, LEAST_WORD), (0x500000003, 0x7777777700000005, 15), (0xffffffff, 0xffffffff, 1)],
    "divw": [(7, 2, 3), (-7, 2, -3), (7, -2, -3), (-7, -2, 3), (7, 1 << 32, -1), (0x80000000, 0xffffffff, LEAST_WORD),
             (0xabcd000000000007, 2, 3), (0x80000000, 3, -0x2aaaaaaa)],
    "divuw": [(7, 2, 3), (-7, 2, 0x7ffffffc), (7, -2, 0), (0xffffffff, 1, -1), (7, 0, -1), (7, 1 << 32, -1),
              (0x80000000, 0xffffffff, 0), (0x1ffffffff, 10, 0x19999999)],
    "remw": [(7, 2, 1), (-7, 2, -1), (7, -2, 1), (-7, -2, -1), (0x180000005, 1 << 32, LEAST_WORD + 5), (0x80000000, 0xffffffff, 0),
             (0xabcd000000000007, 2, 1), (0x80000000, 3, -2)],
    "remuw": [(7, 2, 1), (-7, 2, 1), (7, -2, 7), (-7, -2, -7), (0x180000005, 0, LEAST_WORD + 5), (0x80000005, 1 << 32, LEAST_WORD + 5),
              (0x80000000, 0xffffffff, LEAST_WORD), (0x1ffffffff, 10, 5)],
}
for name, cases in CASES.items():
    words, values = [lui(8, 1)], {8: 0x1000, 5: cases[7][0], 6: cases[7][1]}
    for k, (a, b, result) in enumerate(cases):
        words += [load(LD, 5, 8, 16 * k), load(LD, 6, 8, 16 * k + 8), m(name, 10 + k, 5, 6)]
        values[10 + k] = result
    shows = "x10 to x17: " + "; ".join("%x, %x: %x" % tuple(v & ONES for v in case) for case in cases)
    more = doubles(*[v for a, b, _ in cases for v in (a, b)])
    for mode, options in (("locked", 1), ("unlocked", 0)):
        m_sheet("%s-%s" % (name, mode), program(*words, ECALL, options=options, r2=DATA, more=more), "18,19,64,0,0,0,0,0,0",
                shows + ", " + mode, ADD_M, values)

sheet("legal-multiply", program(NOP, 0x02b50533), "13,2,8,0,0,0,0,0,0", "MUL passes; the zero word after it is illegal", LEGAL)
sheet("legal-divide-word", program(NOP, 0x02b5453b), "13,2,8,0,0,0,0,0,0", "DIVW passes; the zero word after it is illegal", LEGAL)
m_sheet("divide-by-zero-quotient", program(addi(5, 0, 5), m("div", 10, 5, 0), m("divu", 11, 5, 0), m("divw", 12, 5, 0), m("divuw", 13, 5, 0), ECALL),
        "18,5,14,0,0,0,0,0,0", "5 divided by zero: 64 ones from all four", BY_ZERO, {5: 5, 10: -1, 11: -1, 12: -1, 13: -1})
m_sheet("divide-by-zero-remainder", program(addi(5, 0, 5), m("rem", 10, 5, 0), m("remu", 11, 5, 0), m("remw", 12, 5, 0), m("remuw", 13, 5, 0), ECALL),
        "18,5,14,0,0,0,0,0,0", "5 divided by zero leaves 5 in all four", BY_ZERO, {5: 5, 10: 5, 11: 5, 12: 5, 13: 5})
m_sheet("divide-by-zero-negative", program(addi(5, 0, -5), *[m(n, 10 + i, 5, 0) for i, n in enumerate(["div", "divu", "rem", "remu", "divw", "divuw", "remw", "remuw"])],
        ECALL), "18,9,24,0,0,0,0,0,0", "-5 divided by zero: ones, and -5", BY_ZERO, {5: -5, 10: -1, 11: -1, 12: -5, 13: -5, 14: -1, 15: -1, 16: -5, 17: -5})
m_sheet("divide-zero-by-zero", program(*[m(n, 10 + i, 0, 0) for i, n in enumerate(["div", "divu", "rem", "remu", "divw", "divuw", "remw", "remuw"])], ECALL),
        "18,8,20,0,0,0,0,0,0", "x0 divided by x0: ones, and 0", BY_ZERO, {10: -1, 11: -1, 14: -1, 15: -1})
m_sheet("divide-by-zero-word-remainder", with_operands([0x1234567880000005], m("remw", 10, 5, 0), m("remuw", 11, 5, 0), m("rem", 12, 5, 0), m("remu", 13, 5, 0)),
        "18,6,18,0,0,0,0,0,0", "the low word 80000005 sign extended, signed or not; the 64-bit forms leave all of it", A51,
        {5: 0x1234567880000005, 8: 0x1000, 10: LEAST_WORD + 5, 11: LEAST_WORD + 5, 12: 0x1234567880000005, 13: 0x1234567880000005})
m_sheet("divide-by-zero-low-word", with_operands([0x700000009, 1 << 32], m("divw", 10, 5, 6), m("divuw", 11, 5, 6), m("remw", 12, 5, 6), m("remuw", 13, 5, 6),
        m("div", 14, 5, 6), m("remu", 15, 5, 6)), "18,9,24,0,0,0,0,0,0", "a divisor of 2^32 is zero to a word form only", A51,
        {5: 0x700000009, 6: 1 << 32, 8: 0x1000, 10: -1, 11: -1, 12: 9, 13: 9, 14: 7, 15: 9})
m_sheet("divide-overflow", program(addi(5, 0, 1), slli(5, 5, 63), addi(6, 0, -1), m("div", 10, 5, 6), m("rem", 11, 5, 6), m("divu", 12, 5, 6), m("remu", 13, 5, 6),
        ECALL), "18,7,1c,0,0,0,0,0,0", "-2^63 divided by -1; unsigned it is the smaller number", OVERFLOW, {5: LEAST, 6: -1, 10: LEAST, 13: LEAST})
m_sheet("divide-overflow-word", program(lui(5, 0x80000), addi(6, 0, -1), m("divw", 10, 5, 6), m("remw", 11, 5, 6), m("div", 12, 5, 6), m("divuw", 13, 5, 6),
        m("remuw", 14, 5, 6), ECALL), "18,7,1c,0,0,0,0,0,0", "-2^31 divided by -1; DIV has room for 2^31", OVERFLOW,
        {5: LEAST_WORD, 6: -1, 10: LEAST_WORD, 12: 0x80000000, 14: LEAST_WORD})
m_sheet("divide-overflow-word-upper-half", with_operands([0x1234567880000000, 0x9abcdef0ffffffff], m("divw", 10, 5, 6), m("remw", 11, 5, 6), m("rem", 12, 5, 6)),
        "18,6,18,0,0,0,0,0,0", "the same below other upper halves", OVERFLOW,
        {5: 0x1234567880000000, 6: 0x9abcdef0ffffffff, 8: 0x1000, 10: LEAST_WORD, 12: 0x1234567880000000})
m_sheet("divide-least-by-one", program(addi(5, 0, 1), slli(5, 5, 63), addi(6, 0, 1), m("div", 10, 5, 6), m("rem", 11, 5, 6), ECALL),
        "18,5,14,0,0,0,0,0,0", "-2^63 divided by 1 is itself too", ADD_M, {5: LEAST, 6: 1, 10: LEAST})
m_sheet("divide-rounds-toward-zero", program(addi(5, 0, -1), addi(6, 0, 2), m("div", 10, 5, 6), m("rem", 11, 5, 6), m("divw", 12, 5, 6), m("remw", 13, 5, 6),
        ECALL), "18,6,18,0,0,0,0,0,0", "-1 by 2 is 0, and -1 remains", ADD_M, {5: -1, 6: 2, 11: -1, 13: -1})
m_sheet("high-half-three-readings", program(addi(5, 0, -1), m("mulh", 10, 5, 5), m("mulhsu", 11, 5, 5), m("mulhu", 12, 5, 5), m("mul", 13, 5, 5), ECALL),
        "18,5,14,0,0,0,0,0,0", "ones by ones: 0, -1, -2, and 1 below each", HIGH, {5: -1, 11: -1, 12: -2, 13: 1})
m_sheet("high-half-mixed-not-symmetric", program(addi(5, 0, -3), addi(6, 0, 5), m("mulhsu", 10, 5, 6), m("mulhsu", 11, 6, 5), ECALL),
        "18,4,10,0,0,0,0,0,0", "-3 by 5 is -1; 5 by 2^64 - 3 is 4", HIGH, {5: -3, 6: 5, 10: -1, 11: 4})
m_sheet("high-half-carry", with_operands([0x1ffffffff], m("mulhu", 10, 5, 5), m("mul", 11, 5, 5), m("mulh", 12, 5, 5), m("mulhsu", 13, 5, 5)),
        "18,6,18,0,0,0,0,0,0", "(2^33 - 1)^2 is 2^66 - 2^34 + 1: the middle products carry", HIGH,
        {5: 0x1ffffffff, 8: 0x1000, 10: 3, 11: 0xfffffffc00000001, 12: 3, 13: 3})
m_sheet("high-half-largest", with_operands([LEAST - 1, LEAST], m("mulh", 10, 5, 5), m("mulh", 11, 6, 6), m("mulh", 12, 5, 6), m("mulhsu", 13, 6, 5), m("mulhu", 14, 6, 6)),
        "18,8,20,0,0,0,0,0,0", "2^63 - 1 and -2^63 with themselves and each other", HIGH,
        {5: LEAST - 1, 6: LEAST, 8: 0x1000, 10: 0x3fffffffffffffff, 11: 1 << 62, 12: 3 << 62, 13: 3 << 62, 14: 1 << 62})
m_sheet("word-forms-upper-halves", with_operands([0xdeadbeef00000014, 0x0badcafefffffffa], *[m(n, 10 + i, 5, 6) for i, n in enumerate(
        ["mulw", "divw", "remw", "divuw", "remuw"])]), "18,8,20,0,0,0,0,0,0", "20 and -6 below other upper halves", WORDS,
        {5: 0xdeadbeef00000014, 6: 0x0badcafefffffffa, 8: 0x1000, 10: -120, 11: -3, 12: 2, 14: 20})
sheet("word-forms-as-64-bit-forms", with_operands(
    [0x7654321080000001, 0xfffffffd], I(0x1b, 0, 10, 5, 0), I(0x1b, 0, 11, 6, 0), m("divw", 12, 5, 6), m("div", 13, 10, 11), B(1, 12, 13, 20),
    m("remw", 14, 5, 6), m("rem", 15, 10, 11), B(1, 14, 15, 8), J(0, 8), EBREAK), "18,c,34,0,0,0,0,0,0",
    "DIVW and REMW are DIV and REM of the words sign extended", WORDS)
sheet("divide-parts-make-the-whole", with_operands(
    [-7 & ONES, 2], m("div", 10, 5, 6), m("rem", 11, 5, 6), m("mul", 12, 10, 6), R(0x33, 0, 0, 12, 12, 11), B(0, 12, 5, 8), EBREAK),
    "18,8,24,0,0,0,0,0,0", "quotient by divisor and remainder are the dividend", ADD_M)
m_sheet("multiply-into-x0", program(addi(5, 0, 3), m("mul", 0, 5, 5), m("mulhu", 0, 5, 5), m("mulw", 0, 5, 5), ECALL), "18,4,10,0,0,0,0,0,0",
        "products for x0 are lost", ADD_M, {5: 3})
m_sheet("divide-into-x0", program(addi(5, 0, 3), m("div", 0, 5, 0), m("remu", 0, 5, 0), m("divuw", 0, 5, 5), ECALL), "18,4,10,0,0,0,0,0,0",
        "quotients for x0 are lost, those by zero too", ADD_M, {5: 3})
m_sheet("multiply-rd-is-rs1", program(addi(5, 0, 3), addi(6, 0, 4), m("mul", 5, 5, 6), m("mul", 5, 5, 6), ECALL), "18,4,10,0,0,0,0,0,0", "3 by 4 by 4",
        ADD_M, {5: 48, 6: 4})
m_sheet("divide-rd-is-rs2", program(addi(5, 0, 100), addi(6, 0, 7), m("div", 6, 5, 6), m("rem", 6, 5, 6), ECALL), "18,4,10,0,0,0,0,0,0",
        "100 by 7 is 14; 100 by that leaves 2", ADD_M, {5: 100, 6: 2})
m_sheet("multiply-one-register", program(addi(5, 0, 3), m("mul", 5, 5, 5), m("mul", 5, 5, 5), m("divu", 5, 5, 5), m("remw", 5, 5, 5), ECALL),
        "18,5,14,0,0,0,0,0,0", "3, 9, 81, 1, 0", ADD_M, {})
m_sheet("multiply-every-register", program(addi(1, 0, 3), *[m("mul", n, n - 1, 1) for n in range(2, 32)], ECALL), "18,1f,7c,0,0,0,0,0,0",
        "powers of 3 in x1 to x31", ADD_M, {n: 3 ** n for n in range(1, 32)})
m_sheet("multiply-then-exit", program(addi(5, 0, 6), addi(6, 0, 7), m("mul", 10, 5, 6), EXIT, options=5, handler=0x100), "20,4,100,1,c,0,0,0,0",
        "locked, exits redirected", ADD_M, {5: 6, 6: 7, 10: 42})
m_sheet("divide-then-refused", program(addi(5, 0, 100), addi(6, 0, 7), m("divu", 10, 5, 6), load(LB, 11, 10, 0)), "16,3,c,0,0,1,0,1,e",
        "a quotient as an address", ADD_M, {5: 100, 6: 7, 10: 14})
m_sheet("multiply-as-offset", program(addi(5, 0, 0x80), addi(6, 0, 0x20), m("mul", 7, 5, 6), hload(LD, 10, 7, -8), hload(LD, 11, 7, -7), r1=FOUR_KIB, more=END_LINES),
        "16,4,10,0,0,1,1,1,3000", "a product as the offset of an h-load", ADD_M, {5: 0x80, 6: 0x20, 7: 0x1000, 10: 0x8123456789abcdef})
sheet("multiply-not-executable", program(NOP, m("mul", 10, 5, 6), r3=(0, mask(2), 4)), "11,1,4,0,0,1,0,3,4", "11 as for any word", LEGAL)
sheet("multiply-half-executable", program(m("mul", 10, 5, 6), r3=(0, mask(1), 4)), "11,0,0,0,0,1,0,3,2", "its third byte is refused", LEGAL)
sheet("divide-pc-2", program(m("div", 10, 5, 6), m("div", 10, 5, 6), pc=2), "13,2,8,0,0,0,0,0,0", "the upper half is C.SLLI x4, 24; then the second word divides", Q4)
registers["divide-pc-2"] = {10: ONES}
sheet("divide-pc-3", program(m("div", 10, 5, 6), m("div", 10, 5, 6), pc=3), "10,0,3,0,0,0,0,0,0", "10 as for any word", LEGAL)
sheet("divide-last-word", program(m("div", 10, 5, 6), pc=0xfffc, at=0xfffc, r3=(0, mask(17), 4)), "12,1,10000,0,0,0,0,0,0",
      "it runs, the next word is absent", LEGAL)
sheet("multiply-budget-used-up", program(addi(5, 0, 3), m("mul", 5, 5, 5), m("mul", 5, 5, 5), budget=2), "21,2,8,0,0,0,0,0,0", "a step each", ADD_M)
m_sheet("factorial-of-20", program(addi(10, 0, 1), addi(5, 0, 20), m("mul", 10, 10, 5), addi(5, 5, -1), B(1, 5, 0, -8), ECALL),
        "18,3e,14,0,0,0,0,0,0", "2432902008176640000, the largest that fits", ADD_M, {10: 2432902008176640000})
m_sheet("greatest-common-divisor", program(addi(5, 0, 1071), addi(6, 0, 462), m("remu", 7, 5, 6), addi(5, 6, 0), addi(6, 7, 0), B(1, 6, 0, -12), ECALL),
        "18,e,18,0,0,0,0,0,0", "of 1071 and 462: 147, 21, 0 remain", ADD_M, {5: 21})
m_sheet("decimal-digits", program(addi(5, 0, 1987), addi(6, 0, 10), m("remu", 7, 5, 6), m("divu", 5, 5, 6), slli(10, 10, 4), R(0x33, 0, 0, 10, 10, 7),
        B(1, 5, 0, -16), ECALL), "18,16,1c,0,0,0,0,0,0", "the digits of 1987 from the last on", ADD_M, {6: 10, 7: 1, 10: 0x7891})

# ---------------------------------------------------------------- long sheets
section("Long sheets (document 02, Job 3)")
SLOW = "02, Job 3: A sheet with three thousand words must not load slowly"
NUMBER = "02, Job 3: At each line it is shown to be one more than the number of `0a` bytes before that line"
WHOLE = (0, mask(16))            # all of memory
# Line 1, with a budget written out: 60 bytes, and the shortest, 26.
LONG = setup(r2=(*WHOLE, 1), r3=(*WHOLE, 4), budget=100000)
SHORTEST = setup(options=0, r3=NONE, budget=0)

# Goes over the 16,384 words of memory: x10 becomes 33 times itself plus the word. One step, and six for each word: 98,305,
# or 18001; it ends at the ECALL at 1c. 33 is odd, so a word that is missing or another one changes what comes out. So do
# two unlike words that have changed places: they change it by their difference times an odd number times 33^n - 1, n their
# distance, and 2 divides these at most 31, 0 and 5 + 13 times, together less than 64.
MIX = [lui(6, 0x10), load(LWU, 7, 5, 0), slli(11, 10, 5), R(0x33, 0, 0, 10, 10, 11), R(0x33, 0, 0, 10, 10, 7), addi(5, 5, 4), B(1, 5, 6, -20), ECALL]


def mixed(name, words, content, shows):
    """A sheet that begins with MIX and places these words from 0 on; x5, x6, x10 and x11 at its end, x7 being the last word, 0."""
    value = 0
    for word in words + [0] * (16384 - len(words)):
        before, value = value, (33 * value + word) & ONES
    registers[name] = {5: 0x10000, 6: 0x10000, 10: value, 11: before << 5 & ONES}
    sheet(name, content, "18,18001,1c,0,0,0,0,0,0", shows, SLOW)


def short(count):
    """The shortest lines for that many words, of which word i stands in line i + 2."""
    return ["%x,%x\n" % (4 * i, i % 16) for i in range(count)]


def bad(question, line):
    """A line in that place which the question refuses, the line before being as `short` has it; 35 not in line 2."""
    at = 4 * (line - 2)
    assert question != 35 or line > 2
    return {31: "%x,g\n" % at, 32: "%x\n" % at, 33: "%x,\n" % at, 34: "%x,0\n" % (at + 1), 35: "%x,0\n" % (at - 4)}[question]


def with_lines(count, changed, first=LONG):
    """That many short lines, some changed: {number: line}."""
    lines = [first] + short(count)
    for number, line in changed.items():
        lines[number - 1] = line
    return "".join(lines)


# Three thousand words: the last line is 3001.
words = MIX + [0x9e3779b9 * i & 0xffffffff for i in range(8, 3000)]
mixed("long-3000", words, LONG + code(*words), "line 1 and 3,000 words, all of them mixed into x10")
for question in range(31, 36):
    sheet("long-3000-last-%d" % question, with_lines(3000, {3001: bad(question, 3001)}), "sheet,%d,3001" % question,
          "%d in the last of 3,001 lines" % question, NUMBER)

# As many words as fit. The shortest lines have 4 bytes up to c, 5 up to fc, 6 up to ffc, then 7: 4 of 4, 60 of 5 and 960 of
# 6 are 6,076 bytes for 1,024 words. 65,536 - 26 - 6,076 = 59,434 is 8,490 times 7 and 4 over, so 9,514 words fit, the last
# in line 9515. (An empty budget would leave 5 over, no room for a word.) A budget of five digits takes the 4.
MOST = 9514
assert len(LONG) == 60 and len(SHORTEST) == 26
sheet("long-most", with_lines(MOST, {}, setup(options=0, r3=NONE, budget=100000)), "11,0,0,0,0,1,0,3,0",
      "65,536 bytes with 9,514 words, more than which no sheet has; region 3 is unset", SLOW)
# The four bytes hold a line that is refused, 9516: no later line can be by 32 to 35.
for question, line in [(31, "g\n"), (32, "\n"), (33, ",\n"), (34, "1,0\n"), (35, "0,0\n")]:
    sheet("long-most-last-%d" % question, with_lines(MOST, {}, SHORTEST) + line, "sheet,%d,9516" % question,
          "%d in line 9516, after as many words as fit" % question, NUMBER)
# With LONG for line 1 (34 bytes more) and MIX (44 digits for 8 words, 36 more): 59,434 - 34 - 36 = 59,364 is 8,480 times 7
# and 4 over, so 9,504 words, the last of which has the 4.
words = MIX + [(0x9e3779b9 * i & 0xffffffff) >> 28 for i in range(8, 9503)] + [0xfedcb]
content = LONG + "".join("%x,%x\n" % (4 * i, word) for i, word in enumerate(words))
assert len(content) == 65536 and len(words) == 9504
mixed("long-most-mixed", words, content, "65,536 bytes with 9,504 words, all of them mixed into x10")

# A refusal in one line of a long sheet; the numbers about those where a digit or a byte is full.
sheet("long-line-1", with_lines(300, {1: LONG.replace(",1,", ",100,", 1)}), "sheet,34,1", "34 in line 1 of 301", NUMBER)
for line, question, count in [(2, 33, 3000), (9, 32, 300), (10, 34, 300), (11, 35, 300), (99, 35, 300), (100, 33, 300), (101, 32, 300), (255, 34, 300),
                              (256, 32, 300), (257, 35, 300), (999, 33, 1200), (1000, 35, 1200), (1001, 34, 1200), (1500, 34, 3000)]:
    sheet("long-line-%d" % line, with_lines(count, {line: bad(question, line)}), "sheet,%d,%d" % (question, line),
          "%d in line %d of %d" % (question, line, count + 1), NUMBER)
sheet("long-line-1500-then-others", with_lines(1500, {1500: bad(35, 1500), 1501: bad(34, 1501)}) + "\n" * 1500, "sheet,35,1500",
      "35 in line 1500, 34 in line 1501, then 1,500 blank lines", LINES)

# 31 in one line of a long sheet.
sheet("long-31-after-others", with_lines(3000, {line: bad(32 + line % 4, line) for line in range(2, 3001)}) + "g\n", "sheet,31,3002",
      "lines 2 to 3000 would be refused by 32 to 35; the foreign byte in line 3002 comes first", "31: is every byte ... Then line by line: 32")
sheet("long-31-two", with_lines(3000, {1500: bad(31, 1500), 3001: bad(31, 3001)}), "sheet,31,1500", "foreign bytes in lines 1500 and 3001", Q31L)
sheet("long-31-before-line-end", with_lines(1200, {1000: "f98,0\r\n"}), "sheet,31,1000", "`0d` right before the `0a` of line 1000", Q31L)
sheet("long-31-after-line-end", with_lines(1200, {1001: "\rf9c,0\n"}), "sheet,31,1001", "`0d` right after the `0a` of line 1000", Q31L)
sheet("long-31-after-commas", LONG + "," * 3000 + "g\n", "sheet,31,2", "3,000 commas before it in line 2", Q31L)
sheet("long-31-after-fields", LONG + ",,,\n" * 1000 + "g\n", "sheet,31,1002", "1,000 lines of four fields before it", Q31L)
sheet("long-31-after-9999-blank", "\n" * 9999 + "g\n", "sheet,31,10000", "in line 10000, after blank lines", Q31L)
sheet("long-31-after-65534-blank", "\n" * 65534 + "g\n", "sheet,31,65535", "the largest line number that is ever printed", Q31L)


# ---------------------------------------------------------------- writable code
section("Writable code (document 02, Job 5)")
NO_BYTE = "02, Job 5: no byte may be both writable and executable, through region 1 or region 2 against region 3"
EXACT = "02, Job 5: The test is exact: it says no only when such a byte address exists below 2^48."
LOCK = "02, Job 5: With the lock bit set and HFI mode on"
ASKED = "02, Job 5: 4, for a step or run given such a machine in locked HFI mode, asked after 3"
LEAVES = "02, Job 5: 4 leaves what 3 leaves, count 0"
AS_FOUND = "02, Job 5: From then on a locked run leaves every executable byte as it found it"
A30 = EXACT + " (Reading A30: the bytes of a code region of 1 to 3 bytes are executable.)"
A53 = EXACT + " (Reading A53: also past memory's end.)"
UPPER = (0x1000, mask(12), 4)    # fetches from 1000 to 1fff
LAST = (1 << 48) - 1


def four(name, shows, sentence, pc=0, words=(NOP, ECALL), **how):
    """4, nothing counted, pc as given, all registers 0."""
    registers[name] = {}
    sheet(name, program(*words, pc=pc, **how), "4,0,%x,0,0,0,0,0,0" % pc, shows, sentence)


def goes_on(name, shows, sentence, at=0, **how):
    """One step, then the ECALL."""
    sheet(name, program(NOP, ECALL, pc=at, at=at, **how), "18,1,%x,0,0,0,0,0,0" % (at + 4), shows, sentence)


# region 1 against code 0 to fff, or 1000 to 1fff
four("four-region-one-is-code", "region 1 is code", NO_BYTE, r1=(0, 0x1000, 3))
four("four-region-one-inside", "16 bytes of region 1 in code", NO_BYTE, r1=(0x200, 0x10, 3))
four("four-region-one-write-only", "the same without read", NO_BYTE, r1=(0x200, 0x10, 2))
four("four-region-one-first-byte", "region 1 is code's first byte", EXACT, r1=(0, 1, 3))
four("four-region-one-last-byte", "region 1 is code's last byte", EXACT, r1=(0xfff, 1, 3))
four("four-region-one-over-the-end", "only fff is in both", EXACT, r1=(0xfff, 0x40, 3))
four("four-region-one-over-the-start", "only 1000 is in both", EXACT, pc=0x1000, r1=(0xfc1, 0x40, 3), r3=UPPER)
four("four-region-one-around", "region 1 has all of code and more", NO_BYTE, pc=0x1000, r1=(0, 0x3000, 3), r3=UPPER)
four("four-region-one-2-to-32", "a small region 1 of 2^32 bytes", NO_BYTE, r1=(0, 1 << 32, 2))
four("four-region-one-large", "a large region 1", NO_BYTE, r1=(0, 0x10000, 0xb))
four("four-region-one-large-whole", "a large region 1 of 2^48 bytes", NO_BYTE, r1=(0, 1 << 48, 0xa))
four("four-region-one-large-inside", "a large region 1 in code of 2^48 bytes", NO_BYTE, r1=(0x7fff0000, 0x10000, 0xb), r3=(0, mask(48), 4))
four("four-region-one-large-over-32", "a large region 1 over 2^32, code from there on", A53, r1=(0xffff0000, 0x20000, 0xb), r3=(1 << 32, mask(16), 4))
# region 2
four("four-region-two-is-code", "region 2 is code", NO_BYTE, r2=(0, mask(12), 3))
four("four-region-two-write-only", "the same without read", NO_BYTE, r2=(0, mask(12), 2))
four("four-region-two-inside", "16 bytes of region 2 in code", NO_BYTE, r2=(0x200, mask(4), 3))
four("four-region-two-first-byte", "region 2 is code's first byte", EXACT, r2=(0, mask(0), 2))
four("four-region-two-last-byte", "region 2 is code's last byte", EXACT, r2=(0xfff, mask(0), 2))
four("four-region-two-around", "region 2 has all of code and more", NO_BYTE, pc=0x1000, r2=(0, mask(14), 3), r3=UPPER)
four("four-region-two-widest", "region 2 of 2^48 bytes", NO_BYTE, r2=(0, mask(48), 3))
# both
four("four-both-regions", "both regions in code", NO_BYTE, r1=(0x200, 0x10, 3), r2=(0x200, mask(4), 3))
four("four-region-one-alone", "region 1 in code, region 2 beside it", NO_BYTE, r1=(0x200, 0x10, 3), r2=DATA)
four("four-region-two-alone", "region 2 in code, region 1 beside it", NO_BYTE, r1=SMALL, r2=(0x200, mask(4), 3))
four("four-region-one-read-two-write", "region 1 has code without write, region 2 with it", NO_BYTE, r1=(0, 0x1000, 1), r2=(0, mask(0), 2))
# past memory, up to 2^48, few bytes
four("four-region-one-past-memory", "code to 1ffff; region 1 at 10000", A53, r1=(0x10000, 1, 3), r3=(0, mask(17), 4))
four("four-region-two-past-memory", "code to 1ffff; region 2 from 10000 on", A53, r2=(0x10000, mask(16), 3), r3=(0, mask(17), 4))
four("four-all-past-memory", "code at 100000, region 2 there", A53, r2=(0x100000, mask(8), 3), r3=(0x100000, mask(8), 4))
four("four-region-one-last-of-all", "the last byte below 2^48", EXACT, r1=(LAST, 1, 2), r3=(0, mask(48), 4))
four("four-region-two-last-of-all", "the last byte below 2^48, code to there", EXACT, pc=0xfffffffff000, r2=(LAST, mask(0), 2), r3=(0xfffffffff000, mask(12), 4))
four("four-one-byte-of-code", "code of one byte", A30, r2=(0, mask(0), 3), r3=(0, mask(0), 4))
four("four-two-bytes-of-code", "the second of two bytes of code", A30, pc=4, r1=(5, 1, 3), r3=(4, mask(1), 4))
four("four-two-bytes-elsewhere", "code of two bytes that pc is not at", A30, r2=(0x1002, mask(1), 3), r3=(0x1002, mask(1), 4))
# options
for options in range(3, 16, 2):
    four("four-options-%x" % options, "options %x: bit 0 locks" % options, LOCK, options=options, handler=0x100, r2=(0, mask(12), 3))
for options in (0, 4, 8, 12):
    goes_on("writable-code-options-%x" % options, "options %x: not locked, nothing is asked" % options, LOCK, options=options, handler=0x100,
            r2=(0, mask(12), 3))
# order
four("four-before-ten", "pc 3: 4 before 10", ASKED, pc=3, r2=(0, mask(12), 3))
four("four-before-eleven", "pc past code: 4 before 11", ASKED, pc=0x2000, r2=(0, mask(12), 3))
four("four-before-twelve", "pc past memory: 4 before 12", ASKED, pc=0x10000, r2=(0, mask(12), 3), r3=(0, mask(17), 4))
four("four-before-thirteen", "an illegal word: 4 before 13", ASKED, words=(0,), r2=(0, mask(12), 3))
four("four-before-fourteen", "enter in HFI mode: 4 before 23, which was 14", ASKED, words=(hfi(0),), r2=(0, mask(12), 3))
four("four-before-fifteen", "a jump to 2, which 15 refused before Job 8", ASKED, words=(J(0, 2),), r2=(0, mask(12), 3))
four("four-before-sixteen", "a refused load: 4 before 16", ASKED, words=(load(LB, 10, 0, -1),), r2=(0, mask(12), 3))
four("four-before-eighteen", "ECALL: 4 before 18", ASKED, words=(ECALL,), r2=(0, mask(12), 3))
four("four-before-twenty", "exit: 4 before 20", ASKED, words=(EXIT,), r2=(0, mask(12), 3))
four("four-before-twenty-one", "budget 0: 4 before 21", ASKED, budget=0, r2=(0, mask(12), 3))
four("four-empty-budget", "an empty budget", ASKED, words=(LOOP,), r2=(0, mask(12), 3))
four("four-budget-f4240", "1,000,000 steps", ASKED, words=(LOOP,), budget=1000000, r2=(0, mask(12), 3))
sheet("two-before-four", program(NOP, budget=1000001, r2=(0, mask(12), 3)), "2,0,0,0,0,0,0,0,0", "2 before 4", ASKED)
sheet("three-before-four-options", program(NOP, options=0x11, r2=(0, mask(12), 3)), "3,0,0,0,0,0,0,0,0", "options 17: 3 before 4", ASKED)
sheet("three-before-four-handler", program(NOP, handler=1, r2=(0, mask(12), 3)), "3,0,0,0,0,0,0,0,0", "handler bit 0: 3 before 4", ASKED)
sheet("three-before-four-permission", program(NOP, r2=(0, mask(12), 7)), "3,0,0,0,0,0,0,0,0", "region 2 with execute: 3 before 4", ASKED)
sheet("order-34-four", setup(r2=(0, mask(12), 3)) + "2,13\n", "sheet,34,2", "a sheet that is refused is not run", "The first no is printed")
four("four-nothing-stored", "a program that would store into its code", LEAVES, words=CHANGES, r2=(0, mask(12), 3))
# beside code
TOUCH = EXACT + " Regions that touch have none."
goes_on("code-then-region-one", "region 1 begins where code ends", TOUCH, r1=(0x1000, 0x40, 3))
goes_on("code-then-region-one-to-32", "region 1 from there to 2^32", TOUCH, r1=(0x1000, (1 << 32) - 0x1000, 3))
goes_on("code-then-region-one-large", "a large region 1 from the end of code to 2^48", TOUCH, r1=(0x10000, (1 << 48) - 0x10000, 0xb), r3=(0, mask(16), 4))
goes_on("region-one-then-code", "region 1 ends where code begins", TOUCH, at=0x1000, r1=(0xfc0, 0x40, 3), r3=UPPER)
goes_on("code-then-region-two", "region 2 begins where code ends", TOUCH, r2=DATA)
goes_on("region-two-then-code", "region 2 ends where code begins", TOUCH, at=0x1000, r2=(0, mask(12), 3), r3=UPPER)
goes_on("region-two-byte-before-code", "region 2 is the byte before code", TOUCH, at=0x1000, r2=(0xfff, mask(0), 3), r3=UPPER)
goes_on("code-between-regions", "region 2 before code, region 1 after it", TOUCH, at=0x1000, r1=(0x2000, 0x40, 3), r2=(0, mask(12), 3), r3=UPPER)
goes_on("regions-shared-beside-code", "regions 1 and 2 have the same bytes, beside code", NO_BYTE, r1=(0x1000, 0x1000, 3), r2=DATA)
BESIDE = dict(pc=0x1000, at=0x1000, r1=(0x2000, 0x40, 3), r2=(0, mask(12), 3), r3=UPPER)
registers["stores-beside-code"] = {5: 0x1000}
sheet("stores-beside-code", program(lui(5, 1), store(SB, 5, 5, -1), hstore(SB, 5, 0, 0), ECALL, **BESIDE), "18,3,100c,0,0,0,0,0,0",
      "stores to the bytes before and after code", AS_FOUND)
sheet("store-over-into-code", program(lui(5, 1), store(SH, 5, 5, -1), **BESIDE), "16,1,1004,0,0,1,0,2,1000", "fff is granted, 1000 is code", AS_FOUND)
sheet("h-store-over-into-code", program(hstore(SD, 0, 0, 0x39), pc=0x1000, at=0x1000, r1=(0xfc0, 0x40, 3), r3=UPPER), "16,0,1000,0,0,1,1,2,1000",
      "ff9 to fff are granted, 1000 is code", AS_FOUND)
# permissions
registers["code-readable"] = {10: NOP, 11: NOP}
sheet("code-readable", program(NOP, load(LWU, 10, 0, 0), hload(LWU, 11, 0, 0), ECALL, r1=(0, 0x1000, 1), r2=(0, mask(12), 1)),
      "18,3,c,0,0,0,0,0,0", "code may be read through both regions", NO_BYTE)
goes_on("code-in-regions-without-any", "regions 1 and 2 have code and grant nothing", NO_BYTE, r1=(0, 0x10000, 8), r2=(0, mask(12), 0))
sheet("writable-not-executable", program(NOP, r1=(0, 0x1000, 3), r2=(0, mask(12), 3), r3=(0, mask(12), 0)), "11,0,0,0,0,1,3,3,0",
      "region 3 without execute: no byte is executable", NO_BYTE)
# broken regions
KEEPS = "02, Job 5, with 01: A region that breaks its rule keeps its values and matches nothing"
for name, region, shows in [
    ("bound-0", (0x200, 0, 3), "bound 0"), ("past-2-to-32", (0, (1 << 32) + 1, 3), "bound 2^32 + 1"),
    ("over-2-to-32", (0x200, (1 << 32) - 0x1ff, 3), "over 2^32"), ("bound-of-ones", (0, ONES, 3), "a bound of ones"),
    ("over-2-to-64", (ONES - 7, 0x10, 3), "its bytes would wrap to 0"), ("large-bound-odd", (0, 0x10001, 0xb), "large, bound 10001"),
    ("large-bound-0", (0, 0, 0xb), "large, bound 0"), ("large-base-odd", (0x800, 0x10000, 0xb), "large, base 800"),
    ("large-past-2-to-48", (0, (1 << 48) + 0x10000, 0xb), "large, past 2^48"),
]:
    goes_on("broken-one-" + name, "region 1 in code breaks its rule: " + shows, KEEPS, r1=region)
for name, region, shows in [
    ("mask-0", (0, 0, 3), "mask 0"), ("base-8", (8, mask(4), 3), "base 8"), ("2-to-49", (0, mask(49), 3), "2^49 bytes"),
    ("hole", (0, mask(12) ^ 1 << 40, 3), "a hole in the mask"), ("no-top-bit", (0, mask(12) >> 1 & mask(12), 3), "no top bit in the mask"),
]:
    goes_on("broken-two-" + name, "region 2 in code breaks its rule: " + shows, KEEPS, r2=region)
goes_on("broken-one-over-2-to-48", "region 1 is the last byte below 2^48 and the next", KEEPS, r1=(LAST, 2, 3), r3=(0, mask(48), 4))
goes_on("broken-one-at-2-to-48", "region 1 at 2^48", KEEPS, r1=(1 << 48, 1, 3), r3=(0, mask(48), 4))
goes_on("broken-two-at-2-to-48", "region 2 at 2^48", KEEPS, r2=(1 << 48, mask(8), 3), r3=(0, mask(48), 4))
for name, region, shows in [("unset", NONE, "unset"), ("base-8", (8, mask(4), 4), "base 8"), ("2-to-49", (0, mask(49), 4), "2^49 bytes")]:
    sheet("broken-three-" + name, program(NOP, r1=(0, 0x1000, 3), r2=(0, mask(12), 3), r3=region), "11,0,0,0,0,1,0,3,0",
          "region 3 breaks its rule, its bytes are writable: " + shows, KEEPS)
# what a guest does to its code
four("code-changes-itself-locked", "code-changes-itself, locked: 18 before Job 5", AS_FOUND, words=CHANGES, r2=(0, mask(12), 3))
H_CHANGES = [addi(6, 0, ECALL), hstore(SW, 6, 0, 8), EBREAK]
registers["code-changes-itself-hsw"] = {6: ECALL}
sheet("code-changes-itself-hsw", program(*H_CHANGES, options=0, r1=(0, 0x100, 3)), "18,2,8,0,0,0,0,0,0", "unlocked, by region 1: an EBREAK becomes an ECALL", LOCK)
four("code-changes-itself-hsw-locked", "the same, locked", AS_FOUND, words=H_CHANGES, r1=(0, 0x100, 3))
registers["unlocked-code-made-writable"] = {5: 2, 6: ECALL}
sheet("unlocked-code-made-writable", program(addi(5, 0, 2), hfi(SELECT, 0, 5), hfi(SETBASE, 0, 0), addi(6, 0, ECALL), store(SW, 6, 0, 0x14), EBREAK,
      options=0, r2=DATA), "18,5,14,0,0,0,0,0,0", "unlocked, region 2 moved over code, which is then stored into", LOCK)
sheet("locked-code-not-made-writable", program(addi(5, 0, 2), hfi(SELECT, 0, 5), r2=DATA), "25,1,4,0,0,0,0,0,0",
      "locked, region 2 cannot be moved", AS_FOUND)
sheet("unlocked-enter-locked", program(addi(5, 0, 1), hfi(0, 0, 5), options=0, r2=(0, mask(12), 3)), "23,1,4,0,0,0,0,0,0",
      "enter in HFI mode is 23 before 22; outside it no sheet goes on", "02, Job 5: 22 ... asked after 14, with Job 6: all three are asked just before 14")

# ---------------------------------------------------------------- which HFI rule
section("Which HFI rule (document 02, Job 6); no sheet comes to 24, as where it leaves it ends with 20")
BAD = "02, Job 6: If the operand is bad as well, the new number is given."
KEEP = "02, Job 6: Faults in an operand, an h-word outside HFI mode and a missing selection keep 14."
JUST = "02, Job 6: all three are asked just before 14"
SAME = "02, Job 6: Nothing else about these stops changes."


def ruled(name, words, first, shows, sentence, values=None, **how):
    """A sheet of Job 6 with all its registers."""
    registers[name] = values or {}
    sheet(name, program(*words, **how), first, shows, sentence)


# 23
for options in range(2, 16):
    ruled("enter-inside-options-%x" % options, [hfi(0, 0, 0)], "23,0,0,0,0,0,0,0,0", "options %x" % options, R23, options=options)
for lock, place in [(0, "unlocked"), (1, "locked")]:
    ruled("enter-%s-operand-f" % place, [addi(5, 0, 15), hfi(0, 0, 5)], "23,1,4,0,0,0,0,0,0", place + ", a good operand", R23, {5: 15}, options=lock)
    ruled("enter-%s-operand-10" % place, [addi(5, 0, 16), hfi(0, 0, 5)], "23,1,4,0,0,0,0,0,0", place + ", operand 10: 23 before 14", BAD, {5: 16}, options=lock)
    ruled("enter-%s-operand-ones" % place, [addi(5, 0, -1), hfi(0, 0, 5)], "23,1,4,0,0,0,0,0,0", place + ", an operand of ones: 23 before 14", BAD,
          {5: ONES}, options=lock)
    ruled("enter-%s-operand-2-to-32" % place, [addi(5, 0, 1), slli(5, 5, 32), hfi(0, 0, 5)], "23,2,8,0,0,0,0,0,0", place + ", operand 2^32: 23 before 14", BAD,
          {5: 1 << 32}, options=lock)
    ruled("enter-jump-%s" % place, [addi(6, 0, 8), hfi(1, 0, 0, 6), ECALL], "23,1,4,0,0,0,0,0,0", place + ", enter with jump to 8", R23, {6: 8}, options=lock)
    for target in (1, 3):
        ruled("enter-jump-%s-to-%d" % (place, target), [addi(6, 0, target), hfi(1, 0, 0, 6)], "23,1,4,0,0,0,0,0,0",
              "%s, to %d: 23 before 15" % (place, target), JUST, {6: target}, options=lock)
    ruled("enter-jump-%s-worst" % place, [addi(5, 0, 16), addi(6, 0, 2), hfi(1, 0, 5, 6)], "23,2,8,0,0,0,0,0,0", place + ", operand 10 and to 2: 23 before 14",
          BAD, {5: 16, 6: 2}, options=lock)
ruled("enter-jump-unlocked-to-2", [addi(6, 0, 2), hfi(1, 0, 0, 6)], "23,1,4,0,0,0,0,0,0", "unlocked, to 2", JUST, {6: 2}, options=0)
ruled("enter-jump-writable-code", [addi(5, 0, 1), addi(6, 0, 2), hfi(1, 0, 5, 6)], "23,2,8,0,0,0,0,0,0", "unlocked, code is writable, operand 1, to 2: 23 before 22",
      JUST, {5: 1, 6: 2}, options=0, r2=(0, mask(12), 3))
ruled("enter-writable-code-operand-11", [addi(5, 0, 17), hfi(0, 0, 5)], "23,1,4,0,0,0,0,0,0", "unlocked, code is writable, operand 11: 23 before 14 and 22", BAD,
      {5: 17}, options=0, r1=(0, 0x100, 3))

# 25
for name, f7, rd, rs1, shows in [("locked-select-0", SELECT, 0, 0, "number 0"), ("locked-get-base-into-x0", GETBASE, 0, 0, "into x0"),
                                 ("locked-get-bound-into-x0", GETBOUND, 0, 0, "into x0"), ("locked-get-permission-into-x0", GETPERM, 0, 0, "into x0"),
                                 ("locked-get-handler-into-x0", GETHANDLER, 0, 0, "into x0"), ("locked-set-handler-from-x0", SETHANDLER, 0, 0, "handler 0")]:
    ruled(name, [hfi(f7, rd, rs1)], "25,0,0,0,0,0,0,0,0", "locked, " + shows, R25)
ruled("locked-select-4", [addi(5, 0, 4), hfi(SELECT, 0, 5)], "25,1,4,0,0,0,0,0,0", "locked, number 4, which may be selected since Job 7", R25, {5: 4})
ruled("locked-select-11", [addi(5, 0, 11), hfi(SELECT, 0, 5)], "25,1,4,0,0,0,0,0,0", "locked, number 11: 25 before 14", BAD, {5: 11})
ruled("locked-select-100000001", [addi(5, 0, 1), slli(5, 5, 32), addi(5, 5, 1), hfi(SELECT, 0, 5)], "25,3,c,0,0,0,0,0,0", "locked, number 2^32 + 1: 25 before 14", BAD,
      {5: 0x100000001})
ruled("locked-permission-of-ones", [addi(5, 0, -1), hfi(SETPERM, 0, 5)], "25,1,4,0,0,0,0,0,0", "locked, all permission bits and nothing selected: 25 before 14", BAD,
      {5: ONES})
ruled("locked-select-options-f", [addi(5, 0, 1), hfi(SELECT, 0, 5)], "25,1,4,0,0,0,0,0,0", "options f", R25, {5: 1}, options=15)
ruled("locked-reset-options-3", [hfi(RESET)], "25,0,0,0,0,0,0,0,0", "options 3", R25, options=3)
for options in range(16):
    if options not in (1, 14):
        ruled("set-handler-options-%x" % options, [addi(5, 0, 8), hfi(SETHANDLER, 0, 5)], "25,1,4,0,0,0,0,0,0", "options %x" % options, HANDLER, {5: 8}, options=options)
    if options == 1:
        continue
    if options % 2:
        ruled("get-handler-options-%x" % options, [hfi(GETHANDLER, 6)], "25,0,0,0,0,0,0,0,0", "options %x: locked" % options, LK, options=options, handler=0x80)
    else:
        ruled("get-handler-options-%x" % options, [hfi(GETHANDLER, 6), EBREAK], "19,1,4,0,0,0,0,0,0", "options %x: it may, unlocked" % options, LK, {6: 0x80},
              options=options, handler=0x80)

# 14 as before, unlocked
ruled("select-0-options-e", [hfi(SELECT, 0, 0)], "14,0,0,0,0,0,0,0,0", "number 0, options e", KEEP, options=14)
ruled("no-selection-options-e", [hfi(GETBASE, 6)], "14,0,0,0,0,0,0,0,0", "nothing selected, options e", KEEP, options=14)
ruled("no-selection-permission-of-ones", [addi(5, 0, -1), hfi(SETPERM, 0, 5)], "14,1,4,0,0,0,0,0,0", "unlocked, all permission bits and nothing selected", KEEP,
      {5: ONES}, options=0)
ruled("select-3-then-0", [addi(5, 0, 3), hfi(SELECT, 0, 5), hfi(SETBASE, 0, 0), hfi(GETBASE, 6), hfi(SELECT, 0, 0)], "14,4,10,0,0,0,0,0,0",
      "a selection, then number 0", KEEP, {5: 3}, options=0)

# order
ruled("ten-before-twenty-three", [hfi(0, 0, 0)], "10,0,3,0,0,0,0,0,0", "pc 3: 10 before 23", JUST, pc=3)
ruled("eleven-before-twenty-three", [hfi(0, 0, 0)], "11,0,0,0,0,1,3,3,0", "region 3 without execute: 11 before 23", JUST, r3=(0, mask(12), 0))
ruled("eleven-before-twenty-five", [hfi(RESET)], "11,0,0,0,0,1,0,3,2", "code of two bytes: 11 before 25", JUST, r3=(0, mask(1), 4))
ruled("thirteen-before-twenty-three", [hfi(0, 1, 0)], "13,0,0,0,0,0,0,0,0", "enter with rd 1: 13 before 23", JUST)
ruled("thirteen-before-twenty-five", [hfi(GETBASE, 6, 1)], "13,0,0,0,0,0,0,0,0", "get base with rs1 1: 13 before 25", JUST)
ruled("two-before-twenty-three", [hfi(0, 0, 0)], "2,0,0,0,0,0,0,0,0", "2 before 23", JUST, budget=0xf4241)
ruled("three-before-twenty-five", [hfi(RESET)], "3,0,0,0,0,0,0,0,0", "options 11: 3 before 25", JUST, options=0x11)
four("four-before-twenty-five", "a locked select: 4 before 25", ASKED, words=[hfi(SELECT, 0, 0)], r2=(0, mask(12), 3))
ruled("twenty-one-before-twenty-three", [addi(5, 0, 1), hfi(0, 0, 5)], "21,1,4,0,0,0,0,0,0", "a budget of 1 step does not reach the enter", JUST, {5: 1}, budget=1)
ruled("twenty-one-before-twenty-five", [hfi(RESET)], "21,0,0,0,0,0,0,0,0", "budget 0", JUST, budget=0)
ruled("twenty-three-with-the-last-step", [addi(5, 0, 1), hfi(0, 0, 5)], "23,1,4,0,0,0,0,0,0", "a budget of 2 steps reaches it", JUST, {5: 1}, budget=2)

# after steps: what they left stays, and the stopping step is not counted
ruled("twenty-three-after-a-loop", [addi(5, 0, 3), addi(6, 6, 2), addi(5, 5, -1), B(1, 5, 0, -8), hfi(0, 0, 6)], "23,a,10,0,0,0,0,0,0",
      "1 and 3 times 3 steps, then enter", SAME, {6: 6})
ruled("twenty-three-after-a-store", [lui(5, 1), addi(6, 0, 7), store(SD, 6, 5, 8), load(LD, 10, 5, 8), hfi(1, 0, 0, 6)], "23,4,10,0,0,0,0,0,0",
      "what was stored is there", SAME, {5: 0x1000, 6: 7, 10: 7}, r2=DATA)
ruled("twenty-five-after-h-words", [addi(6, 0, 7), hstore(SD, 6, 0, 8), hload(LD, 10, 0, 8), hfi(GETPERM, 10)], "25,3,c,0,0,0,0,0,0",
      "a get does not change its register", SAME, {6: 7, 10: 7}, r1=SMALL)
ruled("twenty-five-after-select", [addi(5, 0, 1), hfi(SELECT, 0, 5), hfi(GETBASE, 6), hfi(GETHANDLER, 7), hfi(SETHANDLER, 0, 5)], "25,4,10,0,0,0,0,0,0",
      "unlocked: select, get base and get handler, then set handler", HANDLER, {5: 1, 6: 0x2000, 7: 0x40}, options=0, handler=0x40, r1=SMALL)

# where 24 would be: the run has ended
LEFT = "After a step of a run that began in HFI mode: is the mode still on? No: **20**."
ruled("exit-then-exit", [EXIT, EXIT], "20,1,4,1,0,0,0,0,0", "an exit after an exit is not reached", LEFT)
ruled("exit-to-an-exit", [EXIT, NOP, EXIT], "20,1,8,1,0,0,0,0,0", "nor one at the handler", LEFT, options=5, handler=8)
ruled("call-to-an-exit", [ECALL, NOP, EXIT], "20,1,8,2,0,0,0,0,0", "nor after a redirected call", LEFT, options=3, handler=8)

# ---------------------------------------------------------------- ten regions
section("Ten regions (document 02, Job 7)")
FIELDS = "02, Job 7: A setup line has 13 fields, the other regions then being zero, or 34, with regions 1 to 10 in order and the budget last."
LETS = "02, Job 7: 32 lets 34 pass."
LOWEST = "02, Job 7: the lowest-numbered matching region of the kind decides, even if a later one would grant more"
CHOSEN = "02, Job 7: the top bits of two register fields choose the explicit region: rs1's counts 2, that of rd or rs2 counts 1, and 0 to 3 mean 1, 4, 5, 6."
FOUR_BITS = "02, Job 7: The remaining four bits name x0 to x15"
RECORDS = "02, Job 7: an explicit fault records the region chosen"
UP_TO = "02, Job 7: Selector, selected number and fault region go up to 10"
ALL_TEN = "02, Job 7: isolation and Job 5 now speak of all ten"
MEANING = "02, Job 7: H-words with a register field of x16 or above change meaning"
SINGLY = "In HFI mode each byte is judged singly."
NO_MATCH = "A region that breaks its rule keeps its values and matches nothing (ours)."
EXPLICIT = (1, 4, 5, 6)
DATA_REGIONS = (2, 7, 8, 9)


def wide_setup(pc=0, options=1, handler=0, budget="", **regions):
    """A setup line of 34 fields; r1 to r10, of which r3 is CODE and the others are zero unless given."""
    fields = [pc, options, handler]
    for n in range(1, 11):
        fields += regions.get("r%d" % n, CODE if n == 3 else NONE)
    text = ",".join("%x" % f if isinstance(f, int) else f for f in fields)
    return text + "," + ("%x" % budget if isinstance(budget, int) else budget) + "\n"


def wide(name, words, first, shows, sentence, values=None, at=0, more="", **how):
    """A sheet of 34 fields with all its registers."""
    registers[name] = {n: v & ONES for n, v in (values or {}).items()}
    sheet(name, wide_setup(**how) + code(*words, at=at) + more, first, shows, sentence)


def refused_line(name, content, question, shows, sentence):
    sheet(name, content, "sheet,%d,1" % question, shows, sentence)


def h_fields(number, rs1, other):
    """The fields that make an h-word choose a region, with these low four bits."""
    choice = EXPLICIT.index(number)
    return rs1 + 16 * (choice // 2), other + 16 * (choice % 2)


def hl(f3, number, rd, rs1, imm):
    rs1, rd = h_fields(number, rs1, rd)
    return hload(f3, rd, rs1, imm)


def hs(f3, number, rs2, rs1, imm):
    rs1, rs2 = h_fields(number, rs1, rs2)
    return hstore(f3, rs2, rs1, imm)


# setup lines
wide("fields-34", [addi(10, 0, 5), ECALL], "18,1,4,0,0,0,0,0,0", "34 fields, the other regions zero", FIELDS, {10: 5})
wide("fields-34-budget-a", [LOOP], "21,a,0,0,0,0,0,0,0", "the budget is the last of 34", FIELDS, budget=10)
wide("fields-34-empty-budget", [LOOP], "21,c350,0,0,0,0,0,0,0", "an empty budget in a line of 34", "33: ... (an empty budget passes)")
wide("fields-34-budget-f4241", [LOOP], "2,0,0,0,0,0,0,0,0", "1,000,001 steps in a line of 34", Q2, budget=1000001)
sheet("fields-34-sixteen-digits", ",".join(["0" * 15 + "%x" % v if v < 16 else "%x" % v for v in [0, 1, 0] + [0] * 6 + [0, mask(12), 4] + [0] * 21])
      + "," + "0" * 15 + "a\n" + code(ECALL), "18,0,0,0,0,0,0,0,0", "16 digits in all 34 fields", "33: has each field 1 to 16 digits")
for count in (16, 31, 33, 35, 36):
    fields = "0,1,0,0,0,0,0,0,0,0,fffffffffffff000,4" + ",0" * (count - 12)
    refused_line("fields-%d" % count, fields + "\n" + code(ECALL), 32, "%d fields" % count, LETS)
refused_line("fields-33-empty-budget", wide_setup().replace("0,0,0,\n", "0,0,\n"), 32, "33 fields, the last empty", LETS)
sheet("fields-34-in-line-2", wide_setup() + wide_setup(), "sheet,32,2", "34 fields in line 2", LETS)
sheet("fields-13-in-line-2-after-34", wide_setup() + setup(), "sheet,32,2", "13 fields in line 2", LETS)
refused_line("fields-34-all-empty", "," * 33 + "\n", 33, "34 empty fields: only the budget may be", Q33)
for name, how, shows in [
    ("empty-pc", dict(pc=""), "pc"), ("empty-base-four", dict(r4=("", 0, 0)), "base of region 4"), ("empty-bound-six", dict(r6=(0, "", 0)), "bound of region 6"),
    ("empty-mask-nine", dict(r9=(0, "", 0)), "mask of region 9"), ("empty-permission-ten", dict(r10=(0, 0, "")), "permission of region 10, beside an empty budget"),
    ("seventeen-digits-ten", dict(r10=("0" * 17, 0, 0)), "17 digits as base of region 10"),
]:
    refused_line("fields-34-" + name, wide_setup(**how), 33, "an empty " + shows if "digits" not in shows else shows, Q33)
for n in range(4, 11):
    refused_line("permission-%d-100" % n, wide_setup(**{"r%d" % n: (0, 0, 0x100)}), 34, "permission of region %d above ff" % n, Q34)
refused_line("fields-34-options-100", wide_setup(options=0x100), 34, "options above ff in a line of 34", Q34)
refused_line("fields-34-budget-100000000", wide_setup(budget=0x100000000), 34, "a budget above ffffffff in a line of 34", Q34)
refused_line("fields-34-order-33-34", wide_setup(handler="", r10=(0, 0, 0x100)), 33, "33 before 34 in a line of 34", "The first no is printed")
for n, permission, shows in [(4, 4, "execute"), (5, 0x10, "bit 4"), (6, 0xff, "all of ff"), (7, 4, "execute"), (8, 8, "large"), (9, 7, "execute too"),
                             (10, 1, "read"), (10, 2, "write"), (10, 0xff, "all of ff")]:
    wide("ill-formed-%d-%x" % (n, permission), [NOP], "3,0,0,0,0,0,0,0,0", "region %d with %s" % (n, shows), PB, **{"r%d" % n: (0x4000, mask(4), permission)})
wide("permissions-of-ten", [ECALL], "18,0,0,0,0,0,0,0,0", "all the bits that each region has", PB, r1=(0x10000, 0x10000, 0xb), r2=(0x4000, mask(4), 3),
     r4=(0x20000, 0x10000, 0xb), r5=(0x30000, 0x10000, 0xb), r6=(0x40000, 0x10000, 0xb), r7=(0x5000, mask(4), 3), r8=(0x6000, mask(4), 3), r9=(0x7000, mask(4), 3),
     r10=(0x8000, mask(4), 4))

# the four choices
FOUR = dict(r1=(0x2000, 0x100, 3), r4=(0x2100, 0x100, 3), r5=(0x2200, 0x100, 3), r6=(0x2300, 0x100, 3))
EACH = "".join("%x,%08x\n%x,88776655\n" % (0x2000 + 0x100 * i, 0xc433a290 + n, 0x2004 + 0x100 * i) for i, n in enumerate(EXPLICIT))
for i, n in enumerate(EXPLICIT):
    low = 0xc433a290 + n
    wide("h-load-through-%d" % n, [hl(f3, n, 8 + f3, 0, 0) for f3 in range(7)] + [ECALL], "18,7,1c,0,0,0,0,0,0", "all seven through region %d" % n, CHOSEN,
         {8: low & 0xff | ONES << 8, 9: low & 0xffff | ONES << 16, 10: low | ONES << 32, 11: 0x8877665500000000 | low, 12: low & 0xff, 13: low & 0xffff, 14: low},
         more=EACH, **FOUR)
    back = [load(LD, 10 + k, 7, 0x100 * i + 8 * k) for k in range(4)]
    wide("h-store-through-%d" % n, [addi(5, 0, -2)] + [hs(f3, n, 5, 0, 8 * k) for k, f3 in enumerate((SD, SW, SH, SB))] + [lui(7, 2)] + back + [ECALL],
         "18,a,28,0,0,0,0,0,0", "all four through region %d, read back by ordinary loads" % n, CHOSEN,
         {5: -2, 7: 0x2000, 10: -2, 11: 0xfffffffe, 12: 0xfffe, 13: 0xfe}, r2=(0x2000, mask(12), 1), **FOUR)
BYTES = "".join("%x,%08x\n" % (base + 4 * k, first * 0x01010101 + 0x04040404 * k + 0x03020100)
                for base, first in ((0x2100, 0x40), (0x2200, 0x60), (0x2300, 0xa0)) for k in range(8))
wide("h-fields-rd-16-to-31", [hload(LBU, 16 + r, 0, r) for r in range(16)] + [ECALL], "18,10,40,0,0,0,0,0,0", "rd fields 16 to 31 are x0 to x15, region 4", FOUR_BITS,
     {r: 0x40 + r for r in range(1, 16)}, more=BYTES, **FOUR)
wide("h-fields-rs1-16-to-31", [addi(r, 0, 2 * r) for r in range(1, 16)] + [hload(LBU, r, 16 + r, 0) for r in range(16)] + [ECALL], "18,1f,7c,0,0,0,0,0,0",
     "rs1 fields 16 to 31 are x0 to x15, region 5", FOUR_BITS, {r: 0x60 + 2 * r for r in range(1, 16)}, more=BYTES, **FOUR)
wide("h-fields-both-16-to-31", [addi(r, 0, 2 * r) for r in range(1, 16)] + [hload(LBU, 16 + r, 16 + r, 1) for r in range(16)] + [ECALL], "18,1f,7c,0,0,0,0,0,0",
     "both fields 16 to 31, region 6", FOUR_BITS, {r: 0xa1 + 2 * r for r in range(1, 16)}, more=BYTES, **FOUR)
wide("h-fields-rs2-16-to-31", [addi(r, 0, r) for r in range(1, 16)] + [hstore(SB, 16 + r, 0, r) for r in range(16)] + [lui(18, 2), load(LD, 16, 18, 0x100),
     load(LD, 17, 18, 0x108), ECALL], "18,22,88,0,0,0,0,0,0", "rs2 fields 16 to 31 are x0 to x15, region 4", FOUR_BITS,
     dict([(r, r) for r in range(1, 16)] + [(16, 0x0706050403020100), (17, 0x0f0e0d0c0b0a0908), (18, 0x2000)]), r2=(0x2000, mask(12), 1), **FOUR)
wide("ordinary-words-keep-five-bits", [lui(31, 2), load(LBU, 30, 31, 0x104), store(SB, 30, 31, 0x100), load(LBU, 29, 31, 0x100), ECALL], "18,4,10,0,0,0,0,0,0",
     "ordinary loads and stores name x31 and x30", "02, Job 7: In an h-word", {29: 0x44, 30: 0x44, 31: 0x2000}, more=BYTES, r2=(0x2000, mask(12), 3), **FOUR)
registers["h-load-rd-was-x16"] = {10: 0xffffffffffffff88}
sheet("h-load-rd-was-x16", program(hload(LB, 10, 0, 0), hload(LD, 16, 0, 0), ECALL, r1=(0x1000, 8, 1), more=DATA_LINES), "16,1,4,0,0,1,4,1,0",
      "hld to x16 before Job 7: now x0 through region 4, which a line of 13 leaves zero", MEANING)
registers["h-load-rs1-was-x17"] = {17: 0x1000}
sheet("h-load-rs1-was-x17", program(lui(17, 1), hload(LD, 10, 17, 0), ECALL, r1=(0, 0x1008, 1), more=DATA_LINES), "16,1,4,0,0,1,5,1,0",
      "hld by x17 before Job 7: now by x1 through region 5", MEANING)
registers["h-store-rs2-was-x31"] = {31: 7}
sheet("h-store-rs2-was-x31", program(addi(31, 0, 7), hstore(SD, 31, 16, 8), r1=SMALL), "16,1,4,0,0,1,6,2,8", "both fields above x15: now x15 by x0 through region 6", MEANING)

# what an explicit fault records
for n in (4, 5, 6):
    def through(base, bound, permission): return {"r%d" % n: (base, bound, permission)}
    wide("h-load-%d-beyond" % n, [hl(LD, n, 10, 0, 9)], "16,0,0,0,0,1,%d,1,2010" % n, "region %d: one byte past its end" % n, RECORDS, **through(0x2000, 16, 3))
    wide("h-store-%d-beyond" % n, [hs(SD, n, 10, 0, 9)], "16,0,0,0,0,1,%d,2,2010" % n, "region %d: one byte past its end" % n, RECORDS, **through(0x2000, 16, 3))
    wide("h-store-%d-minus-one" % n, [hs(SB, n, 10, 0, -1)], "16,0,0,0,0,1,%d,2,1fff" % n, "region %d: offset -1" % n, RECORDS, **through(0x2000, 16, 3))
    wide("h-load-%d-zero" % n, [hl(LB, n, 10, 0, 5)], "16,0,0,0,0,1,%d,1,5" % n, "region %d is zero, region 1 grants" % n, RECORDS, r1=(0, 0x100, 1))
    wide("h-load-%d-broken" % n, [hl(LB, n, 10, 0, 0)], "16,0,0,0,0,1,%d,1,2000" % n, "region %d with bound 0" % n, RECORDS, **through(0x2000, 0, 3))
    wide("h-store-%d-not-writable" % n, [hs(SB, n, 10, 0, 3)], "16,0,0,0,0,1,%d,2,2003" % n, "region %d without write" % n, RECORDS, **through(0x2000, 16, 1))
wide("h-load-6-large", [lui(7, 1), hl(LD, 6, 10, 7, -8), ECALL], "18,2,8,0,0,0,0,0,0", "a large region 6", CHOSEN, {7: 0x1000}, r6=(0, 0x10000, 9))
wide("h-load-4-large-base-odd", [hl(LD, 4, 10, 0, 0)], "16,0,0,0,0,1,4,1,2000", "a large region 4 with base 2000", RECORDS, r4=(0x2000, 0x10000, 9))
wide("h-load-5-absent", [hl(LD, 5, 10, 0, 0)], "17,0,0,0,0,0,0,0,0", "region 5 past memory", Q11, r5=(0x10000, 16, 1))

# ordinary data
ABOVE = [lui(5, 2), store(SW, 5, 5, 8), load(LWU, 10, 5, 8), ECALL]     # at 2008
SAME_BYTES = (0x2000, mask(12), 3)


def data_pair(name, words, first, shows, lower, low, higher, high, values=None, sentence=LOWEST):
    wide(name, words, first, shows, sentence, values if values is not None else {5: 0x2000}, **{"r%d" % lower: low, "r%d" % higher: high})


for n in (7, 8, 9):
    wide("data-%d" % n, ABOVE, "18,3,c,0,0,0,0,0,0", "ordinary data in region %d" % n, "02, Job 7: implicit data 2, 7, 8, 9", {5: 0x2000, 10: 0x2000}, **{"r%d" % n: SAME_BYTES})
    wide("data-%d-not-writable" % n, ABOVE, "16,1,4,0,0,1,%d,2,2008" % n, "region %d without write" % n, UP_TO, {5: 0x2000}, **{"r%d" % n: (0x2000, mask(12), 1)})
for lower, higher in [(2, 7), (2, 9), (7, 8), (8, 9)]:
    pair = "%d-%d" % (lower, higher)
    data_pair("hidden-write-" + pair, ABOVE, "16,1,4,0,0,1,%d,2,2008" % lower, "the lower region reads only", lower, (0x2000, mask(12), 1), higher, SAME_BYTES)
    data_pair("hidden-read-" + pair, [lui(5, 2), load(LB, 10, 5, 8)], "16,1,4,0,0,1,%d,1,2008" % lower, "the lower region writes only", lower, (0x2000, mask(12), 2),
              higher, SAME_BYTES)
    data_pair("broken-passes-" + pair, ABOVE, "18,3,c,0,0,0,0,0,0", "the lower region breaks its rule, the next decides", lower, (0x2008, mask(12), 0), higher, SAME_BYTES,
              {5: 0x2000, 10: 0x2000}, NO_MATCH)
    OVER = [lui(5, 3), addi(6, 0, -2), store(SD, 6, 5, -4), load(LD, 10, 5, -4), ECALL]     # 2ffc to 3003
    for way, one, other in [("", lower, higher), ("-back", higher, lower)]:
        data_pair("across-%s%s" % (pair, way), OVER, "18,4,10,0,0,0,0,0,0", "sd and ld over regions %d and %d" % (one, other), one, SAME_BYTES, other, (0x3000, mask(12), 3),
                  {5: 0x3000, 6: -2, 10: -2}, SINGLY)
    data_pair("across-%s-refused" % pair, OVER, "16,2,8,0,0,1,%d,2,3000" % higher, "refused in the second", lower, SAME_BYTES, higher, (0x3000, mask(12), 1), {5: 0x3000, 6: -2}, SINGLY)
data_pair("across-7-2-refused", OVER, "16,2,8,0,0,1,2,2,3000", "refused in the second, the lower number", 7, SAME_BYTES, 2, (0x3000, mask(12), 1), {5: 0x3000, 6: -2}, SINGLY)
data_pair("across-first-refused", OVER, "16,2,8,0,0,1,9,2,2ffc", "refused in the first", 9, (0x2000, mask(12), 1), 8, (0x3000, mask(12), 3), {5: 0x3000, 6: -2}, SINGLY)
data_pair("across-to-none", OVER, "16,2,8,0,0,1,0,2,3000", "no region has the second part", 8, SAME_BYTES, 9, (0x4000, mask(12), 3), {5: 0x3000, 6: -2}, SINGLY)
data_pair("hidden-all", [lui(5, 2), load(LB, 10, 5, 8)], "16,1,4,0,0,1,2,1,2008", "the lower region grants nothing", 2, (0x2000, mask(12), 0), 7, SAME_BYTES)
data_pair("lower-grants-more", ABOVE, "18,3,c,0,0,0,0,0,0", "a later region with fewer permissions is not asked", 2, SAME_BYTES, 7, (0x2000, mask(12), 0), {5: 0x2000, 10: 0x2000})
data_pair("zero-lower-passes", ABOVE, "18,3,c,0,0,0,0,0,0", "mask 0 matches nothing, the next decides", 2, (0, 0, 3), 8, SAME_BYTES, {5: 0x2000, 10: 0x2000}, NO_MATCH)
INSIDE = dict(r2=(0x2010, mask(4), 1), r8=SAME_BYTES)
wide("lower-inside-up-to-it", [lui(5, 2), store(SD, 5, 5, 8), store(SD, 5, 5, 0x20), load(LD, 10, 5, 0xc), ECALL], "18,4,10,0,0,0,0,0,0",
     "stores up to a region 2 inside region 8 and after it, a load over its edge", LOWEST, {5: 0x2000}, **INSIDE)
wide("lower-inside-into-it", [lui(5, 2), store(SD, 5, 5, 9)], "16,1,4,0,0,1,2,2,2010", "a store over its first byte", LOWEST, {5: 0x2000}, **INSIDE)
wide("lower-inside-out-of-it", [lui(5, 2), store(SH, 5, 5, 0x1f)], "16,1,4,0,0,1,2,2,201f", "a store over its last byte", LOWEST, {5: 0x2000}, **INSIDE)

# fetches
CODES = "02, Job 7: code 3, 10"
wide("code-10", [NOP, ECALL], "18,1,2004,0,0,0,0,0,0", "code in region 10", CODES, pc=0x2000, at=0x2000, r10=(0x2000, mask(12), 4))
wide("code-10-not-executable", [NOP], "11,0,2000,0,0,1,a,3,2000", "fault region 10 prints as a", UP_TO + " (Reading A47.)", pc=0x2000, at=0x2000, r10=(0x2000, mask(12), 0))
wide("code-3-hides-10", [NOP], "11,0,0,0,0,1,3,3,0", "region 3 without execute hides region 10", LOWEST, r3=(0, mask(12), 0), r10=(0, mask(12), 4))
wide("code-3-grants-before-10", [ECALL], "18,0,0,0,0,0,0,0,0", "region 10 without execute is not asked", LOWEST, r10=(0, mask(12), 0))
wide("code-3-broken-10-grants", [ECALL], "18,0,0,0,0,0,0,0,0", "region 3 breaks its rule, region 10 decides", NO_MATCH, r3=(8, mask(12), 4), r10=(0, mask(12), 4))
wide("code-3-zero-10-grants", [ECALL], "18,0,0,0,0,0,0,0,0", "region 3 is zero, region 10 decides", NO_MATCH, r3=NONE, r10=(0, mask(12), 4))
wide("code-3-zero-10-refuses", [ECALL], "11,0,0,0,0,1,a,3,0", "region 3 is zero, region 10 lacks execute", LOWEST, r3=NONE, r10=(0, mask(12), 0))
wide("code-3-and-10-broken", [ECALL], "11,0,0,0,0,1,0,3,0", "no region matches", NO_MATCH, r3=(8, mask(12), 4), r10=(0, mask(49), 4))
wide("word-over-3-and-10", [ECALL], "18,0,0,0,0,0,0,0,0", "two bytes in each", SINGLY, r3=(0, mask(1), 4), r10=(2, mask(1), 4))
wide("word-over-10-and-3", [ECALL], "18,0,0,0,0,0,0,0,0", "two bytes in each, the other way round", SINGLY, r3=(2, mask(1), 4), r10=(0, mask(1), 4))
wide("word-over-3-and-10-refused", [ECALL], "11,0,0,0,0,1,a,3,2", "the second two lack execute", SINGLY, r3=(0, mask(1), 4), r10=(2, mask(1), 0))
wide("word-hidden-in-10", [ECALL], "11,0,0,0,0,1,3,3,3", "region 3 hides the last byte", LOWEST, r3=(3, mask(0), 0), r10=(0, mask(12), 4))
wide("from-3-to-10-and-out", [J(0, 0xffc)], "11,3,1004,0,0,1,0,3,1004", "from region 3 into region 10 and past it", CODES, more="ffc,13\n1000,13\n",
     r10=(0x1000, mask(2), 4))

# region instructions, unlocked
for n in range(4, 11):
    permission = 0xb if n in EXPLICIT else 3 if n in DATA_REGIONS else 4
    words = [addi(5, 0, n), hfi(SELECT, 0, 5), hfi(GETBASE, 10), hfi(GETBOUND, 11), hfi(GETPERM, 12), addi(6, 0, -n), hfi(SETBASE, 0, 6), hfi(SETBOUND, 0, 5),
             addi(7, 0, permission), hfi(SETPERM, 0, 7), hfi(GETBASE, 13), hfi(GETBOUND, 14), hfi(GETPERM, 15), ECALL]
    wide("set-and-get-%d" % n, words, "18,d,34,0,0,0,0,0,0", "region %d: get, set, get" % n, UP_TO,
         {k: v for k, v in {5: n, 6: -n, 7: permission, 10: 0x5000 + n, 11: 0x60 + n, 12: permission & 5, 13: -n, 14: n, 15: permission}.items() if v},
         options=0, **{"r%d" % n: (0x5000 + n, 0x60 + n, permission & 5)})
for name, number in [("11", 11), ("16", 16)]:
    registers["select-" + name] = {5: number}
    sheet("select-" + name, program(addi(5, 0, number), hfi(SELECT, 0, 5), options=0), "14,1,4,0,0,0,0,0,0", "number " + name, UP_TO)
registers["select-10"] = {5: 10}
sheet("select-10", program(addi(5, 0, 10), hfi(SELECT, 0, 5), hfi(GETBASE, 6), ECALL, options=0), "18,3,c,0,0,0,0,0,0", "number 10, which a line of 13 leaves zero", FIELDS)
for n, value in [(4, 4), (5, 0x10), (6, 7), (7, 4), (8, 8), (9, 0xb), (10, 1), (10, 2), (10, 8), (10, 5)]:
    name = "lacking-%d-%x" % (n, value)
    registers[name] = {5: value}
    sheet(name, program(addi(5, 0, n), hfi(SELECT, 0, 5), addi(5, 0, value), hfi(SETPERM, 0, 5), options=0), "14,3,c,0,0,0,0,0,0",
          "permission %x for region %d" % (value, n), LACK)
wide("unlocked-reset-of-ten", [NOP, hfi(RESET), NOP], "11,2,8,0,0,1,0,3,8", "after a reset neither region 3 nor region 10 matches", "Reset zeroes regions and selector.",
     options=0, r10=(0, mask(12), 4))
wide("unlocked-region-10-moved", [addi(5, 0, 10), hfi(SELECT, 0, 5), lui(6, 1), hfi(SETBASE, 0, 6), J(0, 0xff0)], "18,5,1000,0,0,0,0,0,0",
     "region 10 set over 1000, then code there", UP_TO, {5: 10, 6: 0x1000}, options=0, r10=(0x8000, mask(12), 4), more="1000,73\n")
wide("locked-get-base-of-10", [addi(5, 0, 10), hfi(SELECT, 0, 5)], "25,1,4,0,0,0,0,0,0", "locked", R25, {5: 10}, r10=(0x8000, mask(12), 4))

# Job 5
REST = dict(r10=(0x3000, mask(12), 4))


def four_of_ten(name, shows, sentence=ALL_TEN, **how):
    wide(name, [NOP, ECALL], "4,0,0,0,0,0,0,0,0", shows, sentence, **how)


def ten_go_on(name, shows, sentence=ALL_TEN, **how):
    wide(name, [NOP, ECALL], "18,1,4,0,0,0,0,0,0", shows, sentence, **how)


for n in (1, 4, 5, 6, 2, 7, 8, 9):
    def byte(address): return (address, 1, 2) if n in EXPLICIT else (address, mask(0), 2)
    if n > 3:
        four_of_ten("four-%d-against-3" % n, "region %d writes code's last byte" % n, **{"r%d" % n: byte(0xfff)})
    four_of_ten("four-%d-against-10" % n, "region %d writes the first byte of region 10" % n, **dict(REST, **{"r%d" % n: byte(0x3000)}))
APART = dict(r1=(0x4000, 0x100, 3), r2=(0x5000, mask(8), 3), r4=(0x1000, 0x100, 3), r5=(0x2fff, 1, 3), r6=(0x2000, 0x10, 3), r7=(0x6000, mask(8), 3), r8=(0x7000, mask(8), 3),
             r9=(0x2000, mask(8), 3), **REST)
ten_go_on("ten-regions-apart", "ten regions, no byte both ways", **APART)
four_of_ten("ten-regions-one-byte", "the same, region 5 a byte longer", **dict(APART, r5=(0x2fff, 2, 3)))
for lower, higher in [(2, 7), (2, 9), (7, 8), (8, 9)]:
    pair = "%d-%d" % (lower, higher)
    names = ("r%d" % lower, "r%d" % higher)
    ten_go_on("hidden-from-four-" + pair, "the lower region lacks write and hides the later one in code", LOWEST, **dict(zip(names, [(0, mask(12), 1), (0, mask(12), 3)])))
    four_of_ten("four-lower-ends-inside-" + pair, "the lower region lacks write and ends inside", LOWEST, **dict(zip(names, [(0, mask(11), 1), (0, mask(12), 3)])))
    four_of_ten("four-lower-broken-" + pair, "the lower region breaks its rule and hides nothing", NO_MATCH, **dict(zip(names, [(8, mask(12), 1), (0, mask(12), 3)])))
four_of_ten("four-explicit-not-hidden", "region 2 without write hides nothing of region 4", "02, Job 7: an h-word asks only the region it chooses", r2=(0, mask(12), 1), r4=(0x800, 4, 2))
four_of_ten("four-explicit-hides-nothing", "region 1 without write hides nothing of region 6", "02, Job 7: an h-word asks only the region it chooses", r1=(0, 0x1000, 1), r6=(0x800, 4, 2))
wide("hidden-code-not-executable", [NOP], "11,0,0,0,0,1,3,3,0", "region 3 hides region 10, so its bytes may be written", LOWEST, r2=(0, mask(12), 3), r3=(0, mask(12), 0),
     r10=(0, mask(12), 4))
four_of_ten("four-code-3-ends-inside-10", "region 3 without execute ends inside region 10", LOWEST, r2=(0, mask(12), 3), r3=(0, mask(11), 0), r10=(0, mask(12), 4))
four_of_ten("four-code-10-past-memory", "region 6 and region 10 share bytes past memory", A53, r6=(0x7fff0000, 0x10000, 0xb), r10=(0x70000000, mask(28), 4))
four_of_ten("four-code-10-of-one-byte", "region 10 is one byte, which region 9 writes", A30, r9=(0x2000, mask(8), 2), r10=(0x2003, mask(0), 4))
ten_go_on("code-10-without-execute-written", "region 10 without execute may be written", r9=(0x3000, mask(12), 3), r10=(0x3000, mask(12), 0))


# ---------------------------------------------------------------- Job 8
section("Half-words (document 02, Job 8)")
STANDS = "02, Job 8: Each stands for one RV64I instruction, with 2 in place of 4 in the next pc and in link values."
ILLEGAL = "02, Job 8: its floating-point loads and stores are illegal, as are reserved words"
C_NOP, C_EBREAK = 0x0001, 0x9002


def laid(items, at=0):
    """Words and half-words one after the other from any multiple of 2, as word lines."""
    bytes_of = b"".join(w.to_bytes(4 if w & 3 == 3 else 2, "little") for w in items)
    low = at & ~3
    bytes_of = bytes(at - low) + bytes_of
    bytes_of += bytes(-len(bytes_of) % 4)
    return "".join("%x,%08x\n" % (low + k, int.from_bytes(bytes_of[k:k + 4], "little")) for k in range(0, len(bytes_of), 4))


def half(name, items, first, shows, sentence, values=None, at=0, more="", **how):
    """A sheet whose items stand from `at` on, with all its registers; a line of 34 fields if a region above 3 is given."""
    registers[name] = {n: v & ONES for n, v in (values or {}).items()}
    line = wide_setup(**how) if any("r%d" % n in how for n in range(4, 11)) else setup(**how)
    sheet(name, line + laid(items, at) + more, first, shows, sentence)


# The half-words below are those that GNU as makes of the names beside them.
half("half-addi", [0x1511, ECALL], "18,1,2,0,0,0,0,0,0", "C.ADDI x10, -28; the ECALL stands at 2", STANDS, {10: ONES - 27})
half("half-li-and-addiw", [0x557d, 0x2505, 0x5581, 0x35fd, ECALL], "18,4,8,0,0,0,0,0,0", "C.LI -1, C.ADDIW 1; C.LI -32, C.ADDIW -1", STANDS, {11: ONES - 32})
half("half-lui", [0x6505, 0x7581, 0x667d, ECALL], "18,3,6,0,0,0,0,0,0", "C.LUI 1, fffe0 and 1f", STANDS, {10: 0x1000, 11: ONES - 0x1ffff, 12: 0x1f000})
half("half-stack-pointer", [0x6171, 0x0040, 0x1ffc, 0x713d, ECALL], "18,4,8,0,0,0,0,0,0",
     "C.ADDI16SP 336; C.ADDI4SPN x8, 4 and x15, 1020; C.ADDI16SP -32", STANDS, {2: 304, 8: 340, 15: 1356})
half("half-shifts", [0x557d, 0x9101, 0x052e, 0x55fd, 0x95fd, 0x91fd, ECALL], "18,6,c,0,0,0,0,0,0",
     "C.LI -1, C.SRLI 32, C.SLLI 11; C.LI -1, C.SRAI 63, C.SRLI 63", STANDS, {10: 0x7fffffff800, 11: 1})
half("half-operations", [0x4515, 0x4599, 0x8d0d, 0x4615, 0x8e2d, 0x4695, 0x8ecd, 0x4715, 0x8f6d, ECALL], "18,9,12,0,0,0,0,0,0",
     "5 and 6: C.SUB, C.XOR, C.OR, C.AND", STANDS, {10: ONES, 11: 6, 12: 3, 13: 7, 14: 4})
half("half-word-operations", [addi(10, 0, 1), srli(11, 0, 0), 0x157e, 0x15fd, 0x9d0d, 0x85aa, 0x9da9, ECALL], "18,7,12,0,0,0,0,0,0",
     "C.SLLI 63 of 1, C.ADDI -1: C.SUBW gives 1, C.MV, C.ADDW gives 2", STANDS, {10: 1, 11: 2})
half("half-andi", [addi(10, 0, -1), 0x897d, addi(11, 0, -1), 0x9981, ECALL], "18,4,c,0,0,0,0,0,0", "C.ANDI 31 and -32 of ones", STANDS,
     {10: 31, 11: ONES - 31})
half("half-move-and-add", [0x4515, 0x85aa, 0x95aa, 0x95ae, ECALL], "18,4,8,0,0,0,0,0,0", "C.MV, C.ADD of another and of itself", STANDS, {10: 5, 11: 20})
half("half-memory", [lui(8, 1), 0x557d, 0xdc68, 0x5c6c, 0xfc68, 0x7c70, ECALL], "18,6,e,0,0,0,0,0,0",
     "C.SW and C.LW at 124, C.SD and C.LD at 248", STANDS, {8: 0x1000, 10: ONES, 11: ONES, 12: ONES}, r2=DATA)
half("half-stack-memory", [lui(2, 1), 0x557d, 0xdfaa, 0x55fe, 0xffaa, 0x767e, ECALL], "18,6,e,0,0,0,0,0,0",
     "C.SWSP and C.LWSP at 252, C.SDSP and C.LDSP at 504", STANDS, {2: 0x1000, 10: ONES, 11: ONES, 12: ONES}, r2=DATA)
half("half-load-refused", [lui(8, 2), 0x5c6c], "16,1,4,0,0,1,0,1,207c", "C.LW x11, 124(x8) past the data", STANDS, {8: 0x2000}, r2=DATA)
half("half-store-refused", [lui(2, 2), 0xffaa], "16,1,4,0,0,1,0,2,21f8", "C.SDSP x10, 504 past the data", STANDS, {2: 0x2000}, r2=DATA)
half("half-jump", [0xa021, 0x4505, C_EBREAK, C_EBREAK, 0x4509, ECALL], "18,2,a,0,0,0,0,0,0", "C.J to 8", STANDS, {10: 2})
half("half-jump-to-two", [0xa011, C_EBREAK, 0xbffd], "19,2,2,0,0,0,0,0,0", "C.J to 4, C.J back to 2", STANDS, {})
half("half-call", [0x4529, 0x9502, C_EBREAK, C_EBREAK, C_EBREAK, 0x8082], "19,3,4,0,0,0,0,0,0", "C.LI x10, 10, C.JALR x10 to a with link 4, C.JR x1", STANDS, {1: 4, 10: 10})
half("half-branches", [0x440d, 0x0509, 0x147d, 0xfc75, 0xc011, C_EBREAK, ECALL], "18,b,c,0,0,0,0,0,0",
     "a loop of three rounds by C.BNEZ, then C.BEQZ taken", STANDS, {10: 6})
half("half-ebreak", [C_NOP, C_EBREAK], "19,1,2,0,0,0,0,0,0", "C.EBREAK", STANDS, {})
half("half-hints", [0x0005, 0x107d, 0x0081, 0x4001, 0x6005, 0x8001, 0x8401, 0x0082, 0x0002, 0x8006, 0x9006, ECALL], "18,b,16,0,0,0,0,0,0",
     "HINTs do nothing", STANDS, {})
for name, word, shows in [
    ("addi4spn-0", 0x0004, "C.ADDI4SPN with 0"), ("quadrant-0-4", 0x8000, "quadrant 0, funct3 4"), ("addiw-x0", 0x2001, "C.ADDIW x0"),
    ("lui-0", 0x6281, "C.LUI with 0"), ("addi16sp-0", 0x6101, "C.ADDI16SP with 0"), ("lui-x0-0", 0x6001, "C.LUI x0 with 0"),
    ("beside-subw", 0x9c41, "the first free slot beside C.SUBW"), ("beside-addw", 0x9c61, "the second one"), ("lwsp-x0", 0x4002, "C.LWSP x0"),
    ("ldsp-x0", 0x6002, "C.LDSP x0"), ("jr-x0", 0x8002, "C.JR x0"), ("fld", 0x2000, "C.FLD"), ("fsd", 0xa000, "C.FSD"), ("fldsp", 0x2002, "C.FLDSP"),
    ("fsdsp", 0xa002, "C.FSDSP")]:
    half("half-illegal-" + name, [C_NOP, word], "13,1,2,0,0,0,0,0,0", shows, ILLEGAL, {})
half("long-at-two", [C_NOP, addi(10, 0, 5), C_NOP, ECALL], "18,3,8,0,0,0,0,0,0", "a long word at 2", FETCH, {10: 5})
half("long-jump-at-two", [C_NOP, J(1, 6), C_EBREAK, ECALL], "18,2,8,0,0,0,0,0,0", "JAL at 2 to 8: the link is 6", STANDS, {1: 6})
half("long-exit-at-two", [C_NOP, EXIT], "20,2,6,1,2,0,0,0,0", "exit pc 2, then pc 6", "02, Job 8: pc need only be a multiple of 2.", {}, options=1)
half("long-exit-at-two-redirected", [C_NOP, EXIT], "20,2,100,1,2,0,0,0,0", "exit pc 2, then the handler", "02, Job 8: pc need only be a multiple of 2.", {}, options=5, handler=0x100)
half("long-call-at-two-redirected", [C_NOP, ECALL], "20,2,100,2,2,0,0,0,0", "exit pc 2", "02, Job 8: pc need only be a multiple of 2.", {}, options=3, handler=0x100)
half("start-at-two", [C_EBREAK, addi(10, 0, 5), C_EBREAK], "19,1,6,0,0,0,0,0,0", "pc 2", "02, Job 8: pc need only be a multiple of 2.", {10: 5}, pc=2)
half("half-fetch-code-of-two-bytes", [C_NOP, C_NOP], "11,1,2,0,0,1,0,3,2", "two bytes of code: a half-word runs", FETCH, {}, r3=(0, mask(1), 4))
half("half-fetch-code-of-one-byte", [C_NOP], "11,0,0,0,0,1,0,3,1", "one byte of code", FETCH, {}, r3=(0, mask(0), 4))
half("long-fetch-code-of-two-bytes", [NOP], "11,0,0,0,0,1,0,3,2", "two bytes of code: a long word's third byte is refused", FETCH, {}, r3=(0, mask(1), 4))
half("illegal-long-code-of-two-bytes", [0xffffffff], "11,0,0,0,0,1,0,3,2", "11 of the second half before 13", FETCH, {}, r3=(0, mask(1), 4))
half("illegal-half-code-of-two-bytes", [0x8000], "13,0,0,0,0,0,0,0,0", "13 of a half-word, whatever follows", FETCH, {}, r3=(0, mask(1), 4))
half("half-last-of-memory", [C_NOP, C_NOP], "12,2,10000,0,0,0,0,0,0", "half-words at fffc and fffe, then off the end", FETCH, {}, pc=0xfffc, at=0xfffc, r3=(0, mask(17), 4))
sheet("long-over-end-of-memory", program(0x00130001, pc=0xfffc, at=0xfffc, r3=(0, mask(17), 4)), "12,1,fffe,0,0,0,0,0,0",
      "the second half of a long word at fffe is absent", FETCH)
sheet("long-over-end-refused-first", program(0x00130001, pc=0xfffc, at=0xfffc, r3=(0, mask(16), 4)), "11,1,fffe,0,0,1,0,3,10000",
      "its second half is refused and absent: 11", FETCH)

INTEGER = "02, Job 8: Add the integer words of RV64C from the unprivileged specification"
TWO = "02, Job 8: with 2 in place of 4 in the next pc and in link values"
EVEN = "02, Job 8: pc need only be a multiple of 2."
TAKES = "02, Job 8: A fetch takes two bytes, asks 11 and 12 of them"
TWO_MORE = "02, Job 8: and takes two more only if the low two bits are both ones, then asking 11 and 12 of those"
HINTS = "02, Job 8: Each stands for one RV64I instruction (Reading A61: HINTs are legal.)"
A29 = "exit pc is this pc (Reading A29: whole, bit 1 too)"
A62 = "7. Is the word legal? No: **13**. (Reading A62: asked after all four bytes are fetched, also for longer formats.)"
A65 = "34: ... addresses multiples of 4 (Reading A65: Job 8 leaves words and their addresses as they were.)"
NO_15 = "02, Job 8: jumps and branches never get it"

# each group
half("half-addi4spn", [lui(2, 1), c_addi4spn(8, 4), c_addi4spn(15, 1020), c_addi4spn(9, 512), ECALL], "18,4,a,0,0,0,0,0,0", "C.ADDI4SPN by 4, 1,020 and 512", INTEGER,
     {2: 0x1000, 8: 0x1004, 15: 0x13fc, 9: 0x1200})
half("half-load-store", [c_lui(8, 1), c_li(9, -2), c_sd(9, 8, 0), c_sw(9, 8, 8), c_ld(10, 8, 0), c_lw(11, 8, 8), c_ld(12, 8, 8), c_sd(9, 8, 248), c_ld(13, 8, 248),
     c_sw(9, 8, 124), c_ld(14, 8, 120), ECALL], "18,b,16,0,0,0,0,0,0", "C.SD C.SW C.LD C.LW, first and last offsets", INTEGER,
     {8: 0x1000, 9: -2, 10: -2, 11: -2, 12: 0xfffffffe, 13: -2, 14: 0xfffffffe00000000}, r2=DATA)
half("half-load-each-bit", [c_lui(8, 1)] + [c_lw(9 + k, 8, n) for k, n in enumerate((4, 8, 16, 32, 64))] + [c_ld(14, 8, 128), ECALL], "18,7,e,0,0,0,0,0,0",
     "each bit of an offset", INTEGER, {8: 0x1000, 9: 4, 10: 8, 11: 0x10, 12: 0x20, 13: 0x40, 14: 0x80}, r2=DATA,
     more="".join("%x,%x\n" % (0x1000 + n, n) for n in (4, 8, 16, 32, 64, 128)))
half("half-stack", [lui(2, 1), c_li(5, -3), c_sdsp(5, 504), c_ldsp(31, 504), c_swsp(5, 252), c_lwsp(30, 252), c_ldsp(29, 248), c_addi16sp(496), c_ldsp(28, 8), c_addi16sp(-512),
     ECALL], "18,a,16,0,0,0,0,0,0", "C.SDSP C.LDSP C.SWSP C.LWSP C.ADDI16SP, last offsets, and x28 to x31", INTEGER,
     {2: 0xff0, 5: -3, 28: -3, 29: 0xfffffffd00000000, 30: -3, 31: -3}, r2=DATA)
half("half-stack-each-bit", [lui(2, 1)] + [c_ldsp(5 + k, n) for k, n in enumerate((8, 16, 32, 64, 128, 256))] + [c_lwsp(11, 4), ECALL], "18,8,12,0,0,0,0,0,0",
     "each bit of an offset", INTEGER, {2: 0x1000, 5: 8, 6: 0x10, 7: 0x20, 8: 0x40, 9: 0x80, 10: 0x100, 11: 4}, r2=DATA,
     more="".join("%x,%x\n" % (0x1000 + n, n) for n in (4, 8, 16, 32, 64, 128, 256)))
half("half-addi16sp-each-bit", [n for k in (16, 32, 64, 128, 256, -512) for n in (c_li(5, 0), c_mv(2, 5 if k == 16 else 2), c_addi16sp(k))] + [ECALL], "18,12,24,0,0,0,0,0,0",
     "each bit of C.ADDI16SP: the sum is -16", INTEGER, {2: -16})
half("half-immediates", [c_li(5, 31), c_li(6, -32), c_addi(5, -32), c_addi(6, 31), lui(7, 0x80000), c_addiw(7, -1), c_mv(8, 7), c_addiw(8, 1), c_addiw(9, 0), c_lui(10, 31), c_lui(11, -32),
     c_li(12, -1), c_andi(12, -32), c_li(13, 31), c_andi(13, 10), ECALL], "18,f,20,0,0,0,0,0,0", "C.LI C.ADDI C.ADDIW C.LUI C.ANDI at their ends", INTEGER,
     {5: -1, 6: -1, 7: 0x7fffffff, 8: 0xffffffff80000000, 10: 0x1f000, 11: 0xfffffffffffe0000, 12: -32, 13: 10})
half("half-shifts-by-0", [c_li(8, -16), c_mv(9, 8), c_srli(9, 60), c_mv(10, 8), c_srai(10, 3), c_mv(11, 8), c_slli(11, 59), c_slli(31, 1), c_slli(8, 0), c_srli(8, 0), c_srai(8, 0), ECALL],
     "18,b,16,0,0,0,0,0,0", "C.SRLI C.SRAI C.SLLI, by 0 too", INTEGER, {8: -16, 9: 0xf, 10: -2, 11: 1 << 63})
half("half-shifts-by-63", [c_li(8, -1), c_srli(8, 63), c_li(9, -1), c_slli(9, 63), c_mv(10, 9), c_srai(10, 63), c_mv(15, 9), c_srli(15, 32), ECALL], "18,8,10,0,0,0,0,0,0",
     "amounts of 63 and 32: bit 5 of the amount", INTEGER, {8: 1, 9: 1 << 63, 10: -1, 15: 0x80000000})
half("half-between-registers", [c_li(8, -7), c_li(9, 3), c_mv(10, 8), c_sub(10, 9), c_mv(11, 8), c_xor(11, 9), c_mv(12, 8), c_or(12, 9), c_mv(13, 8), c_and(13, 9), c_mv(14, 8),
     c_addw(14, 9), c_mv(15, 8), c_subw(15, 9), c_add(5, 8), c_add(5, 9), ECALL], "18,10,20,0,0,0,0,0,0", "C.SUB C.XOR C.OR C.AND C.ADDW C.SUBW C.ADD of -7 and 3", INTEGER,
     {5: -4, 8: -7, 9: 3, 10: -10, 11: -6, 12: -5, 13: 1, 14: -4, 15: -10})
half("half-word-forms", [lui(8, 0x80000), c_li(9, 1), c_mv(10, 8), c_subw(10, 9), c_mv(11, 10), c_addw(11, 9), ECALL], "18,6,e,0,0,0,0,0,0", "C.SUBW and C.ADDW over the end of 32 bits",
     INTEGER, {8: 0xffffffff80000000, 9: 1, 10: 0x7fffffff, 11: 0xffffffff80000000})
half("half-same-register", [c_li(8, 5), c_add(8, 8), c_sub(8, 8), c_li(9, 5), c_xor(9, 9), c_li(10, 5), c_and(10, 10), c_or(10, 10), c_addw(10, 10), ECALL], "18,9,12,0,0,0,0,0,0",
     "both operands are one register", INTEGER, {10: 10})
half("half-hints-of-each-kind", [c_nop(), c_nop(31), c_nop(-32), c_addi(5, 0), c_li(0, 7), c_lui(0, 1), c_lui(0, -1), c_mv(0, 8), c_add(0, 8), c_slli(0, 0), c_slli(0, 63), c_slli(5, 0), c_srli(8, 0),
     c_srai(8, 0), ECALL], "18,e,1c,0,0,0,0,0,0", "each kind of HINT does nothing", HINTS)
half("half-hints-with-values", [c_li(8, 9), c_mv(0, 8), c_add(0, 8), c_li(0, 31), c_addi(0, 31), c_add(9, 8), ECALL], "18,6,c,0,0,0,0,0,0", "x0 stays 0", HINTS, {8: 9, 9: 9})
half("half-all-registers", [c_li(n, n) for n in range(1, 32)] + [ECALL], "18,1f,3e,0,0,0,0,0,0", "C.LI to x1 to x31", INTEGER, {n: n for n in range(1, 32)})
half("half-moves-of-all", [c_li(31, 1)] + [c_mv(n, n + 1) for n in range(30, 0, -1)] + [c_add(n, n - 1) for n in range(2, 32)] + [ECALL], "18,3d,7a,0,0,0,0,0,0",
     "C.MV down and C.ADD up through x1 to x31", INTEGER, {n: n for n in range(1, 32)})

# jumps, branches, links
half("half-jumps", [c_j(8), c_li(11, 1), c_j(6), c_ebreak(), c_j(-6), ECALL], "18,4,a,0,0,0,0,0,0", "C.J forward, back, forward", INTEGER, {11: 1})
half("half-jump-far", [c_j(2046)], "11,2,fffffffffffffffe,0,0,1,0,3,fffffffffffffffe", "2,046 on, then 2,048 back: to 2^64 - 2", INTEGER, more=laid([c_j(-2048)], 0x7fe))
half("half-jump-each-bit", [c_j(2), c_j(4)], "18,a,7fe,0,0,0,0,0,0", "each bit of C.J's offset: 2 on, 4 on, up to 1,024 on", INTEGER,
     more="".join(laid([c_j(n)], n - 2) for n in (8, 16, 32, 64, 128, 256, 512, 1024)) + laid([ECALL], 0x7fe))
half("half-branches-both-ways", [c_beqz(8, 4), c_ebreak(), c_li(8, 1), c_beqz(8, 4), c_bnez(8, 4), c_ebreak(), c_li(8, 0), c_bnez(8, -2), ECALL], "18,6,10,0,0,0,0,0,0",
     "C.BEQZ and C.BNEZ, taken and not", INTEGER)
half("half-branch-far", [c_beqz(15, 254)], "11,2,fffffffffffffffe,0,0,1,0,3,fffffffffffffffe", "C.BEQZ 254 on, then 256 back: to 2^64 - 2", INTEGER, more=laid([c_beqz(9, -256)], 0xfe))
half("half-branch-far-not-zero", [c_li(15, 1), c_bnez(15, 252)], "11,3,fffffffffffffffe,0,0,1,0,3,fffffffffffffffe", "C.BNEZ 252 on, then 256 back", INTEGER, {15: 1},
     more=laid([c_bnez(15, -256)], 0xfe))
half("half-branch-each-bit", [c_beqz(8, 2), c_beqz(9, 4)], "18,7,fe,0,0,0,0,0,0", "each bit of a branch's offset: 2 on, 4 on, up to 128 on", INTEGER,
     more="".join(laid([c_beqz(n.bit_length() + 6, n)], n - 2) for n in (8, 16, 32, 64, 128)) + laid([ECALL], 0xfe))
half("half-branch-whole-register", [c_li(8, 1), c_slli(8, 32), c_beqz(8, 4), c_bnez(8, 4), c_ebreak(), ECALL], "18,4,a,0,0,0,0,0,0", "2^32 is not zero", STANDS, {8: 1 << 32})
half("half-loop", [c_li(8, 5), c_addi(9, 2), c_addi(8, -1), c_bnez(8, -4), ECALL], "18,10,8,0,0,0,0,0,0", "a loop of five rounds", INTEGER, {9: 10})
half("half-links", [c_nop(), J(1, 6), c_ebreak(), c_mv(5, 1), U(0x17, 6, 0), c_addi(6, 10), c_jalr(6), c_ebreak(), c_mv(7, 1), addi(6, 6, 14), jalr(8, 6, 0), c_ebreak(), c_ebreak(), ECALL],
     "18,9,22,0,0,0,0,0,0", "JAL at 2 links 6, C.JALR at 10 links 12, JALR at 1a links 1e", TWO, {1: 0x12, 5: 6, 6: 0x22, 7: 0x12, 8: 0x1e})
half("half-jalr-of-x1", [c_li(1, 8), c_jalr(1), c_ebreak(), c_ebreak(), ECALL], "18,2,8,0,0,0,0,0,0", "C.JALR by x1: the target is of the old value", TWO, {1: 4})
half("half-jr-odd", [c_li(5, 7), c_jr(5), c_ebreak(), ECALL], "18,2,6,0,0,0,0,0,0", "C.JR to 7 goes to 6", STANDS, {5: 7})
half("half-jalr-odd", [c_li(5, 9), c_jalr(5), c_ebreak(), c_ebreak(), ECALL], "18,2,8,0,0,0,0,0,0", "C.JALR to 9 goes to 8", STANDS, {1: 4, 5: 9})
half("half-jr-does-not-link", [c_li(1, 6), c_jr(1), c_ebreak(), ECALL], "18,2,6,0,0,0,0,0,0", "C.JR by x1 leaves x1", STANDS, {1: 6})
half("half-j-does-not-link", [c_j(4), c_ebreak(), ECALL], "18,1,4,0,0,0,0,0,0", "C.J writes no register", STANDS)
half("half-long-jalr-odd", [addi(5, 0, 11), jalr(1, 5, 0), c_ebreak(), ECALL], "18,2,a,0,0,0,0,0,0", "JALR to b goes to a", NO_15, {1: 8, 5: 11})
half("half-long-branch", [B(0, 0, 0, 6), c_ebreak(), c_li(10, 3), ECALL], "18,2,8,0,0,0,0,0,0", "BEQ to 6", NO_15, {10: 3})
half("half-long-branch-back", [c_j(8), c_li(10, 3), ECALL, B(0, 0, 0, -6)], "18,3,4,0,0,0,0,0,0", "BEQ at 8 back to 2", NO_15, {10: 3})
half("half-long-jal-back", [c_j(6), ECALL, J(5, -4)], "18,2,2,0,0,0,0,0,0", "JAL at 6 back to 2", NO_15, {5: 10})
half("half-call-and-return", [J(1, 10), ECALL, c_nop(), c_li(10, 9), c_jr(1)], "18,3,4,0,0,0,0,0,0", "a call to a, and back to 4", TWO, {1: 4, 10: 9})
half("half-call-from-2", [c_nop(), J(1, 10), ECALL, c_nop(), c_li(10, 9), c_jr(1)], "18,4,6,0,0,0,0,0,0", "a call from 2 to c, and back to 6", TWO, {1: 6, 10: 9})

# long words at 2 modulo 4
half("half-pc-2", [addi(10, 0, 5), ECALL], "18,1,6,0,0,0,0,0,0", "a sheet that starts at 2", EVEN, {10: 5}, at=2, pc=2)
half("half-pc-6-half-word", [c_li(10, 5), ECALL], "18,1,8,0,0,0,0,0,0", "a sheet that starts at 6", EVEN, {10: 5}, at=6, pc=6)
half("half-auipc-at-2", [c_nop(), U(0x17, 5, 1), ECALL], "18,2,6,0,0,0,0,0,0", "AUIPC at 2", EVEN, {5: 0x1002})
half("half-multiply-at-6", [c_li(5, 6), c_li(6, 7), c_nop(), m("mul", 10, 5, 6), ECALL], "18,4,a,0,0,0,0,0,0", "MUL at 6", EVEN, {5: 6, 6: 7, 10: 42})
half("half-h-words-at-2", [c_li(10, 5), hstore(SB, 10, 0, 3), hload(LBU, 11, 0, 3), EXIT], "20,4,e,1,a,0,0,0,0", "hsb at 2, hlbu at 6, exit at a", EVEN, {10: 5, 11: 5}, r1=SMALL)
half("half-h-load-refused-at-2", [c_nop(), hload(LD, 10, 0, 0x39)], "16,1,2,0,0,1,1,1,2040", "hld at 2 past its region", EVEN, r1=SMALL)
half("half-enter-at-2", [c_nop(), hfi(0)], "23,1,2,0,0,0,0,0,0", "enter at 2", EVEN)
half("half-select-at-2-locked", [c_nop(), hfi(SELECT, 0, 0)], "25,1,2,0,0,0,0,0,0", "a locked select at 2", EVEN)
half("half-get-base-at-2", [c_nop(), hfi(GETBASE, 5)], "14,1,2,0,0,0,0,0,0", "get base at 2, unlocked, nothing selected", EVEN, options=0)
half("half-into-a-long-word", [J(0, 6), 0x45150013, ECALL], "18,2,8,0,0,0,0,0,0", "a jump to the upper half of a long word: C.LI", EVEN, {10: 5})
half("half-past-that-long-word", [c_nop(), c_nop(), 0x45150013, ECALL], "18,3,8,0,0,0,0,0,0", "the same long word in its course: a HINT", EVEN)

# the fetch
half("half-second-half-refused", [c_nop(), NOP], "11,1,2,0,0,1,0,3,4", "a long word at 2, its second half past code", TWO_MORE, r3=(0, mask(2), 4))
half("half-second-half-refused-by-10", [c_nop(), NOP], "11,1,2,0,0,1,a,3,4", "its second half in a region without execute", TWO_MORE, r3=(0, mask(2), 4), r10=(4, mask(2), 0))
half("half-fourth-byte-refused", [c_nop(), NOP], "11,1,2,0,0,1,3,3,5", "its fourth byte hidden by region 3", TWO_MORE, r3=(5, mask(0), 0), r10=(0, mask(4), 4))
half("half-second-half-by-10", [c_nop(), addi(10, 0, 5), c_ebreak()], "19,2,6,0,0,0,0,0,0", "its second half in region 10", TWO_MORE, {10: 5}, r3=(0, mask(2), 4), r10=(4, mask(2), 4))
half("half-first-half-refused", [c_nop(), NOP], "11,1,2,0,0,1,0,3,2", "a long word at 2, past code", TAKES, r3=(0, mask(1), 4))
half("half-second-byte-refused", [c_nop(), c_nop()], "11,1,2,0,0,1,0,3,3", "the second byte of a half-word", TAKES, r3=(0, mask(1), 4), r10=(2, mask(0), 4))
half("half-last-two-executable", [c_nop(), c_nop(), c_nop()], "11,2,4,0,0,1,0,3,4", "half-words up to the end of code", TAKES, r3=(0, mask(2), 4))
half("half-region-of-two-bytes", [c_nop()], "11,1,4,0,0,1,0,3,4", "a code region of two bytes at 2 runs a half-word", TAKES, at=2, pc=2, r3=(2, mask(1), 4))
half("half-regions-of-one-byte", [c_nop()], "11,1,4,0,0,1,0,3,4", "two code regions of one byte each run one", TAKES, at=2, pc=2, r3=(2, mask(0), 4), r10=(3, mask(0), 4))
half("half-region-of-one-odd-byte", [c_nop()], "11,0,2,0,0,1,0,3,2", "a code region of one byte at 3: the byte before is refused", TAKES, at=2, pc=2, r3=(3, mask(0), 4))
half("half-region-of-one-even-byte", [c_nop()], "11,0,2,0,0,1,0,3,3", "at 2: the byte after is refused", TAKES, at=2, pc=2, r3=(2, mask(0), 4))
half("half-needs-no-more", [c_ebreak()], "19,0,2,0,0,0,0,0,0", "two bytes more are not asked for", TWO_MORE, at=2, pc=2, r3=(2, mask(1), 4))
MEMORY_AND_MORE = (0, mask(17), 4)
half("half-last-two-present", [c_nop()], "12,1,10000,0,0,0,0,0,0", "a half-word in memory's last two bytes", TAKES, at=0xfffe, pc=0xfffe, r3=MEMORY_AND_MORE)
half("half-second-half-absent", [], "12,0,fffe,0,0,0,0,0,0", "a long word whose second half is past memory", TWO_MORE, more="fffc,00130000\n", pc=0xfffe, r3=MEMORY_AND_MORE)
half("half-second-half-both", [], "11,0,fffe,0,0,1,0,3,10000", "refused and absent: 11", TWO_MORE, more="fffc,00130000\n", pc=0xfffe, r3=(0, mask(16), 4))
half("half-absent-before-refused", [], "12,0,10000,0,0,0,0,0,0", "two absent bytes are granted, the next two are not: 12, which was 11",
     TAKES + " (Reading A60: absent first bytes before a refused second half.)", pc=0x10000, r3=(0x10000, mask(1), 4))
half("half-absent-at-2", [], "12,0,10002,0,0,0,0,0,0", "pc 10002", TAKES, pc=0x10002, r3=(0x10000, mask(16), 4))
half("half-refused-before-absent", [], "11,0,10002,0,0,1,0,3,10002", "refused and absent: 11", TAKES, pc=0x10002, r3=(0x10000, mask(1), 4))
half("half-absent-at-the-top", [], "12,0,fffffffffffe,0,0,0,0,0,0", "the last two bytes below 2^48", TAKES, pc=0xfffffffffffe, r3=(0, mask(48), 4))
half("half-past-the-top", [], "11,0,1000000000000,0,0,1,0,3,1000000000000", "2^48", TAKES, pc=1 << 48, r3=(0, mask(48), 4))
half("half-at-2-to-64-less-2", [], "11,0,fffffffffffffffe,0,0,1,0,3,fffffffffffffffe", "pc 2^64 - 2", TAKES, pc=ONES - 1)
for name, pc, how, shows in [("ffff", 0xffff, dict(r3=MEMORY_AND_MORE), "memory's last byte: 10 before 12"), ("10001", 0x10001, dict(r3=MEMORY_AND_MORE), "10 before 12"),
                             ("2001", 0x2001, {}, "10 before 11"), ("7", 7, dict(r3=NONE), "no code region: 10 before 11")]:
    half("half-odd-pc-" + name, [c_nop()], "10,0,%x,0,0,0,0,0,0" % pc, shows, Q4, pc=pc, **how)

# illegal half-words
for name, word, shows in [
    ("zero", 0x0000, "0"), ("addi4spn-0-x15", 0x001c, "C.ADDI4SPN to x15 with immediate 0"), ("quadrant-0-4-last", 0x9ffc, "the last of quadrant 0 with funct3 4"),
    ("addiw-x0-1", 0x2005, "C.ADDIW to x0 with immediate 1"), ("lui-0-x1", 0x6081, "C.LUI to x1 with immediate 0, which Zcmop uses"),
    ("lui-0-x31", 0x6f81, "C.LUI to x31 with immediate 0"), ("beside-subw-last", 0x9ffd, "the last free one beside C.SUBW, where Zcb is"), ("fldsp-x8", 0x2422, "C.FLDSP of f8"),
    ("lwsp-x0-4", 0x4012, "C.LWSP to x0 with an offset"), ("fsdsp-last", 0xbffe, "the last C.FSDSP"),
]:
    half("half-illegal-" + name, [c_nop(), word, ECALL], "13,1,2,0,0,0,0,0,0", shows, ILLEGAL)
half("half-illegal-at-0", [0x8002, ECALL], "13,0,0,0,0,0,0,0,0", "C.JR of x0 as the first word", ILLEGAL)
half("half-illegal-alone", [0x8002], "13,0,2,0,0,0,0,0,0", "in a code region of two bytes", ILLEGAL, at=2, pc=2, r3=(2, mask(1), 4))

# longer formats
for name, word, shows in [("1f", 0x0000001f, "48 bits"), ("5f", 0x1234565f, "48 bits"), ("3f", 0x0000003f, "64 bits"), ("bf", 0xffffffbf, "64 bits"), ("7f", 0x0000007f, "80 bits or more"),
                          ("ff", 0x000000ff, "80 bits or more")]:
    half("half-longer-" + name, [c_nop(), word, ECALL], "13,1,2,0,0,0,0,0,0", "low byte %s: a format of %s" % (name, shows), A62)
half("half-longer-refused", [c_nop(), 0x1f], "11,1,2,0,0,1,0,3,4", "its second half is refused: 11 before 13", A62, r3=(0, mask(2), 4))
half("half-longer-absent", [], "12,0,fffe,0,0,0,0,0,0", "its second half is absent: 12 before 13", A62, more="fffc,001f0000\n", pc=0xfffe, r3=MEMORY_AND_MORE)
half("half-longer-no-more", [c_nop(), 0x1f], "13,1,2,0,0,0,0,0,0", "its fifth byte is refused: it is not asked for", A62, r3=(0, mask(2), 4), r10=(4, mask(1), 4))
half("half-illegal-long-at-2", [c_nop(), ONES >> 32], "13,1,2,0,0,0,0,0,0", "a word of ones at 2", Q7)
half("half-illegal-long-refused", [c_nop(), ONES >> 32], "11,1,2,0,0,1,0,3,4", "the same, its second half refused", A62, r3=(0, mask(2), 4))

# 18, 19, 20
half("half-ebreak-first", [c_ebreak()], "19,0,0,0,0,0,0,0,0", "C.EBREAK", "13. Is it anything but EBREAK? No: **19**.")
half("half-ebreak-at-2", [c_li(10, 7), c_ebreak()], "19,1,2,0,0,0,0,0,0", "C.EBREAK at 2, all options set", "13. Is it anything but EBREAK? No: **19**.", {10: 7}, options=15)
half("half-long-ebreak-at-2", [c_nop(), EBREAK], "19,1,2,0,0,0,0,0,0", "EBREAK at 2", "13. Is it anything but EBREAK? No: **19**.")
half("half-ecall-at-2", [c_nop(), ECALL], "18,1,2,0,0,0,0,0,0", "ECALL at 2", "12. Is it anything but an ECALL that is not redirected? No: **18**.")
half("half-handler-2", [c_nop()], "3,0,0,0,0,0,0,0,0", "a handler of 2 is not well formed", "Well formed means: ... handler bits 0, 1, 62, 63 clear (Reading A63: as before.)", handler=2)

# data
half("half-load-outside-data", [c_lw(9, 8, 0)], "16,0,0,0,0,1,0,1,0", "C.LW outside data", Q10)
half("half-store-outside-data", [c_sd(9, 8, 8)], "16,0,0,0,0,1,0,2,8", "C.SD outside data", Q10)
half("half-load-past-data", [lui(8, 2), c_ld(9, 8, 0)], "16,1,4,0,0,1,0,1,2000", "C.LD past the last byte", Q10, {8: 0x2000}, r2=DATA)
half("half-store-over-the-end", [lui(2, 2), addi(2, 2, -4), c_sdsp(5, 0)], "16,2,8,0,0,1,0,2,2000", "C.SDSP over the last byte", Q10, {2: 0x1ffc}, r2=DATA)
half("half-store-no-write", [lui(8, 1), c_sw(8, 8, 4)], "16,1,4,0,0,1,2,2,1004", "C.SW where region 2 lacks write", Q10, {8: 0x1000}, r2=(0x1000, mask(12), 1))
half("half-load-absent", [lui(2, 0x10), c_lwsp(10, 0)], "17,1,4,0,0,0,0,0,0", "C.LWSP past memory", Q11, {2: 0x10000}, r2=(0x10000, mask(16), 3))
half("half-load-not-explicit", [c_lui(8, 2), c_lw(9, 8, 0)], "16,1,2,0,0,1,0,1,2000", "region 1 is not asked", "an ordinary load or store region 2", {8: 0x2000}, r1=SMALL)
half("half-misaligned", [c_lui(8, 1), c_addi(8, 1), c_li(9, -2), c_sd(9, 8, 0), c_ld(10, 8, 0), c_lw(11, 8, 4), ECALL], "18,6,c,0,0,0,0,0,0", "C.SD, C.LD and C.LW at odd addresses",
     "Misaligned data is allowed.", {8: 0x1001, 9: -2, 10: -2, 11: -1}, r2=DATA)

# steps
half("half-loop-of-one", [c_j(0)], "21,1f,0,0,0,0,0,0,0", "C.J to itself, 31 steps", INTEGER, budget=31)
half("half-loop-of-one-at-2", [c_j(0)], "21,5,2,0,0,0,0,0,0", "the same at 2", EVEN, at=2, pc=2, budget=5)
half("half-empty-budget", [c_j(0)], "21,c350,0,0,0,0,0,0,0", "50,000 steps", INTEGER)
half("half-budget-used-up", [c_nop(), c_nop(), c_nop()], "21,2,4,0,0,0,0,0,0", "a step each", INTEGER, budget=2)

# locked guests and Job 5
half("half-other-bytes-a", [c_nop()] * 8 + [c_nop()] * 2, "11,8,10,0,0,1,0,3,10", "half-words up to the end of code; others after it", "02, Job 8: takes two more only if", r3=(0, mask(4), 4))
half("half-other-bytes-b", [c_nop()] * 8 + [ONES >> 32], "11,8,10,0,0,1,0,3,10", "the same with other bytes after code", "02, Job 8: takes two more only if", r3=(0, mask(4), 4))
half("half-other-second-half-a", [c_nop()] * 7 + [0x00000013], "11,7,e,0,0,1,0,3,10", "a long word over the end of code", TWO_MORE, r3=(0, mask(4), 4))
half("half-other-second-half-b", [c_nop()] * 7 + [0xffff0013], "11,7,e,0,0,1,0,3,10", "the same with another second half", TWO_MORE, r3=(0, mask(4), 4))
half("half-changes-itself", [lui(5, 4), addi(5, 5, 0x529), store(SH, 5, 0, 14), c_nop(), c_ebreak(), ECALL], "18,5,10,0,0,0,0,0,0",
     "a stored half-word, C.LI of 10, is run (unlocked)", EVEN, {5: 0x4529, 10: 10}, options=0, r2=(0, mask(12), 3))
half("half-changes-half-a-word", [addi(5, 0, 0x70), store(SH, 5, 0, 14), c_nop(), c_nop(), addi(10, 0, 0), ECALL], "18,5,10,0,0,0,0,0,0", "the upper half of a long word is stored (unlocked)",
     TWO_MORE, {5: 0x70, 10: 7}, options=0, r2=(0, mask(12), 3))
half("half-changes-half-at-2", [addi(5, 0, 0x70), store(SH, 5, 0, 12), c_nop(), addi(10, 0, 0), ECALL], "18,4,e,0,0,0,0,0,0", "the same of one at a", TWO_MORE, {5: 0x70, 10: 7},
     options=0, r2=(0, mask(12), 3))
half("half-changes-locked", [c_nop(), c_sw(8, 8, 0)], "4,0,0,0,0,0,0,0,0", "locked, code is writable", ASKED, r2=(0, mask(12), 3))
half("half-store-into-code-locked", [c_nop(), c_sw(8, 8, 0)], "16,1,2,0,0,1,0,2,0", "locked, C.SW into code", AS_FOUND, r2=DATA)
A30_HALF = EXACT + " (Reading A30: a fetch at the even pc below reaches an odd byte.)"
half("half-four-one-odd-byte", [c_nop()], "4,0,0,0,0,0,0,0,0", "code of one byte at 2001, which region 2 writes", A30_HALF, r2=(0x2000, mask(4), 2), r3=(0x2001, mask(0), 4))
half("half-four-one-even-byte", [c_nop()], "4,0,0,0,0,0,0,0,0", "code of one byte at 2002, which region 1 writes", A30_HALF, r1=(0x2002, 1, 2), r3=(0x2002, mask(0), 4))
half("half-four-two-bytes", [c_nop()], "4,0,0,0,0,0,0,0,0", "code of two bytes at 2002, of which region 1 writes the second", A30_HALF, r1=(0x2003, 1, 2), r3=(0x2002, mask(1), 4))
half("half-four-two-bytes-first", [c_nop()], "4,0,0,0,0,0,0,0,0", "the first", A30_HALF, r1=(0x2002, 1, 2), r3=(0x2002, mask(1), 4))
half("half-beside-two-bytes", [c_nop()], "11,1,2004,0,0,1,0,3,2004", "region 1 begins where code of two bytes ends", EXACT, at=0x2002, pc=0x2002, r1=(0x2004, 4, 3), r3=(0x2002, mask(1), 4))
half("half-before-two-bytes", [c_nop()], "11,1,2004,0,0,1,0,3,2004", "region 2 ends where it begins", EXACT, at=0x2002, pc=0x2002, r2=(0x2000, mask(1), 3), r3=(0x2002, mask(1), 4))

# the sheet
sheet("half-address-2", SETUP + "2,1\n", "sheet,34,2", "a word line at 2", A65)
sheet("half-two-in-a-word", SETUP + "0,00010001\n4,9002\n", "19,2,4,0,0,0,0,0,0", "two half-words in one word, and a word of 16 bits", A65)
registers["half-two-in-a-word"] = {}


def write():
    names = [r[0] for r in rows]
    assert len(set(names)) == len(names), [n for n in names if names.count(n) > 1]
    for word in ("oven", "deck", "bake", "mill", "recipe", "season"):
        assert not any(word in n for n in names), word
    os.makedirs(SHEETS, exist_ok=True)
    for name, content, _, _, _ in rows:
        open(os.path.join(SHEETS, name), "wb").write(content)
    out = ["# Stored sheets", "",
           "One file a sheet. The first lines were worked out by hand from document 01, or from",
           "document 02 where a row says `02` (they stand in `oracle/authoring/make_sheets.py`, which",
           "writes this page, and so do the registers of most RV64M sheets, of some budgets, of two long ones, of most of Job 5 and of Jobs 6 to 8), and then confirmed by the oracle. The sheets stand in `crates/sheets/data`; `crates/sheets/stdout` has",
           "for each a line with its name and then the whole output.", ""]
    starts = dict(sections)
    for i, (name, _, first, shows, sentence) in enumerate(rows):
        if i in starts:
            out += ["", "## " + starts[i], "", "| sheet | shows | from document 01 | first line |", "|---|---|---|---|"]
        out.append("| %s | %s | %s | `%s` |" % (name, shows, sentence.replace("|", "\\|"), first))
    open(os.path.join(HERE, "sheets.md"), "w").write("\n".join(out) + "\n")
    print(len(rows), "sheets")


def check(path):
    lines = open(path, encoding="latin-1").read().split("\n")
    names = set(r[0] for r in rows)
    at = {line: i for i, line in enumerate(lines) if line in names}
    bad = 0
    for name, _, first, _, _ in rows:
        printed = lines[at[name] + 1] if name in at else None
        if printed != first:
            bad += 1
            print("%s: by hand %s, printed %s" % (name, first, printed))
        elif name in registers:
            told = ["%d,%x" % pair for pair in sorted(registers[name].items())]
            got = lines[at[name] + 2:at[name] + 2 + len(told)]
            if got != told or "," in lines[at[name] + 2 + len(told)]:
                bad += 1
                print("%s: by hand %s, printed %s" % (name, told, got))
    print(len(rows), "sheets,", len(registers), "of them with registers,", bad, "differ")
    return bad


def store(oracle):
    """data/index, 32 bytes a row: the sheets here by name, then the random programs and the compiled ones; stdout in that order."""
    named = sorted(r[0] for r in rows)
    random = sorted(n for n in os.listdir(SHEETS) if len(n) == 4 and n[0] == "p" and n[1:].isdigit())
    random += sorted(n for n in os.listdir(SHEETS) if n.startswith("compiled-"))
    others = set(os.listdir(SHEETS)) - set(named) - set(random) - {"index", "unreadable"}
    assert not others, others
    printed = b""
    for name in named + random:
        content = open(os.path.join(SHEETS, name), "rb").read()
        printed += name.encode() + b"\n" + subprocess.run([oracle, "sheet"], input=content, stdout=subprocess.PIPE, check=True).stdout
    path = os.path.join(SHEETS, "..", "stdout")
    open(path + ".new", "wb").write(printed)
    if check(path + ".new"):
        return 1
    os.replace(path + ".new", path)
    open(os.path.join(SHEETS, "index"), "w").write("".join("%-31s\n" % n for n in named + random))
    return 0


write()
if len(sys.argv) == 3 and sys.argv[1] == "--check":
    sys.exit(1 if check(sys.argv[2]) else 0)
if len(sys.argv) == 3 and sys.argv[1] == "--store":
    sys.exit(store(sys.argv[2]))
