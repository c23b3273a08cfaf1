"""Half-words from their operands, after the formats and the listing of the RISC-V manual's "C" extension, RV64.

By itself it holds every half-word that it can make to crates/half_words/stdout, which is GNU binutils'.
"""
import os


def spread(value, bits, top):
    """The bits of a value that the manual writes as 5:4|9:6|2|3, from bit `top` of the half-word down."""
    half = 0
    for part in bits.split("|"):
        first, _, last = part.partition(":")
        for bit in range(int(first), int(last or first) - 1, -1):
            half |= (value >> bit & 1) << top
            top -= 1
    return half


def short(register):
    assert 8 <= register <= 15, register
    return register - 8


def fits(value, low, high, step=1):
    assert low <= value <= high and value % step == 0, value
    return value


# quadrant 0
def c_addi4spn(rd, imm): return spread(fits(imm, 4, 1020, 4), "5:4|9:6|2|3", 12) | short(rd) << 2
def word_at(imm): return spread(fits(imm, 0, 124, 4), "5:3", 12) | spread(imm, "2|6", 6)
def double_at(imm): return spread(fits(imm, 0, 248, 8), "5:3", 12) | spread(imm, "7:6", 6)
def c_lw(rd, rs1, imm): return 2 << 13 | word_at(imm) | short(rs1) << 7 | short(rd) << 2
def c_ld(rd, rs1, imm): return 3 << 13 | double_at(imm) | short(rs1) << 7 | short(rd) << 2
def c_sw(rs2, rs1, imm): return 6 << 13 | word_at(imm) | short(rs1) << 7 | short(rs2) << 2
def c_sd(rs2, rs1, imm): return 7 << 13 | double_at(imm) | short(rs1) << 7 | short(rs2) << 2


# quadrant 1
def six(imm): return spread(imm, "5", 12) | spread(imm, "4:0", 6)
def signed_six(imm): return six(fits(imm, -32, 31))
def c_nop(imm=0): return 1 | signed_six(imm)
def c_addi(rd, imm): return 1 | signed_six(imm) | rd << 7
def c_addiw(rd, imm): return 1 << 13 | 1 | signed_six(imm) | fits(rd, 1, 31) << 7
def c_li(rd, imm): return 2 << 13 | 1 | signed_six(imm) | rd << 7
def c_addi16sp(imm): return 3 << 13 | 1 | spread(fits(imm or 1, -512, 496, 16), "9", 12) | 2 << 7 | spread(imm, "4|6|8:7|5", 6)
def c_lui(rd, imm): return 3 << 13 | 1 | signed_six(fits(imm, -32, 31) or fits(-1, 0, 0)) | (rd if rd != 2 else fits(-1, 0, 0)) << 7
def c_srli(rd, n): return 4 << 13 | 1 | six(fits(n, 0, 63)) | short(rd) << 7
def c_srai(rd, n): return c_srli(rd, n) | 1 << 10
def c_andi(rd, imm): return 4 << 13 | 1 | signed_six(imm) | short(rd) << 7 | 2 << 10
def between(bit, code, rd, rs2): return 4 << 13 | bit << 12 | 3 << 10 | short(rd) << 7 | code << 5 | short(rs2) << 2 | 1
def c_sub(rd, rs2): return between(0, 0, rd, rs2)
def c_xor(rd, rs2): return between(0, 1, rd, rs2)
def c_or(rd, rs2): return between(0, 2, rd, rs2)
def c_and(rd, rs2): return between(0, 3, rd, rs2)
def c_subw(rd, rs2): return between(1, 0, rd, rs2)
def c_addw(rd, rs2): return between(1, 1, rd, rs2)
def c_j(off): return 5 << 13 | spread(fits(off, -2048, 2046, 2), "11|4|9:8|10|6|7|3:1|5", 12) | 1
def branch(off): return spread(fits(off, -256, 254, 2), "8|4:3", 12) | spread(off, "7:6|2:1|5", 6) | 1
def c_beqz(rs1, off): return 6 << 13 | branch(off) | short(rs1) << 7
def c_bnez(rs1, off): return 7 << 13 | branch(off) | short(rs1) << 7


# quadrant 2
def c_slli(rd, n): return six(fits(n, 0, 63)) | rd << 7 | 2
def c_lwsp(rd, imm): return 2 << 13 | spread(fits(imm, 0, 252, 4), "5", 12) | fits(rd, 1, 31) << 7 | spread(imm, "4:2|7:6", 6) | 2
def c_ldsp(rd, imm): return 3 << 13 | spread(fits(imm, 0, 504, 8), "5", 12) | fits(rd, 1, 31) << 7 | spread(imm, "4:3|8:6", 6) | 2
def c_jr(rs1): return 4 << 13 | fits(rs1, 1, 31) << 7 | 2
def c_mv(rd, rs2): return 4 << 13 | rd << 7 | fits(rs2, 1, 31) << 2 | 2
def c_ebreak(): return 4 << 13 | 1 << 12 | 2
def c_jalr(rs1): return 4 << 13 | 1 << 12 | fits(rs1, 1, 31) << 7 | 2
def c_add(rd, rs2): return 4 << 13 | 1 << 12 | rd << 7 | fits(rs2, 1, 31) << 2 | 2
def c_swsp(rs2, imm): return 6 << 13 | spread(fits(imm, 0, 252, 4), "5:2|7:6", 12) | rs2 << 2 | 2
def c_sdsp(rs2, imm): return 7 << 13 | spread(fits(imm, 0, 504, 8), "5:3|8:6", 12) | rs2 << 2 | 2


def all_made(R, I, S, B, U, J):
    """Each half-word with its long word, by these formats of long words."""
    every, shorts, sixes = range(32), range(8, 16), range(-32, 32)
    for rd in shorts:
        yield from ((c_addi4spn(rd, n), I(0x13, 0, rd, 2, n)) for n in range(4, 1024, 4))
        for n in range(64):
            yield c_srli(rd, n), I(0x13, 5, rd, rd, n)
            yield c_srai(rd, n), I(0x13, 5, rd, rd, 0x400 | n)
        yield from ((c_andi(rd, n), I(0x13, 7, rd, rd, n)) for n in sixes)
        for off in range(-256, 256, 2):
            yield c_beqz(rd, off), B(0, rd, 0, off)
            yield c_bnez(rd, off), B(1, rd, 0, off)
        for rs in shorts:
            for n in range(0, 128, 4):
                yield c_lw(rd, rs, n), I(0x03, 2, rd, rs, n)
                yield c_sw(rd, rs, n), S(0x23, 2, rs, rd, n)
                yield c_ld(rd, rs, 2 * n), I(0x03, 3, rd, rs, 2 * n)
                yield c_sd(rd, rs, 2 * n), S(0x23, 3, rs, rd, 2 * n)
            for make, op, f3, f7 in ((c_sub, 0x33, 0, 32), (c_xor, 0x33, 4, 0), (c_or, 0x33, 6, 0), (c_and, 0x33, 7, 0), (c_subw, 0x3b, 0, 32), (c_addw, 0x3b, 0, 0)):
                yield make(rd, rs), R(op, f3, f7, rd, rd, rs)
    yield from ((c_addi16sp(n), I(0x13, 0, 2, 2, n)) for n in range(-512, 512, 16) if n)
    yield from ((c_j(off), J(0, off)) for off in range(-2048, 2048, 2))
    yield c_ebreak(), 0x00100073
    for rd in every:
        for n in sixes:
            yield c_addi(rd, n), I(0x13, 0, rd, rd, n)
            yield c_li(rd, n), I(0x13, 0, rd, 0, n)
            if rd:
                yield c_addiw(rd, n), I(0x1b, 0, rd, rd, n)
            if n and rd != 2:
                yield c_lui(rd, n), U(0x37, rd, n & 0xfffff)
        for n in range(64):
            yield c_slli(rd, n), I(0x13, 1, rd, rd, n)
            yield c_swsp(rd, 4 * n), S(0x23, 2, 2, rd, 4 * n)
            yield c_sdsp(rd, 8 * n), S(0x23, 3, 2, rd, 8 * n)
            if rd:
                yield c_lwsp(rd, 4 * n), I(0x03, 2, rd, 2, 4 * n)
                yield c_ldsp(rd, 8 * n), I(0x03, 3, rd, 2, 8 * n)
        if rd:
            yield c_jr(rd), I(0x67, 0, 0, rd, 0)
            yield c_jalr(rd), I(0x67, 0, 1, rd, 0)
        for rs in range(1, 32):
            yield c_mv(rd, rs), R(0x33, 0, 0, rd, 0, rs)
            yield c_add(rd, rs), R(0x33, 0, 0, rd, rd, rs)


__all__ = [name for name in dir() if name.startswith("c_")]


def main():
    import make_programs as m
    path = os.path.join(os.path.dirname(os.path.abspath(__file__)), "..", "..", "crates", "half_words", "stdout")
    stored = {int(line[0:4], 16): int(line[5:13], 16) for line in open(path)}
    made = list(all_made(m.R, m.I, m.S, m.B, m.U, m.J))
    assert len(made) == len(dict(made)) == len(stored) and dict(made) == stored
    print(len(made), "half-words are made as stored")


if __name__ == "__main__":
    main()
