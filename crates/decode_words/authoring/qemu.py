#!/usr/bin/env python3
"""qemu.py: asks QEMU 7.2 of every word in words.columns whether it is legal in RV64IM, and writes the column of answers anew.

It prints each answer that was another one before. A word has a process of its own; all take a minute on two cores.
A new word is added as a line of 15 characters with spaces for the answer; make.py is run afterwards."""
from concurrent.futures import ThreadPoolExecutor
import os
import resource
import signal
import struct
import subprocess
import tempfile

HERE = os.path.dirname(os.path.abspath(__file__))
WITHOUT = "c a f d zba zbb zbc zbs Zicsr Zifencei".split()
QEMU = ["qemu-riscv64", "-cpu", ",".join(["rv64", "m=true"] + [name + "=false" for name in WITHOUT])]
PAGE, START = 0x10000, 0x800
EBREAK = 0x00100073


def image(word):
    """An ELF file of the one page, entered at the word: from there one falls or jumps into an EBREAK or out of memory."""
    page = [EBREAK] * 1024
    page[START // 4] = word
    head = struct.pack("<16sHHIQQQIHHHHHH", b"\x7fELF\2\1\1", 2, 243, 1, PAGE + START, 64, 0, 0, 64, 56, 1, 0, 0, 0)
    segment = struct.pack("<IIQQQQQQ", 1, 7, 4096, PAGE, PAGE, 4096, 4096, 4096)
    return (head + segment).ljust(4096, b"\0") + struct.pack("<1024I", *page)


def legal(folder, word):
    """Whether QEMU ends in anything but the illegal-instruction signal; a word that jumps to itself goes on until it is ended."""
    path = os.path.join(folder, "%08x" % word)
    with open(path, "wb") as file:
        file.write(image(word))
    os.chmod(path, 0o755)
    try:
        code = subprocess.run(QEMU + [path], stdout=subprocess.DEVNULL, stderr=subprocess.DEVNULL, timeout=3).returncode
    except subprocess.TimeoutExpired:
        code = 0
    os.remove(path)
    return code != -signal.SIGILL


def main():
    resource.setrlimit(resource.RLIMIT_CORE, (0, 0))  # or QEMU leaves a file for each signal
    path = os.path.join(HERE, "words.columns")
    lines = open(path).read().splitlines()
    words = sorted({int(line[0:8], 16) for line in lines})
    with tempfile.TemporaryDirectory() as folder, ThreadPoolExecutor(2) as pool:
        answers = list(pool.map(lambda word: legal(folder, word), words))
    before = {line[0:8]: line[9:10] for line in lines}
    with open(path, "w") as file:
        for word, answer in zip(words, answers):
            if before["%08x" % word] != "%d" % answer:
                print("%08x was %r, is %d" % (word, before["%08x" % word], answer))
            file.write("%08x %d     \n" % (word, answer))


main()
