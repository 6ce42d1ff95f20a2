#!/usr/bin/env python3
"""large.py DEVICES: a capture of 20,000 records of one device or of two on standard output: every kind, the same bytes at each run."""
import sys

state = 89
devices = int(sys.argv[1])


def number(below):
    """The next number below a bound, from a fixed start."""
    global state
    state = (state * 6364136223846793005 + 1442695040888963407) % 2**64
    return (state >> 33) % below


def second_conversion():
    return [[8, number(256), number(256), 32 * number(8)], [9, number(256), 0, 0]][number(2)]


def record():
    registers = [0x00, 0x01, 0x02, 0x03, 0x05, 0x09, 0x0B, 0x0D, 0x0F, 0x10, 0x11, 0x12, 0x19, 0x20, 0x21, 0x30, 0xBF, 0xFF]
    address = [0x4C, 0x4C, 0x4C, 0x0C, 0x4D][number(5)]
    register = registers[number(len(registers))]
    if number(50) == 0:
        return [7, 0, 0, 0]
    if devices == 2 and number(4) == 0:
        return second_conversion()
    return [
        [1, address, register, number(256)],
        [2, address, register, 0],
        [3, address, register, 0],
        [4, address, 0, 0],
        [5, number(256), number(256), 32 * number(8)],
        [6, number(256), 0, 0],
    ][number(6)]


count = 20000
sys.stdout.buffer.write(bytes([[1, 1], [2, 2, 1]][devices - 1]) + count.to_bytes(4, "big"))
for _ in range(count):
    sys.stdout.buffer.write(bytes(record()))
