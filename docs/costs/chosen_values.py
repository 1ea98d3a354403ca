#!/usr/bin/env python3
"""Writes a trace of one thread that puts keys into a dictionary: texts that end in a constant of the hash, or others of the same length.

    chosen_values.py chosen|others COUNT > chosen.trace

A table hashes with a fixed seed. Of a write of more than eight bytes the hasher joins the last eight with its constant by xor and multiplies by that: texts
that end in the constant would all have one hash, if they were written whole. `chosen` are such texts.
"""
import sys

MULTIPLIER, OTHER = 0x9E3779B97F4A7C15, 0x243F6A8885A308D3


def spelling(byte):
    if byte in b'"\\':
        return '\\' + chr(byte)
    return chr(byte) if 32 <= byte <= 126 else f'\\x{byte:02x}'


def main():
    if len(sys.argv) != 3 or sys.argv[1] not in ('chosen', 'others'):
        sys.exit(__doc__)
    end = ''.join(map(spelling, (MULTIPLIER if sys.argv[1] == 'chosen' else OTHER).to_bytes(8, 'little')))
    print('rdtrace 1\nthread main\nobject d dictionary')
    for number in range(int(sys.argv[2])):
        print(f'call main d put "{number:08x}{end}" 1 -> nil')


main()
