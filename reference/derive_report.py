#!/usr/bin/env python3
"""What the second implementation reports of the input of crates/report_openings, its file `stdin`, and of those of crates/report_runs, which are made here
anew by the lines `record(..)`, `set(..)`, `repeat(..)`, `run(..)` and `input.fill(0)` of its main.rt, one after another.

    derive_report.py            compares it with the file `stdout` of each, and `stdin` with the records below; exit status 1 where one differs
    derive_report.py --write    writes these files
"""
import re
import subprocess
import sys
from pathlib import Path

HERE = Path(__file__).resolve().parent
PROGRAM = HERE / 'target' / 'release' / 'reference'
CRATES = HERE.parent / 'crates'
ROOM = 65600


def reported(records):
    return subprocess.run([PROGRAM, 'report'], input=records, capture_output=True, check=True).stdout


def record(version, tau, k, w, t, row, node, corrections, opening):
    """A record of zeros with these numbers in its head, for level 8 * node, in version 3 of kind 1, and with corrections and opening of these lengths."""
    head = bytes([tau, k, w]) + t.to_bytes(2, 'big') + row.to_bytes(4, 'big') + bytes([node, 1][:version - 1])
    fields = [head, bytes(16), bytes(node), bytes(corrections), bytes(opening), bytes(2 * node)]
    return bytes([version]) + b''.join(len(field).to_bytes(4, 'big') + field for field in fields)


def with_byte(text, at, value):
    return text[:at] + bytes([value]) + text[at + 1:]


# two records of one shape, one with more nodes than T, one with a byte in an unused slot, and the front of another
SMALL = (1, 1, 127, 2, 8, 16, 0, 80)
STDIN = b''.join((record(1, *SMALL), record(2, *SMALL), record(1, 1, 2, 126, 1, 8, 16, 0, 64), with_byte(record(1, *SMALL), 141, 1), record(2, *SMALL)[:100]))


class Runs:
    """The buffer and the places that main.rt names."""

    def __init__(self):
        self.input, self.places, self.outputs = bytearray(ROOM), {}, []

    def value(self, word):
        return self.places[word] if word.isalpha() else int(word)

    def step(self, name, call, words):
        values = [self.value(word) for word in words]
        if call == 'fill':
            self.input = bytearray(ROOM)
        elif call == 'record':
            text = record(*values[1:])
            end = values[0] + len(text)
            if any(self.input[values[0]:end]) or end > ROOM:
                sys.exit(f'derive_report: a record at {values[0]} where something stands')
            self.input[values[0]:end] = text
            self.places[name] = end
        elif call == 'set':
            at, more, byte = values
            self.input[at + more] = byte
        elif call == 'repeat':
            n, length = values
            for p in range(n, length):
                self.input[p] = self.input[p - n]
        else:
            self.outputs.append(reported(bytes(self.input[:sum(values)])))


def runs():
    source = (CRATES / 'report_runs' / 'src' / 'main.rt').read_text()
    found = Runs()
    steps = r'^    (?:let (\w) = )?(?:input\.)?(\w+)\((?:(?:rt, )?input((?:, \w+)*)|0)\)(?:\??;)?$'
    for name, call, words in re.findall(steps, source[source.index('\nfn single('):], re.M):
        found.step(name, call, words.split(', ')[1:])
    if len(found.outputs) != 47:
        sys.exit(f'derive_report: {len(found.outputs)} runs found, and not 47')
    return b''.join(found.outputs)


def main():
    derived = {('report_openings', 'stdin'): STDIN, ('report_openings', 'stdout'): reported(STDIN), ('report_runs', 'stdout'): runs()}
    for (crate, name), text in derived.items():
        stored = CRATES / crate / name
        if sys.argv[1:] == ['--write']:
            stored.write_bytes(text)
        elif stored.read_bytes() != text:
            sys.exit(f'{stored} is not what reference/ derives')


if __name__ == '__main__':
    main()
