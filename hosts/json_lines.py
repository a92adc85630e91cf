#!/usr/bin/env python3
"""What check_record --json prints, read by Python: each line one object with the right keys, and the name escaped as docs/TOOLS.md says, done here anew.

    json_lines.py < LINES      prints how many lines there were of each number; exit status 1 where a line is wrong
"""
import collections
import json
import re
import sys

HIDDEN = {*range(0x20), *range(0x7f, 0xa0), 0x200e, 0x200f, *range(0x202a, 0x202f), *range(0x2066, 0x206a)}
WORDS = {1: 'shape', 2: 'row length', 4: 'grinding', 5: 'nodes', 6: 'slots', 9: 'version', 10: 'field', 11: 'commitment', 13: 'not named'}


def escaped(name):
    """The name as the tools print it."""
    parts, at = [], 0
    while at < len(name):
        for n in range(1, 5):
            try:
                character = name[at:at + n].decode()
            except UnicodeDecodeError:
                continue
            break
        else:
            n, character = 1, '\0'
        hidden = ord(character) in HIDDEN
        parts.append(''.join(f'\\x{byte:02x}' for byte in name[at:at + n]) if hidden else character)
        at += n
    return ''.join(parts)


def named_right(found):
    """The name of an object, and whether the two ways in which it is given agree."""
    hexadecimal = found.pop('name_hex', None)
    name = found['file'].encode() if hexadecimal is None else bytes.fromhex(hexadecimal)
    return name, escaped(name) == found['file'] and (hexadecimal is not None) == (escaped(name).encode() != name)


def read(line):
    """The name and the object of a line; an exception where it is none."""
    if not line.endswith(b'\n') or re.search(rb'[\x00-\x1f\x7f]', line[:-1]):
        raise ValueError('a control byte, or no line feed')
    found = json.loads(line.decode())
    name, right = named_right(found)
    keys = {'error'} if 'error' in found else {'accepted', 'set', 'nodes', 'allowed'} if found['accepted'] else {'accepted', 'number', 'word', 'reason'}
    if not right or set(found) != {'file', *keys} or ('number' in found and WORDS[found['number']] != found['word']):
        raise ValueError('another name, or other keys')
    return name, found


def main():
    numbers = collections.Counter()
    for line in sys.stdin.buffer:
        try:
            numbers[read(line)[1].get('number', 0)] += 1
        except (ValueError, KeyError) as error:
            sys.exit(f'json_lines: {line!r}: {error}')
    missing = {0, *WORDS} - set(numbers)
    if missing:
        sys.exit(f'json_lines: no line of {sorted(missing)}')
    print(', '.join(f'{number}: {numbers[number]}' for number in sorted(numbers)) + ' JSON lines')


if __name__ == '__main__':
    main()
