#!/usr/bin/env python3
"""The documents: what they name is there.

Every link leads to a file, and to a heading where it names one. Every path in backquotes that begins with a folder of the repository is there.
ARCHITECTURE.md has a row for every crate and for nothing else. Every must-fail edit that CONTRACTS.md names is there. The files of TRUST.md have as many
lines as it says, and its sections (`--sizes` writes these numbers first). No line but those of tables and of code is longer than 160 characters. Then the
script tests itself: each of EDITS, made in a copy of the documents in memory, must fail for the reason beside it.
"""
import re
import sys

from sources import TOP, Refused, crate_lines

DOCUMENTS = sorted(path.relative_to(TOP).as_posix() for pattern in ('*.md', 'docs/**/*.md', '*/README.md') for path in TOP.glob(pattern) if 'target' not in path.parts)
FOLDERS = 'crates', 'docs', 'hosts', 'reference', 'bench', '.ci'
LONGEST = 160
# what is said of a landing stays, also of files that are gone
HISTORY = 'docs/notes/', 'CHANGELOG.md'


def prose(text):
    """The lines with their numbers, code blocks left out."""
    code = False
    for number, line in enumerate(text.split('\n'), 1):
        if line.lstrip().startswith('```'):
            code = not code
        elif not code and not line.startswith('    '):
            yield number, line


def anchors(text):
    """The headings as links name them."""
    headings = (line.lstrip('#').strip() for _, line in prose(text) if line.startswith('#'))
    return {re.sub(r'[^\w\- ]', '', heading.lower()).replace(' ', '-') for heading in headings}


def check_links(name, text, texts):
    folder = (TOP / name).parent
    for number, line in prose(text):
        for target in re.findall(r'\]\(([^)\s]+)\)', line):
            if re.match(r'[a-z]+:', target):
                continue
            path, _, anchor = target.partition('#')
            found = (folder / path).resolve() if path else TOP / name
            if not found.exists():
                raise Refused(f'{name}:{number}: no file {path}')
            linked = found.relative_to(TOP).as_posix()
            if anchor and linked in texts and anchor not in anchors(texts[linked]):
                raise Refused(f'{name}:{number}: no heading #{anchor} in {linked}')


def check_paths(name, text):
    """Names with a letter that stands for something, as NAME or *, are patterns and not paths."""
    for number, line in prose(text):
        for word in re.findall(r'`([\w./*-]+)`', line):
            if word.split('/')[0] in FOLDERS and '/' in word and '..' not in word and not re.search(r'\*|\b[A-Z]+\b(?!\.md)', word) and not (TOP / word.rstrip('/')).exists():
                raise Refused(f'{name}:{number}: no file {word}')


def check_lines(name, text):
    for number, line in prose(text):
        if len(line) > LONGEST and not line.startswith('|'):
            raise Refused(f'{name}:{number}: {len(line)} characters')


def check_crates(text):
    rows = {crate for line in text.split('\n') if line.startswith('| `') for crate in re.findall(r'`(\w+)`', line.split('|')[1])}
    crates = set(crate_lines((TOP / 'crates.txt').read_text()))
    if rows != crates:
        raise Refused('docs/ARCHITECTURE.md: no row, or no crate: ' + ', '.join(sorted(rows ^ crates)))


def check_edits(text):
    """Names of edits stand in the last column, CRATE/LABEL."""
    for number, line in enumerate(text.split('\n'), 1):
        for crate, label in re.findall(r'\b(\w+)/(\w+)\b', line.split('|')[-2] if line.startswith('|') else ''):
            if (TOP / 'crates' / crate).is_dir() and not (TOP / 'crates' / crate / 'must-fail' / f'{label}.edit').exists():
                raise Refused(f'docs/CONTRACTS.md:{number}: no edit {crate}/{label}')


SIZE = re.compile(r'^(\| \[[^]]*\]\(\.\./(crates/[^)]+)\) \| )(\d+)( \|)', re.M)


def lines_of(path):
    return len((TOP / path).read_text().splitlines())


def check_sizes(text):
    """TRUST.md: the lines of each file of definitions, of each section, and of all."""
    total = 0
    for section in re.split(r'^(?=##)', text, flags=re.M):
        sizes = [(path, int(size)) for _, path, size, _ in SIZE.findall(section)]
        for path, size in sizes:
            if lines_of(path) != size:
                raise Refused(f'docs/TRUST.md: {path} has {lines_of(path)} lines, not {size}')
        here = sum(size for _, size in sizes)
        if sizes and not re.match(rf'### [^\n]*: {here:,} lines\n', section):
            raise Refused(f'docs/TRUST.md: a section has {here:,} lines: ' + section.split('\n')[0])
        total += here
    if not total or f'{total:,} lines in all' not in text:
        raise Refused(f'docs/TRUST.md: the files have {total:,} lines in all')


def with_sizes(text):
    """TRUST.md with the lines that the files have now."""
    sections, total = re.split(r'^(?=##)', text, flags=re.M), 0
    for at, section in enumerate(sections):
        here = sum(lines_of(path) for _, path, _, _ in SIZE.findall(section))
        total += here
        section = SIZE.sub(lambda m: f'{m[1]}{lines_of(m[2])}{m[4]}', section)
        sections[at] = re.sub(r'\A(### [^\n]*: )[\d,]+( lines\n)', rf'\g<1>{here:,}\g<2>', section) if here else section
    return re.sub(r'^[\d,]+ lines in all', f'{total:,} lines in all', ''.join(sections), flags=re.M)


def check(texts):
    for name, text in texts.items():
        check_links(name, text, texts)
        check_lines(name, text)
        if not name.startswith(HISTORY):
            check_paths(name, text)
    check_crates(texts['docs/ARCHITECTURE.md'])
    check_edits(texts['docs/CONTRACTS.md'])
    check_sizes(texts['docs/TRUST.md'])


LISTED = 'crates/spec/specs/Lib.antt'
# document, what is put at its end, the reason
EDITS = [
    ('README.md', '[a](docs/NOTHING.md)', 'no file docs/NOTHING.md'),
    ('README.md', '[a](docs/API.md#nothing)', 'no heading #nothing'),
    ('README.md', '[a](#nothing)', 'no heading #nothing'),
    ('docs/API.md', 'in `crates/nothing/src/lib.rt`', 'no file crates/nothing/src/lib.rt'),
    ('docs/API.md', 'x' * (LONGEST + 1), f'{LONGEST + 1} characters'),
    ('docs/ARCHITECTURE.md', '| `nothing` | | |', 'no row, or no crate: nothing'),
    ('docs/CONTRACTS.md', '| a | rules/nothing |', 'no edit rules/nothing'),
    ('docs/TRUST.md', '| [a](../crates/spec/specs/Aes.antt) | 1 | |', 'lines, not 1'),
    ('docs/TRUST.md', f'### More: 7 lines\n| [a](../{LISTED}) | {lines_of(LISTED)} | |', 'a section has'),
    ('docs/TRUST.md', f'### More: {lines_of(LISTED)} lines\n| [a](../{LISTED}) | {lines_of(LISTED)} | |', 'lines in all'),
]


def main():
    if sys.argv[1:] == ['--sizes']:
        (TOP / 'docs/TRUST.md').write_text(with_sizes((TOP / 'docs/TRUST.md').read_text()))
    texts = {name: (TOP / name).read_text() for name in DOCUMENTS}
    try:
        check(texts)
    except Refused as why:
        sys.exit(f'documents: {why}')
    for name, more, reason in EDITS:
        try:
            check({**texts, name: f'{texts[name]}\n{more}\n'})
        except Refused as why:
            if reason not in str(why):
                sys.exit(f'documents: {name} with {more}: refused for another reason: {why}')
        else:
            sys.exit(f'documents: {name} with {more}: not refused')
    print(f'documents: {len(texts)} of them, every link, path, crate and edit that they name is there; {len(EDITS)} wrong ones refused')


main()
