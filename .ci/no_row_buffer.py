#!/usr/bin/env python3
"""Document 02, E5: outside the lent buffers no array holds more than 16 bytes of a row, or of a sum of rows.

Shown of the public functions of both halves, those of version 2 and those of version 1 (document 02, E12), and of all that they call, from their .rt files:

1. Where bytes of rows begin. A block that AES gives is one of a row, unless a crate of NO_ROWS asks for it, no number of 2^30 or more is in what its tweak is
   made of (a row's tweak is 2^31 + i), and no byte of a leaf's seed is in what its key is made of (version 1 has no tweak: there the key alone tells a row).
   A buffer to which a public call writes bytes of rows brings them to each public call that takes one of that name: so reconstruct is lent them as the
   corrections.
2. Where they go: through every let, assignment, element, struct, argument, lent buffer and result, call by call, until nothing is added. No branch, loop or
   bound of a slice depends on them.
3. What holds them. Each local, parameter by value and result that they reach has at most 16 bytes, arrays, structs, tuples, results and enums measured whole;
   the one exception is a pair, a struct of exactly two arrays of 16 bytes. Those that are still to be read behind a statement have 16 bytes together, in a
   function that has a pair 32: one block, or the two of a pair, and a block is the same whether it is a state of AES or its bytes. Along a chain of calls, each
   function with what it reads behind its call, they have at most 64. No function calls itself.
4. Every other array above 16 bytes is in TABLE, with what it holds.
5. The tests that calls begin with, in the crates of PLAIN, are given no byte of a row and do not reach the generator. These crates have no array but empty
   ones, also in functions that neither half calls.

Trusted: this script and its reader, sources.py, both of which refuse what they do not know; what KIT says of the kit's functions; that the crates of NO_ROWS
ask for what is said there, and make no row's tweak out of smaller numbers; that seeds are what SEEDS says. No array is meant that the compiler makes for a
copy. At the end the script tests itself: each of EDITS, made in copies of the sources, must fail for the reason beside it, and what is ALLOWED must not.
"""
import re
import sys
from collections import namedtuple

from sources import PLACES, TOP, Program, Refused, Types, closure, crate_lines, is_a, named, walk

BLOCK, CHAIN, LARGE = 16, 64, 2 ** 30

# the crates whose public functions are the library's calls
HALVES = ('signer', 'verifier', 'v1_signer', 'v1_verifier')
# the crates that ask the generator for something else than rows, and for what
NO_ROWS = {'tree': 'nodes', 'leaf': 'seeds and leaf commitments', 'signer_forest': 'the roots of version 1\'s trees'}
# the function that makes the seeds of leaves, and the parameter to which it writes them
SEEDS = 'leaf::commit_leaf', 'seed'
GENERATOR, CIPHER, SUB_BYTES = 'generator', 'aes', 'aes_steps::sub_bytes'
# the crates of the tests that calls begin with. They are read as all others, and rule 5 holds of them too
PLAIN = ('refusals', 'plan_refusals', 'signer_refusals', 'verifier_refusals', 'slots')

# the kit's functions that are called: the number of the argument to which they write the bytes of the others, or None where they return them
KIT = {'slice::copy_from_slice': 0, '.fill': 0, '.max': None, '.min': None, '.wrapping_add': None, '.iter': None, '.all': None, 'u64::from_le_bytes': None}
# those of them that go by what the bytes are
DECIDED = ('.all',)

# each array above 16 bytes: its type, what it holds, and the crates that have it by value; others have it lent
TABLE = {
    '[u8; 256]': ('the S-box of AES', 'aes_steps signer_commit reconstruction v1_signer v1_verifier'),
    '[[[u8; 4]; 4]; 15]': ('the round keys of a key', 'aes_keys'),
    '[RoundKey; 15]': ('the same, stored in a key schedule', 'aes_keys generator tree rows'),
    '[[[u8; 4]; 4]; 8]': ('the first round keys of a key of 8 words', 'aes_keys'),
    '[[[u8; 4]; 4]; 7]': ('the later ones', 'aes_keys'),
    '[[[u8; 4]; 6]; 8]': ('the words of a key schedule, for a key of 6 words', 'aes_keys'),
    '[[u8; 4]; 6]': ('six of them', 'aes_keys'),
    '[[[u8; 4]; 4]; 3]': ('the round keys that twelve of them are', 'aes_keys'),
    '[u8; 128]': ('a leaf stretched: its seed, and what the leaf hash is xored to; in version 1 a leaf hashed: its seed and its commitment', 'leaf'),
    '[u8; 48]': ('what version 1 hashes of a leaf: its key and the IV', 'leaf'),
    '[u8; 32]': ('a seed', 'vector'),
    '[[u64; 12]; 16]': ('the multiples of a hash key', 'field leaf_hash leaf signer_vectors verifier_vector'),
    '[u64; 12]': ('an element of a field of the leaf hash, of 384, 576 or 768 bits, or one of the multiples', 'field'),
    '[u64; 25]': ('the lanes of a sponge', 'keccak shake'),
    '[u64; 24]': ('the round constants of Keccak', 'keccak'),
    '[u64; 5]': ('the parities of Keccak\'s columns, or a plane of its state', 'keccak'),
    '[u8; 168]': ('a block of the sponge', 'shake'),
    '[u8; 3072]': ('the hash keys of all vectors', 'signer_commit reconstruction'),
    '[u8; 2048]': ('the hashes of all vectors; in version 1 also zeros, in the place of hash keys', 'signer_commit reconstruction v1_signer v1_verifier'),
    '[u8; 1024]': ('the roots of the trees of version 1', 'signer_forest'),
    '[u32; 512]': ('numbers of revealed nodes', 'signer_open'),
    '[u32; 576]': ('numbers of covered nodes', 'verifier_tree'),
    '[usize; 32]': ('numbers of covered nodes that are still to be raised', 'planning'),
}

# what a value may have in it: a large number, so that it may be a row's tweak; bytes of rows; bytes of seeds
TWEAK, ROWS, SEED = 1, 2, 4
Summary = namedtuple('Summary', 'result outs held')


class Frame:
    """A function, with what its parameters have in them when it is called."""

    def __init__(self, test, f, given):
        self.test, self.p, self.f, self.types = test, test.p, f, test.types[f.name]
        self.labels = {**dict.fromkeys(self.types.names, 0), **dict(zip(f.params, given))}
        if f.name == SEEDS[0]:
            self.labels[SEEDS[1]] |= SEED
        self.result, self.callees = 0, {}

    def summary(self):
        before = None
        while before != (self.labels, self.result):
            before = dict(self.labels), self.result
            self.result |= self.label(self.f.body)
        reached = any(label & ROWS for label in [self.result, *self.labels.values()])
        if reached:
            self.test.seeing.add(self.f.name)
        return Summary(self.result, [self.labels[name] for name in self.f.params], Held(self).most() if reached else 0)

    # ---- what an expression has in it; a statement adds to what the names have that it changes

    def label(self, e):
        value = self.types.value(e)
        if value is not None:
            return TWEAK if value >= LARGE else 0
        return getattr(self, 'label_' + e.kind, self.union)(e)

    def union(self, e):
        found = 0
        for part in e.parts:
            found |= self.label(part)
        return found

    def label_name(self, e):
        const = self.types.constant(e.info)
        if not const and e.info[0] not in self.labels:
            self.types.of_name(e.info)
        return self.label(const[1]) if const else self.labels.get(e.info[0], 0)

    def label_len(self, e):
        self.union(e)
        return 0

    def label_block(self, e):
        labels = [self.label(part) for part in e.parts]
        return labels[-1] if e.parts and e.parts[-1].kind == 'value' else 0

    def label_let(self, e):
        self.labels[e.info[0]] |= self.union(e)

    def label_set(self, e):
        self.mark(e.parts[0], self.union(e))

    def label_return(self, e):
        self.result |= self.union(e)

    def label_if(self, e):
        return self.decided(e, e.parts[:1])

    label_match = label_while = label_if

    def label_for(self, e):
        return self.decided(e, e.parts[:2])

    def label_part(self, e):
        return self.decided(e, e.parts[1:])

    def label_try(self, e):
        found = self.decided(e, e.parts)
        self.result |= found
        return found

    def decided(self, e, by):
        if any(self.label(part) & ROWS for part in by):
            self.test.fault(f'a branch, a loop or a bound of {self.f.name} depends on bytes of rows')
        return self.union(e)

    def mark(self, place, label):
        """Something is written to this place."""
        while place.kind in PLACES:
            place = place.parts[0]
        if place.kind == 'name' and place.info[0] in self.labels:
            self.labels[place.info[0]] |= label
        elif label & ROWS:
            self.test.fault(f'bytes of rows are written to what has no name in {self.f.name}')

    def label_call(self, e):
        given = [self.label(part) for part in e.parts]
        full = self.p.find(self.f.crate, e.info)
        if full in KIT:
            every = self.decided(e, e.parts) if full in DECIDED else self.union(e)
            return every if KIT[full] is None else self.mark(e.parts[KIT[full]], every) or 0
        callee = self.p.functions[full]
        if callee.crate in PLAIN and any(label & ROWS for label in given):
            self.test.fault(f'{full} is given bytes of rows by {self.f.name}')
        made = self.callees[id(e)] = self.test.run(callee, tuple(self.given(callee, given)))
        for part, t, out in zip(e.parts, callee.params.values(), made.outs):
            if is_a(t, 'ref') and t[1]:
                self.mark(part, out)
        return made.result

    def given(self, callee, labels):
        """What the arguments of a call bring: who asks for blocks may ask for a row's, and so does who gives a seed for a key; what AES is given to encrypt
        becomes bytes of a row where a row's tweak is in it."""
        if SUB_BYTES not in self.test.reach(callee.name):
            return labels
        other = self.f.crate not in (GENERATOR, CIPHER, *NO_ROWS)
        if callee.crate in (GENERATOR, CIPHER) and (other or any(label & SEED for label in labels)):
            labels = [label | TWEAK for label in labels]
        if callee.crate == CIPHER != self.f.crate:
            labels = [label | ROWS if label & TWEAK and self.is_block(t) else label for label, t in zip(labels, callee.params.values())]
        return labels

    def is_block(self, t):
        """Whether it is an array, or has one in a tuple, a result or an enum."""
        return is_a(t, 'array') or t not in self.p.structs and any(map(self.is_block, self.p.inside(t)))


class Held:
    """What a function holds of the bytes of rows at once: what is still to be read behind each statement, from the last one to the first. Of a struct it is
    its fields, each by its path."""

    def __init__(self, frame):
        self.frame, self.f, self.types, self.fault = frame, frame.f, frame.types, frame.test.fault
        self.own = self.chain = 0
        self.again = frozenset()  # what is still to be read at the end of a turn of the loop
        self.sizes = {}
        for name, t in self.types.names.items():
            if frame.labels[name] & ROWS and not is_a(t, 'ref'):
                self.whole(name, t)
                self.sizes.update(self.fields(name, t))
        if frame.result & ROWS:
            self.whole('the result', self.f.result)
        for e in self.types.unnamed():
            if frame.label(e) & ROWS:
                self.whole('a value without a name', self.types.of(e))

    def whole(self, name, t):
        if self.types.size(t) > BLOCK and not self.is_pair(t):
            self.fault(f'{name} of {self.f.name}, {named(t)}, holds bytes of rows')

    def is_pair(self, t):
        return isinstance(t, str) and list(self.types.p.structs.get(t, {}).values()) == [('array', 'u8', BLOCK)] * 2

    def fields(self, path, t):
        fields = self.types.p.fields(t)
        if not fields:
            return {path: self.types.size(t)}
        return {inner: size for name, field in fields.items() for inner, size in self.fields(path + '.' + name, field).items()}

    def most(self):
        named_by = [{path.split('.')[0] for path in paths} for paths in (self.sizes, self.read(self.f.body))]
        for name in sorted(named_by[0] - named_by[1] - set(self.f.params)):
            self.fault(f'{name} of {self.f.name} holds bytes of rows that are never read')
        self.before(self.f.body, frozenset())
        pair = any(self.is_pair(t) for t in [self.f.result, *self.types.names.values()])
        if self.own > (2 * BLOCK if pair else BLOCK):
            self.fault(f'{self.f.name} holds {self.own} bytes of rows at once')
        if self.chain > CHAIN:
            self.fault(f'{self.f.name} and what it calls hold {self.chain} bytes of rows at once')
        return max(self.own, self.chain)

    def sum(self, paths):
        return sum(self.sizes[path] for path in paths)

    def path(self, e):
        """The path of a name, or of a field; None for anything else."""
        of = self.path(e.parts[0]) if e.kind == 'field' else None
        return e.info[0] if e.kind == 'name' else of and of + '.' + e.info

    def paths(self, path):
        return frozenset(p for p in self.sizes if (p + '.').startswith(path + '.') or (path + '.').startswith(p + '.'))

    def read(self, e, call=None):
        """What an expression or a statement reads, beside what this call in it takes by value."""
        if e.kind == 'len':
            return frozenset()
        if self.path(e):
            return self.paths(self.path(e))
        parts = e.parts
        if e is call:
            parts = [part for part in parts if part.kind == 'lent']
        if e.kind == 'set':
            parts = [at for place in walk(parts[0]) if place.kind in ('index', 'part') for at in place.parts[1:]] + parts[1:]
        return frozenset().union(*(self.read(part, call) for part in parts))

    def before(self, e, after):
        """What is still to be read before an expression or a statement, given what is behind it."""
        if e.kind in ('block', 'do', 'value'):
            for part in reversed(e.parts):
                after = self.before(part, after)
                self.own = max(self.own, self.sum(after))
            return after
        if e.kind in ('if', 'match'):
            ways = [self.before(part, after) for part in e.parts[1:]] + [after] * (e.kind == 'if' and len(e.parts) == 2)
            return self.before(e.parts[0], frozenset().union(*ways))
        if e.kind in ('while', 'for'):
            return self.before_loop(e, after)
        if e.kind == 'continue':
            return self.again
        if e.kind == 'return':
            return self.before(e.parts[0], frozenset()) if e.parts else frozenset()
        path = e.info[0] if e.kind == 'let' else self.path(e.parts[0]) if e.kind == 'set' else None
        if path:
            return self.before(e.parts[-1], after - self.paths(path))
        for call in walk(e):
            if id(call) in self.frame.callees:
                self.chain = max(self.chain, self.sum(after | self.read(e, call)) + self.frame.callees[id(call)].held)
        return after | self.read(e)

    def before_loop(self, e, after):
        *first, body = e.parts
        now, outer = None, self.again
        while now != after:
            now = after
            for part in [body] + (first if e.kind == 'while' else []):
                self.again = after
                after = now | self.before(part, after)
        self.again = outer
        for part in first:
            after = self.before(part, after)
        return after


class Test:
    def __init__(self, texts):
        self.p, self.texts = Program(texts), texts
        self.types, self.reached, self.runs, self.open, self.seeing, self.faults = {}, {}, {}, [], set(), []
        self.entries = [self.p.functions[name] for crate in HALVES for name in self.p.public[crate] if name in self.p.functions]
        self.all = set().union(*(self.reach(f.name) for f in self.entries))

    def fault(self, text):
        if text not in self.faults:
            self.faults.append(text)

    def reach(self, name):
        """The functions that one calls, and itself."""
        if name not in self.reached:
            f = self.p.functions[name]
            self.types[name] = Types(self.p, f)
            self.reached[name] = {name}
            for e in self.types[name].every:
                full = self.p.find(f.crate, e.info) if e.kind == 'call' else None
                if full in self.p.functions:
                    self.reached[name] |= self.reach(full)
                elif full and full[0] == '.' and full not in KIT:
                    raise Refused(f'a method of {name} that is not known: {full[1:]}')
                elif full and full not in KIT:
                    raise Refused(f'a call of {name} that is not found: {full}')
        return self.reached[name]

    def run(self, f, given):
        if (f.name, given) not in self.runs:
            if f.name in self.open:
                raise Refused(f'{f.name} calls itself')
            self.open.append(f.name)
            self.runs[f.name, given] = Frame(self, f, given).summary()
            self.open.pop()
        return self.runs[f.name, given]

    def follow(self):
        """Follows the bytes of rows from every public call, until the buffers are known that bring them to another."""
        names, before = set(), None
        while names != before:
            before = set(names)
            for f in self.entries:
                made = self.run(f, tuple(ROWS * (name in names) for name in f.params))
                names |= {name for name, out in zip(f.params, made.outs) if out & ROWS}
        return names

    def others(self):
        """The arrays above 16 bytes are those of the table."""
        arrays = {name: list(self.types[name].arrays()) for name in sorted(self.all)}
        seen = {(named(t), self.types[name].f.crate) for name, held in arrays.items() for _, t in held}
        listed = {(kind, crate) for kind, (_, crates) in TABLE.items() for crate in crates.split()}
        for name, held in arrays.items():
            for holder, t in held:
                if self.types[name].size(t) > BLOCK and (named(t), self.types[name].f.crate) not in listed:
                    self.fault(f'{named(t)} in {name} ({holder}) is not in the table')
        for kind, crate in sorted(listed - seen):
            self.fault(f'{kind} of {crate} is in the table and nowhere else')

    def plain(self):
        """The crates of PLAIN have no array but empty ones: none in a function, and none in their texts."""
        for f in self.p.functions.values():
            if f.crate in PLAIN and self.reach(f.name):
                types = self.types[f.name]
                for holder, t in [*types.arrays(), *types.written()]:
                    if types.size(t) > 0:
                        self.fault(f'{named(t)} in {f.name} ({holder}) is not in the table')
        for crate in PLAIN:
            if re.search(r';[^][{}]*\]', re.sub(r'//[^\n]*', '', self.texts[crate])):
                self.fault(f'{crate} has an array')


def check(texts):
    test = Test(texts)
    names = test.follow()
    test.others()
    test.plain()
    if test.faults:
        raise Refused('\n'.join(test.faults))
    held, buffers = max(made.held for made in test.runs.values()), ', '.join(sorted(names))
    return f'{len(test.all)} functions; bytes of rows reach {len(test.seeing)} of them and the buffers {buffers}; at most {held} are held at once'


# ---- the sources, and edits of them

def sources():
    needs = crate_lines((TOP / 'crates.txt').read_text(encoding='utf-8'))
    if GENERATOR in closure(needs, PLAIN):
        raise Refused('the tests of the calls reach the generator')
    texts = {}
    for name in sorted(closure(needs, HALVES)):
        files = list((TOP / 'crates' / name / 'src').glob('*.rt'))
        if [f.name for f in files] != ['lib.rt']:
            raise Refused(f'crate {name} has other files than lib.rt')
        texts[name] = files[0].read_text(encoding='utf-8')
    return texts


def edited(texts, edits):
    """An edit names a crate, a place and what to put there: for that text; where the place is `fn NAME`, to the front of that function's body; where it is
    empty, to the end of the crate."""
    texts = dict(texts)
    for crate, place, new in edits:
        insert = place == '' or place.startswith('fn ')
        found = list(re.finditer(rf'(?s)\b{place}\(.*?\n{{\n' if place.startswith('fn ') else re.escape(place) or r'\Z', texts[crate]))
        if len(found) != 1:
            sys.exit(f'no row buffer: the place of an edit is not in {crate}: {place}')
        start, end = found[0].span()
        texts[crate] = texts[crate][:end if insert else start] + new + texts[crate][end:]
    return texts


def block(n):
    return f'generator::block(sbox, &KeySchedule::new(sbox, seed), x, {n})'


def at(n):
    """A function that makes block n, calls the next such function, and only then adds its block."""
    head = f'fn at_{n}(sbox: &Sbox, seed: &[u8], x: Nonce, sum: &mut [u8])'
    return head + f'{{ let one = {block(n)}; ' + (f'at_{n + 1}(sbox, seed, x, sum); ' if n < 4 else '') + f'add_block(one, 0, {16 * n}, sum); }}'


def with_tweak(tweak):
    return f'let iv = x.iv; let tweak = x.tweak; let other = {tweak}; ' + STRETCH.replace(' x,', ' Nonce { iv, tweak: other, version: x.version },')


def stretched_with(tweak):
    """A leaf stretched with another tweak."""
    reason = 'stretched of leaf::leaf_of_kind, [u8; 128], holds bytes of rows'
    return (reason, ('leaf', STRETCH, with_tweak(tweak)), FORMS, ('leaf', '', 'const HALF: u32 = 1_073_741_824;'))


ROW = [f'x{n}' for n in range(14)]
STRETCH = 'stretch_leaf(sbox, m, s, key, x, &mut stretched'
FORMS = ('leaf', '', 'pub enum Form { One, Two }')
ARMS = 'match Form::Two { Form::One => { tweak } Form::Two => tweak + %s, }'

# functions of the tests that calls begin with, and functions that only they call
TESTED = (('plan_refusals', 'test_challenge'), ('slots', 'test_opening'), ('verifier_refusals', 'test_reconstruct'), ('signer_refusals', 'commit_fits'))
CALLED = (('planning', 'walk'), ('planning', 'revealed_nodes'), ('buffers', 'is_clear_from'), ('challenge', 'clear'), ('lengths', 'tree_bytes'))
# a block added to a sum of rows; a function whose result may hold a row; an enum that may, and a match that takes it out; a function that goes by a sum of rows
ADDED = 'add_block(%s, 0, 0, sum);'
TRIED = 'fn tried(sum: &mut [u8]) -> Result<[u8; 32], Refusal> { %s }'
PART = 'rows', '', 'enum Part { None, Of([u8; 16], usize), Many([u8; 8192]) }'
TAKEN = 'match %s { Part::Of(block, n) => add_block(block, 0, n, sum), Part::None | Part::Many(_) => {} }'
BY_ROW = 'rows', '', 'fn by_row(sum: &mut [u8]) -> Result<(), bool> { asked(sum)?; Ok(()) } fn asked(sum: &[u8]) -> Result<u8, bool> { Ok(sum[0]) }'

# a part of the reason, and what is edited: the crate, the place, the new text
EDITS = [
    ('[u8; 8192] in rows::add_row (row) is not in the table', ('rows', 'fn add_row', 'let mut row = [0u8; 8192];')),
    ('row of rows::add_row, [u8; 32], holds bytes of rows',
     ('rows', 'fn add_row', 'let mut row = [0u8; 32]; generator::fill(sbox, seed, x, 0, &mut row);')),
    ('pair of rows::add_row, Blocks, holds bytes of rows',
     ('aes', 'pub first: [u8; 16],\n    pub second: [u8; 16],', 'pub both: [[u8; 16]; 2],'),
     ('aes', 'first: bytes_of(last_round(sbox, x, schedule.stored_key(n))),\n        second: bytes_of(last_round(sbox, y, schedule.stored_key(n))),',
      'both: [bytes_of(last_round(sbox, x, schedule.stored_key(n))), bytes_of(last_round(sbox, y, schedule.stored_key(n)))],'),
     *((crate, 'pair.' + old, 'pair.' + new) for crate in ('rows', 'generator') for old, new in (('first', 'both[0]'), ('second', 'both[1]')))),
    ('pair of vector::add_leaf, [u8; 32], holds bytes of rows',
     ('vector', 'fn add_leaf', 'let mut pair = [0u8; 32]; buffers::copy_part(sum, 0, 32, &mut pair, 0);')),
    ('block of columns::block_at, [u64; 4], holds bytes of rows', ('columns', 'let mut block = [0u8; 16];', 'let mut block = [0u64; 4];')),
    ('[u8; 8192] in signer_vectors::next_vector (sum) is not in the table', ('signer_vectors', 'fn next_vector', 'let mut sum = [0u8; 8192];')),
    ('hashes of signer_commit::write_commitment, [u8; 2048], holds bytes of rows', ('signer_vectors', 'fn convert', 'columns::add_part(hash, cols, 0);')),
    ('a form of rows::add_row that cannot be read: const ROW', ('rows', 'fn add_row', 'const ROW: [u8; 64] = [0; 64];')),
    ('schedule of tree::expand_node, KeySchedule, holds bytes of rows', ('signer_tree', 'iv, a, tree);', 'iv, a + 2147483648, tree);')),
    ('an item of columns that cannot be read: type Row', ('columns', '', 'type Row = u8;')),
    ('a method of rows::add_row that is not known: to_vec', ('rows', 'fn add_row', 'let copy = sum.to_vec();')),
    ('a call of leaf::hash_leaf_in_place that is not found: leaf::byte', ('leaf', '[0u8; 48]', '[byte(); 48]')),
    ('last of rows::add_row is a reference in a local, which is not followed', ('rows', 'fn add_row', 'let one = [0u8; 16]; let last = &one[0..8];')),
    ('last of rows::add_row is a reference in a local, which is not followed', ('rows', 'fn add_row', 'let last = &mut sum[0..8];')),
    # a row in a struct, in locals, in the functions of a chain of calls, in what has the type of round keys
    ('row of rows::add_row, Row, holds bytes of rows',
     ('rows', '', 'struct Row { ' + ', '.join(f'{x}: [u8; 16]' for x in ROW) + ' }'),
     ('rows', 'fn add_row', 'let row = Row { ' + ', '.join(f'{x}: {block(n)}' for n, x in enumerate(ROW)) + ' }; add_block(row.x0, 0, 0, sum);')),
    ('rows::add_row holds 224 bytes of rows at once',
     ('rows', 'fn add_row', ''.join(f'let {x} = {block(n)}; ' for n, x in enumerate(ROW)) + ''.join(f'add_block({x}, 0, 0, sum); ' for x in ROW))),
    ('hold 80 bytes of rows at once', ('rows', 'fn add_row', 'at_0(sbox, seed, x, sum);'), ('rows', '', ''.join(map(at, range(5))))),
    ('rows::again calls itself', ('rows', 'fn add_row', 'again(sum);'), ('rows', '', 'fn again(sum: &mut [u8]) { again(sum); }')),
    ('held of rows::add_row, KeySchedule, holds bytes of rows',
     ('rows', 'let mid =', 'let mut held = schedule; held.round_keys[0].bytes = one; let mid =')),
    ('held of rows::add_row, [[[u8; 4]; 4]; 15], holds bytes of rows',
     ('rows', 'let mid =', 'let mut held = [[[0u8; 4]; 4]; 15]; held[0] = aes::load_state(&one); let mid =')),
    # the tweak of rows for a leaf, however it is written
    *map(stretched_with, ('0x80000000', '0x8000_0000u32', '0b1 << 31', 'tweak + 2_147_483_648', 'tweak + 2 * HALF', 'leaf_tweak(HALF as usize, HALF as usize)',
                          ARMS % '0x80000000', '(tweak, 0x80000000).1', 'match (tweak, 0x80000000) { (_, most) => most, }')),
    ('a pattern of leaf::commit_leaf that cannot be read: y', ('leaf', 'fn commit_leaf', 'let two = match x.tweak { y => y, };')),
    # u, a sum of rows and the corrections in arrays that are there for something else
    ('keys of signer_commit::write_commitment, [u8; 3072], holds bytes of rows', ('signer_commit', 'fn write_all', 'buffers::copy(u, keys);')),
    ('keys of signer_commit::write_commitment, [u8; 3072], holds bytes of rows',
     ('signer_commit', 'fn write_all', 'for j in 0..u.len() { let one = u[j]; keys[j] ^= one; }')),
    ('keys of signer_commit::write_commitment, [u8; 3072], holds bytes of rows', ('signer_commit', 'fn write_all', 'keys[..16].copy_from_slice(&u[..16]);')),
    ('keys of reconstruction::write_reconstruction, [u8; 3072], holds bytes of rows', ('reconstruction', 'fn write_all', 'buffers::copy(corrections, keys);')),
    ('seed of vector::add_entry, [u8; 32], holds bytes of rows', ('vector', 'fn add_leaf', 'buffers::copy_part(sum, 0, 32, seed, 0);')),
    # the same in version 1: u and the corrections where zeros or hashes are, a row in the place of the roots, and a seed for the key of a leaf or a node
    ('keys of v1_signer::write_commitment, [u8; 2048], holds bytes of rows',
     ('v1_signer', 'keys: &[u8],', 'keys: &mut [u8],'), ('v1_signer', 'let keys =', 'let mut keys ='), ('v1_signer', '&keys[0..n]', '&mut keys[0..n]'),
     ('v1_signer', 'fn write_all', 'buffers::copy(u, keys);')),
    ('hashes of v1_signer::write_commitment, [u8; 2048], holds bytes of rows', ('v1_signer', 'fn write_all', 'buffers::copy(u, hashes);')),
    ('hashes of v1_verifier::write_reconstruction, [u8; 2048], holds bytes of rows', ('v1_verifier', 'fn write_all', 'buffers::copy(corrections, hashes);')),
    ('roots of signer_forest::grow_trees, [u8; 1024], holds bytes of rows', ('signer_forest', 'tweak: 0,', 'tweak: 2147483648,')),
    ('row of leaf::commit_leaf, [u8; 128], holds bytes of rows',
     ('leaf', 'fn commit_leaf', 'let mut row = [0u8; 128]; generator::fill(sbox, seed, x, 0, &mut row);')),
    ('schedule of tree::expand_node, KeySchedule, holds bytes of rows',
     ('vector', 'fn add_leaf', 'tree::expand_node(sbox, 16, Version::One, [0u8; 16], 0, seed);')),
    ('a branch, a loop or a bound of vector::add_leaf depends on bytes of rows', ('vector', 'fn add_leaf', 'let clear = sum[0..8].iter().all(|x| *x == 0);')),
    ('a closure of vector::add_leaf that is not a test', ('vector', 'fn add_leaf', 'let clear = sum[0..8].iter().all(|x| held(*x));')),
    ('a branch, a loop or a bound of vector::add_leaf depends on bytes of rows', ('vector', 'fn add_leaf', 'if sum[0] == 1 { seed[0] = 1; }')),
    # through a method, a const parameter, and the code of a trait's impl
    ('sponge of vector::add_leaf, Sponge, holds bytes of rows',
     ('vector', '', 'use shake::Sponge;'), ('vector', 'fn add_leaf', 'let sponge = Sponge::new(168).absorb(sum);')),
    ('x of vector::first, [u8; 32], holds bytes of rows',
     ('vector', '', 'fn first<const N: usize>(x: [u8; N]) -> u8 { x[0] }'),
     ('vector', 'fn add_leaf', 'let mut pair = [0u8; 32]; buffers::copy_part(sum, 0, 32, &mut pair, 0); seed[0] = first::<32>(pair);')),
    ('[u64; 40] in field::Field::reduce (many) is not in the table', ('field', 'c ^ (c << 2)', 'let many = [0u64; 40]; c ^ (c << 2)')),
    # the tests that a call begins with, given bytes of rows, which they go by
    ('verifier_refusals::test_reconstruct is given bytes of rows by verifier::reconstruct_stretch',
     ('verifier', 'x, challenge, opening)', 'x, corrections, opening)')),
    ('a branch, a loop or a bound of challenge::clear depends on bytes of rows', ('verifier', 'x, challenge, opening)', 'x, corrections, opening)')),
    ('a branch, a loop or a bound of buffers::is_clear_from depends on bytes of rows', ('verifier', 'x, challenge, opening)', 'x, challenge, corrections)')),
    # an array in them, however it is written, and in what they alone call
    *((f'[u8; 8192] in {crate}::{f} (row) is not in the table', (crate, f'fn {f}', 'let row = [0u8; 8192];')) for crate, f in CALLED),
    *((f'[u8; 8192] in {crate}::{f} (row) is not in the table', (crate, f'fn {f}', 'let row = [0u8; 8 * 1024];')) for crate, f in TESTED),
    *((f'[u8; 18] in {crate}::{f} (row) is not in the table', (crate, f'fn {f}', f'let row = [{"0u8, " * 18}];')) for crate, f in TESTED),
    ('[u8; 8] in slots::slots_clear (row) is not in the table', ('slots', 'fn slots_clear', 'let row = [0u8; 8];')),
    ('[u8; 8] in slots::slots_clear (a value without a name) is not in the table', ('slots', 'fn slots_clear', 'let n = [0u8; 8].len();')),
    ('[u8; 8192] in spec::Answer::from (row) is not in the table',
     ('refusals', 'Answer {\n            number: refusal.number(),', 'let row = [0u8; 8192]; Answer { number: refusal.number(),')),
    ('[u8; 18] in plan_refusals::test_decode (row) is not in the table', ('plan_refusals', 'fn test_decode', f'let row = [{"0u8, " * 18}];')),
    ('plan_refusals has an array', ('plan_refusals', 'fn test_decode', 'let row = [0u8; 8 * 1024];')),
    ('refusals has an array', ('refusals', '', 'struct Row { row: [u8; 16] }')),
    ('planning::revealed_nodes calls itself', ('planning', 'fn revealed_nodes', 'revealed_nodes(s, ch, out);')),
    ('spec::Answer::from calls itself', ('refusals', 'number: refusal.number(),', 'number: Answer::from(refusal).number,')),
    ('a method of slots::slots_clear that is not known: to_vec', ('slots', 'fn slots_clear', 'let copy = opening.to_vec();')),
    # a row in a tuple, in a result, in a value of an enum, and what a match takes out of it
    ('both of rows::add_row, ([u8; 16], [u8; 16]), holds bytes of rows', ('rows', 'fn add_row', f'let both = ({block(0)}, {block(1)}); {ADDED % "both.0"}')),
    ('[u8; 32] in rows::tried (the result) is not in the table', ('rows', 'fn add_row', 'tried(sum);'), ('rows', '', TRIED % 'Err(Refusal::BufferLength)')),
    ('the result of rows::tried, Result<[u8; 32], Refusal>, holds bytes of rows',
     ('rows', 'fn add_row', f'let one = {block(0)}; {ADDED % "one"} tried(sum);'), ('rows', '', TRIED % 'let mut x = [0u8; 32]; x[0] = sum[0]; Ok(x)')),
    ('a value without a name of rows::add_row, ([u8; 16], [u8; 16]), holds bytes of rows',
     ('rows', 'fn add_row', f'let same = ({block(0)}, {block(1)}) == (x.iv, x.iv);')),
    ('held of rows::add_row, Part, holds bytes of rows', PART, ('rows', 'fn add_row', f'let held = Part::Of({block(0)}, 1); {TAKEN % "held"}')),
    (' of rows::add_row, Part, holds bytes of rows', PART, ('rows', 'fn add_row', TAKEN % f'Part::Of({block(0)}, 1)')),
    ('a branch, a loop or a bound of rows::add_row depends on bytes of rows', PART, ('rows', 'fn add_row', TAKEN % f'Part::Of({block(0)}, 1)')),
    ('[u8; 8192] in rows::add_row (held) is not in the table', PART, ('rows', 'fn add_row', 'let held = Part::Many([0u8; 8192]);')),
    ('most of rows::add_row, [u8; 32], holds bytes of rows',
     ('rows', 'fn add_row', 'let mut row = [0u8; 32]; generator::fill(sbox, seed, x, 0, &mut row); let most = row.max(row); sum[0] = most[0];')),
    ('a branch, a loop or a bound of rows::by_row depends on bytes of rows',
     BY_ROW, ('rows', 'fn add_row', f'let one = {block(0)}; {ADDED % "one"} by_row(sum);')),
    # forms that are near to those that are read
    ('a ? of rows::by_row that is not known: another refusal', ('rows', 'fn add_row', 'by_row(sum);'), ('rows', '', BY_ROW[2].replace('(), bool', '(), u8'))),
    ('a variant of rows::add_row that is not known: Part::Half', PART, ('rows', 'fn add_row', 'let held = Part::Half(1);')),
    ('a type of rows::add_row that is not known: Ok', ('rows', 'fn add_row', 'let held = Ok(1);')),
    ('a name of rows::add_row that is not known: u32::MAX', ('rows', 'fn add_row', 'let held = 1 + u32::MAX;')),
    ('a name of leaf::leaf_of_kind that is not known: u32::MAX', ('leaf', '', 'const MOST: u32 = u32::MAX;'), ('leaf', STRETCH, with_tweak('MOST'))),
    ('a pattern of rows::add_row that cannot be read: Part :: Of ( ref', PART, ('rows', 'fn add_row', 'match Part::None { Part::Of(ref x, y) => y, _ => 0 };')),
    ('a form of rows::add_row that cannot be read: . iv ) = ( sum .', ('rows', 'fn add_row', '(x.tweak, x.iv) = (sum.len(), [0u8; 16]);')),
    ('n of rows::add_row is the name of a constant', ('rows', '', 'const n: usize = 2147483648;'), ('rows', 'fn add_row', TAKEN % 'Part::None'), PART),
    ('a trait of rows that is not known: Add', ('rows', '', 'impl Add for Row { fn add(x: Row, y: Row) -> Row { x } }')),
    ('a function that has a name like a variant: rows::Ok', ('rows', '', 'fn Ok(x: usize) -> usize { x }')),
    ('two functions of one name: spec::Answer::from', ('spec', '', 'impl Answer { fn from(n: usize) -> Answer { Answer { number: n, count: 0 } } }')),
    ('two enums of one name: Version', ('rows', '', 'enum Version { Long([u8; 32]) }')),
    ('a form of rows::none that cannot be read: ) -> Option < usize > {', ('rows', '', 'fn none() -> Option<usize> { None }')),
    ('x of rows::put has a reference in it, which is not followed',
     ('rows', 'fn add_row', 'put((1, sum));'), ('rows', '', 'fn put(x: (usize, &mut [u8])) { }')),
    ('the result of rows::put has a reference in it, which is not followed',
     ('rows', 'fn add_row', 'put(sum);'), ('rows', '', 'fn put(x: &mut [u8]) -> Result<&mut [u8], Refusal> { Ok(x) }')),
    ('held of rows::add_row is a reference in a local, which is not followed', ('rows', 'fn add_row', 'let held = (1, &mut sum[0..8]);')),
]
ALLOWED = [
    [('leaf', STRETCH, with_tweak(ARMS % '1')), FORMS],
    [('rows', '', 'enum Half { First, Second } fn cut(h: Half) -> usize { match h { Half::First => 0, Half::Second => { return 8; } } }'),
     ('rows', 'fn add_row', f'let one = {block(0)}; add_block(one, cut(Half::First), 0, sum);')],
    [('rows', '', 'enum Cut { None, From(usize), By((usize, bool)) }'),
     ('rows', '', 'fn place(c: Cut) -> usize { match c { Cut::From(n) | Cut::By((n, true)) => n, _ => 0 } }'),
     ('rows', '', 'fn found(n: usize) -> Result<usize, Refusal> { if n == place(Cut::By((n, 1 < n))) { Ok(n) } else { Err(Refusal::TooManyNodes(n)) } }'),
     ('rows', '', 'fn twice(n: usize) -> Result<(), Refusal> { let x = (found(n)?, 2); match found(x.0 * x.1) { Ok(_) => Ok(()), Err(why) => Err(why) } }'),
     ('rows', 'fn add_row', 'let end = match twice(8) { Ok(()) => 8, Err(Refusal::TooManyNodes(count)) => count, Err(other) => other.number() };')],
]


def main():
    texts = sources()
    print('no row buffer:', check(texts))
    for reason, *edits in EDITS:
        try:
            check(edited(texts, edits))
        except Refused as why:
            if not any(line.startswith(reason) or line.endswith(reason) for line in str(why).split('\n')):
                sys.exit(f'no row buffer: {edits} is refused for another reason: {why}')
        else:
            sys.exit(f'no row buffer: {edits} is not refused')
    for edits in ALLOWED:
        check(edited(texts, edits))
    print(f'no row buffer: {len(EDITS)} edits refused, as they must be, and {len(ALLOWED)} allowed')


if __name__ == '__main__':
    try:
        main()
    except Refused as why:
        sys.exit(f'no row buffer: {why}')
