#!/usr/bin/env python3
"""The worked examples of the definitions, derived from document 000, and for version 1 from document 02, E12, with stand-in primitives; each has the name of
its file.

    worked_example.py NAME       prints each list of this example by its name
    worked_example.py FILE       compares them with the lists of the same names in FILE; exit status 1 where one differs or is missing

Commit, open and reconstruct follow figures 5.4, 5.5, 5.8 and 5.9. The generator, the two hashes and the leaf hash are simple sums in place of AES, SHAKE
and the field, as in crates/spec/proofs/StandIns.antt, so that a prover can compute the whole example. Of V and Q only the columns of the vectors are
listed: the others are zeros. Where an example has a stretch of the rows, its lists are cut out of the whole ones. The commitment and the leaf commitments of
the verifier must be the signer's, and a column of Q that of V, xored with u where its bit of the challenge is set.

In version 1 every vector has a tree of its own, here a list of its levels, each twice as long as the one before.
"""
import re
import sys
from functools import reduce
from pathlib import Path

# level, leaf kind, tau, k, w, T, the bytes of a row, and the bytes of the challenge before its zeros. No call takes the last three, whose w is above 127, or
# above 0 for version 1: they are examples of what the definitions compute, with few leaves
EXAMPLES = {
    'WorkedExample': (128, 0, 3, 2, 122, 7, 2, [0x1E]),
    'LongRowsExample': (128, 0, 3, 3, 119, 9, 18, [0x5E, 0x01]),
    'UnevenExample': (128, 0, 3, 1, 123, 6, 2, [0x16]),
    'Level192Example': (192, 0, 2, 1, 189, 3, 2, [0x06]),
    'Level256EmExample': (256, 1, 2, 1, 253, 3, 2, [0x03]),
    'Version1Example': (128, 0, 3, 1, 123, 1, 2, [0x16]),
}
VERSION_1 = ['Version1Example']
# where an example has a stretch of the rows too: the first word of its lists' names, its first byte and its width
STRETCHES = {'WorkedExample': ('last', 1, 1)}
NAME = Path(sys.argv[1]).stem
LEVEL, KIND, TAU, K, W, T, B, FIRST = EXAMPLES[NAME]
NODE = LEVEL // 8
LEAF = (2 if KIND else 3) * NODE
TAU_1 = LEVEL - W - TAU * K
DEPTHS = [K + (i < TAU_1) for i in range(TAU)]
N = [1 << depth for depth in DEPTHS]
L = sum(N)
ROOT = [(7 * i + 1) % 256 for i in range(NODE)]
IV = [(11 * i + 3) % 256 for i in range(16)]
CHALLENGE = FIRST + [0] * (NODE - len(FIRST))


# ---- the stand-in primitives

def weight(xs):
    return sum((i + 1) * x for i, x in enumerate(xs))


def prg(key, tweak, n):
    a = (weight(key) + 7 * tweak + weight(IV)) % 65521
    return [(a + 13 * p + a // 256 * p * p) % 256 for p in range(n)]


def h0(message, n):
    return [(weight(message) + 3 * p) % 256 for p in range(n)]


def h1(message):
    a = weight(message)
    return [(a + a // 256 * (p + 1)) % 256 for p in range(2 * NODE)]


def leaf_hash(u, x0, x1):
    return [b ^ (u[p] + x0[p % NODE]) % 256 for p, b in enumerate(x1)]


# ---- shared by both halves

def joined(parts):
    return [byte for part in parts for byte in part]


def xor(a, b):
    return [x ^ y for x, y in zip(a, b)]


def pos_in_tree(i, j):
    common = 1 << K
    return L - 1 + (TAU * j + i if j < common else TAU * common + TAU_1 * (j - common) + i)


def hidden_indices():
    bits = [CHALLENGE[b // 8] >> b % 8 & 1 for b in range(LEVEL)]
    return [sum(bits[sum(DEPTHS[:i]) + j] << j for j in range(DEPTHS[i])) for i in range(TAU)]


def leaf_commit(key, i):
    if KIND == 1:
        return key, prg(key, i + L - 1, 2 * NODE)
    uhash = h0(IV, LEAF * TAU)[LEAF * i:LEAF * i + LEAF]
    stretched = prg(key, i + L - 1, 4 * NODE)
    return stretched[:NODE], leaf_hash(uhash, stretched[:NODE], stretched[NODE:])


def hashed(coms):
    return h1(joined(h1(joined(vector)) for vector in coms))


def convert_to_vole(seeds, tweak):
    """Section 5.4 by halving; a seed that is None counts as a row of zeros."""
    rows = [[0] * B if seed is None else prg(seed, tweak, B) for seed in seeds]
    columns = []
    while len(rows) > 1:
        columns.append(reduce(xor, rows[1::2]))
        rows = [xor(rows[e], rows[e + 1]) for e in range(0, len(rows), 2)]
    return rows[0], columns


def corrected(columns, i, delta, corrections):
    """The columns of vector i after its correction, one behind another."""
    c = corrections[B * (i - 1):B * i] if i > 0 else [0] * B
    return joined(xor(column, c) if delta >> j & 1 else column for j, column in enumerate(columns))


# ---- the three algorithms

def commit():
    nodes = [ROOT] + [None] * (2 * L - 2)
    for a in range(L - 1):
        both = prg(nodes[a], a, 2 * NODE)
        nodes[2 * a + 1], nodes[2 * a + 2] = both[:NODE], both[NODE:]
    leaves = [[leaf_commit(nodes[pos_in_tree(i, j)], i) for j in range(N[i])] for i in range(TAU)]
    coms = [[com for _, com in vector] for vector in leaves]
    voles = [convert_to_vole([seed for seed, _ in vector], i + 2**31) for i, vector in enumerate(leaves)]
    return {
        'signer-commitment': hashed(coms),
        'signer-tree': joined(nodes),
        'signer-leaf-commitments': joined(joined(vector) for vector in coms),
        'signer-u': voles[0][0],
        'signer-v': joined(joined(columns) for _, columns in voles),
        'signer-corrections': joined(xor(voles[0][0], u) for u, _ in voles[1:]),
    }


def marked():
    """S of figures 5.4 and 5.5, and the nodes that an opening has, in order."""
    s = [0] * (2 * L - 1)
    for i, delta in enumerate(hidden_indices()):
        s[pos_in_tree(i, delta)] = 1
    nodes = []
    for a in reversed(range(L - 1)):
        s[a] = s[2 * a + 1] | s[2 * a + 2]
        if s[2 * a + 1] != s[2 * a + 2]:
            nodes.append(2 * a + 1 + s[2 * a + 1])
    return s, nodes


def opened(tree, coms):
    out = []
    for i, delta in enumerate(hidden_indices()):
        at = LEAF * (sum(N[:i]) + delta)
        out += coms[at:at + LEAF]
    for a in marked()[1]:
        out += tree[NODE * a:NODE * a + NODE]
    return out + [0] * (LEAF * TAU + NODE * T - len(out))


def reconstruct(opening, corrections):
    s, given = marked()
    nodes = [[0] * NODE for _ in s]
    for m, a in enumerate(given):
        nodes[a] = opening[LEAF * TAU + NODE * m:LEAF * TAU + NODE * m + NODE]
    for a in range(L - 1):
        if not s[a]:
            both = prg(nodes[a], a, 2 * NODE)
            nodes[2 * a + 1], nodes[2 * a + 2] = both[:NODE], both[NODE:]
    coms, q = [], []
    for i, delta in enumerate(hidden_indices()):
        leaves = [leaf_commit(nodes[pos_in_tree(i, j)], i) for j in range(N[i])]
        coms.append([opening[LEAF * i:LEAF * i + LEAF] if j == delta else leaves[j][1] for j in range(N[i])])
        permuted = [None] + [leaves[e ^ delta][0] for e in range(1, N[i])]
        q += corrected(convert_to_vole(permuted, i + 2**31)[1], i, delta, corrections)
    return hashed(coms), joined(joined(vector) for vector in coms), {'verifier-tree': joined(nodes), 'verifier-q': q}


# ---- the three algorithms of version 1: no tweak, which is 0 here

def halves(key):
    both = prg(key, 0, 2 * NODE)
    return [both[:NODE], both[NODE:]]


def hashed_leaf(key):
    """The seed and the commitment."""
    both = h0(key + IV, 3 * NODE)
    return both[:NODE], both[NODE:]


def commit_v1():
    roots, trees = prg(ROOT, 0, NODE * TAU), []
    for i in range(TAU):
        levels = [[roots[NODE * i:NODE * i + NODE]]]
        for _ in range(DEPTHS[i]):
            levels.append([child for node in levels[-1] for child in halves(node)])
        trees.append(levels)
    leaves = [[hashed_leaf(key) for key in levels[-1]] for levels in trees]
    coms = [[com for _, com in vector] for vector in leaves]
    voles = [convert_to_vole([seed for seed, _ in vector], 0) for vector in leaves]
    return trees, coms, {
        'signer-commitment': hashed(coms),
        'signer-trees': joined(joined(joined(levels) for levels in trees)),
        'signer-leaf-commitments': joined(joined(vector) for vector in coms),
        'signer-u': voles[0][0],
        'signer-v': joined(joined(columns) for _, columns in voles),
        'signer-corrections': joined(xor(voles[0][0], u) for u, _ in voles[1:]),
    }


def opened_v1(trees, coms):
    out = []
    for levels, vector, depth, delta in zip(trees, coms, DEPTHS, hidden_indices()):
        for level in range(1, depth + 1):
            out += levels[level][delta >> (depth - level) ^ 1]
        out += vector[delta]
    return out


def reconstruct_v1(opening, corrections):
    trees, coms, q = [], [], []
    for i, delta in enumerate(hidden_indices()):
        levels = [[[0] * NODE]]
        for level in range(1, DEPTHS[i] + 1):
            covered = delta >> (DEPTHS[i] - level)
            children = [child for node in levels[-1] for child in halves(node)]
            children[covered], children[covered ^ 1] = [0] * NODE, opening[:NODE]
            opening = opening[NODE:]
            levels.append(children)
        leaves = [hashed_leaf(key) for key in levels[-1]]
        coms.append([opening[:2 * NODE] if j == delta else com for j, (_, com) in enumerate(leaves)])
        opening = opening[2 * NODE:]
        permuted = [None] + [leaves[e ^ delta][0] for e in range(1, N[i])]
        q += corrected(convert_to_vole(permuted, 0)[1], i, delta, corrections)
        trees.append(levels)
    return hashed(coms), joined(joined(vector) for vector in coms), {'verifier-trees': joined(joined(joined(levels) for levels in trees)), 'verifier-q': q}


def example():
    lists = {'root': ROOT, 'iv': IV, 'challenge': CHALLENGE}
    if NAME in VERSION_1:
        trees, coms, made = commit_v1()
        lists.update(made)
        lists['opening'] = opened_v1(trees, coms)
        commitment, leaf_commitments, rest = reconstruct_v1(lists['opening'], lists['signer-corrections'])
    else:
        lists.update(commit())
        lists['opening'] = opened(lists['signer-tree'], lists['signer-leaf-commitments'])
        commitment, leaf_commitments, rest = reconstruct(lists['opening'], lists['signer-corrections'])
    assert commitment == lists['signer-commitment'] and leaf_commitments == lists['signer-leaf-commitments']
    lists.update(rest)
    for c in range(sum(DEPTHS)):
        v, q = (lists[name][B * c:B * c + B] for name in ('signer-v', 'verifier-q'))
        assert q == (xor(v, lists['signer-u']) if CHALLENGE[c // 8] >> c % 8 & 1 else v)
    if NAME in STRETCHES:
        word, first, width = STRETCHES[NAME]
        for name in ('signer-u', 'signer-v', 'signer-corrections', 'verifier-q'):
            lists[f'{word}-{name.split("-")[1]}'] = joined(lists[name][at + first:at + first + width] for at in range(0, len(lists[name]), B))
    return lists


def main():
    lists = example()
    if not sys.argv[1].endswith('.antt'):
        for name, xs in lists.items():
            print(name, '=', ' ∷ '.join(map(str, xs)), '∷ []')
        return
    text = open(sys.argv[1], encoding='utf-8').read()
    wrong = []
    for name, xs in lists.items():
        found = re.search(rf'^{name} =([\d\s∷]+)\[\]$', text, re.M)
        if not found or [int(x) for x in re.findall(r'\d+', found.group(1))] != xs:
            wrong.append(name)
    print(f'{Path(sys.argv[1]).stem}: {len(lists) - len(wrong)} of {len(lists)} lists as derived' + ''.join(f'; wrong: {n}' for n in wrong))
    sys.exit(bool(wrong))


main()
