#!/usr/bin/env python3
"""Derives tests/known_answers.txt; run only when that file is to be made anew.

Nothing here comes from src/: SHAKE128 and SHAKE256 are hashlib's, AES is that of
the Python package `cryptography`, field elements are Python integers, and what is
computed follows the definitions of documents 01 and 02 word by word (a node is
covered if it has a hidden leaf beneath it; column j is the xor of the rows whose
entry has bit j set; a stretch is made from rows that begin at its first byte) and
not the procedures of document 000's figures.

usage: python3 tests/derive.py > tests/known_answers.txt
"""

import hashlib
from cryptography.hazmat.primitives.ciphers import Cipher, algorithms, modes


def shake(message, length):
    return hashlib.shake_128(message).digest(length)


def hashed(level, message, length):
    """Document 000, section 3.3."""
    made = hashlib.shake_128 if level == 128 else hashlib.shake_256
    return made(message).digest(length)


def generator(key, iv, tweak, length, first=0):
    """Its output from byte `first` on."""
    words = [int.from_bytes(iv[n : n + 4], "little") for n in (0, 4, 8, 12)]
    words[3] = (words[3] + tweak) % 2**32
    blocks = b""
    for counter in range(first // 16, (first + length + 15) // 16):
        lower = (words[0] + counter) % 2**32
        blocks += b"".join(w.to_bytes(4, "little") for w in [lower] + words[1:])
    encryptor = Cipher(algorithms.AES(key), modes.ECB()).encryptor()
    return encryptor.update(blocks)[first % 16 :][:length]


# The exponents of the polynomials of document 000, section 3.2, by the level.
POLYNOMIALS = {
    128: (384, 12, 3, 2, 0),
    192: (576, 13, 4, 3, 0),
    256: (768, 19, 17, 4, 0),
}


def times(level, a, b):
    """The product in the field of 2^(3 level) elements: carryless, then reduced."""
    polynomial = sum(1 << exponent for exponent in POLYNOMIALS[level])
    product = 0
    while b:
        if b & 1:
            product ^= a
        a <<= 1
        b >>= 1
    while product.bit_length() > 3 * level:
        product ^= polynomial << (product.bit_length() - 1 - 3 * level)
    return product


def is_shape(tau, k, w, t, level, kind):
    """The limits of documents 01 and 02 (E2, E7, E8)."""
    if (tau, k, w, t) == (0, 0, 0, 0):
        return level == 128 and kind == 0
    if kind > 1:
        return False
    if level not in (128, 192, 256) or not (1 <= tau <= 32 and 1 <= k <= 12):
        return False
    if not (0 <= w <= 127 and 1 <= t <= 512):
        return False
    r = level - w - tau * k
    return 0 <= r <= tau - 1 and (r == 0 or k + 1 <= 12)


class Shape:
    def __init__(self, tau, k, w, t, level, kind):
        if (tau, k, w, t) == (0, 0, 0, 0):
            tau, k, w, t = 16, 7, 8, 110
        self.tau, self.k, self.w, self.t, self.level = tau, k, w, t, level
        self.r = level - w - tau * k
        self.depths = [k + 1 if i < self.r else k for i in range(tau)]
        self.leaves = (tau + self.r) * 2**k
        self.nodes = 2 * self.leaves - 1
        self.width = level // 8
        self.even_mansour = kind == 1
        self.com_width = (2 if self.even_mansour else 3) * self.width

    def leaf(self, i, j):
        near = 2**self.k
        if j < near:
            return self.leaves - 1 + self.tau * j + i
        return self.leaves - 1 + self.tau * near + self.r * (j - near) + i

    def indices(self, challenge):
        number = int.from_bytes(challenge, "little")
        indices = []
        for depth in self.depths:
            indices.append(number % 2**depth)
            number >>= depth
        return indices

    def covered(self, challenge):
        """The hidden leaves and every node above one."""
        nodes = set()
        for i, hidden in enumerate(self.indices(challenge)):
            node = self.leaf(i, hidden)
            nodes.add(node)
            while node:
                node = (node + 1) // 2 - 1
                nodes.add(node)
        return nodes

    def revealed(self, challenge):
        """Uncovered nodes with a covered parent; each parent has at most one
        of them, so descending parents are descending nodes."""
        covered = self.covered(challenge)
        children = {2 * a + 1 for a in covered} | {2 * a + 2 for a in covered}
        return sorted((a for a in children - covered if a < self.nodes), reverse=True)


def xor(a, b):
    return bytes(x ^ y for x, y in zip(a, b))


class Signer:
    """Everything that commit and open write."""

    def __init__(self, shape, row_bits, root, iv):
        s, self.shape, self.iv = shape, shape, iv
        n = s.width
        self.tree = {0: root}
        for a in range(s.leaves - 1):
            both = generator(self.tree[a], iv, a, 2 * n)
            self.tree[2 * a + 1], self.tree[2 * a + 2] = both[:n], both[n:]
        self.coms, self.seeds = [], []
        for i in range(s.tau):
            keys = [self.tree[s.leaf(i, j)] for j in range(2 ** s.depths[i])]
            if s.even_mansour:
                made = self.even_mansour_leaves(i, keys)
            else:
                made = self.ordinary_leaves(i, keys)
            self.coms.append([com for _, com in made])
            self.seeds.append([seed for seed, _ in made])
        tops = [self.hash_1(b"".join(coms)) for coms in self.coms]
        self.commitment = self.hash_1(b"".join(tops))
        self.take(0, row_bits // 8)

    def ordinary_leaves(self, i, leaf_keys):
        """Seed and commitment of each: 4 level bits of the generator, of which the
        first quarter is the seed; that times the hash key of the vector, and the
        other three added."""
        s, n, m = self.shape, self.shape.width, self.shape.com_width
        hash_keys = hashed(s.level, self.iv + b"\x00", m * s.tau)
        hash_key = int.from_bytes(hash_keys[m * i : m * i + m], "little")
        made = []
        for leaf_key in leaf_keys:
            out = generator(leaf_key, self.iv, i + s.leaves - 1, 4 * n)
            high = times(s.level, hash_key, int.from_bytes(out[:n], "little"))
            made.append((out[:n], xor(high.to_bytes(m, "little"), out[n:])))
        return made

    def even_mansour_leaves(self, i, leaf_keys):
        """The key itself is the seed; 2 level bits of the generator are the
        commitment, and there is no hash key."""
        s = self.shape
        tweak, length = i + s.leaves - 1, 2 * s.width
        return [(key, generator(key, self.iv, tweak, length)) for key in leaf_keys]

    def hash_1(self, message):
        return hashed(self.shape.level, message + b"\x01", 2 * self.shape.width)

    def take(self, first, width):
        """From now on rows are these bytes of each row."""
        self.b, self.rows = width, []
        for i, seeds in enumerate(self.seeds):
            made = [generator(sd, self.iv, i + 2**31, width, first) for sd in seeds]
            self.rows.append([int.from_bytes(row, "little") for row in made])

    def sum(self, rows):
        total = 0
        for row in rows:
            total ^= row
        return total.to_bytes(self.b, "little")

    def commit(self):
        s = self.shape
        us = [self.sum(rows) for rows in self.rows]
        v = b""
        for depth, rows in zip(s.depths, self.rows):
            for bit in range(depth):
                v += self.sum(r for e, r in enumerate(rows) if e >> bit & 1)
        return [
            ("commitment", self.commitment),
            ("tree", b"".join(self.tree[a] for a in range(s.nodes))),
            ("leaf_commitments", b"".join(b"".join(coms) for coms in self.coms)),
            ("u", us[0]),
            ("v", v.ljust(s.level * self.b, b"\x00")),
            ("corrections", b"".join(xor(us[0], u) for u in us[1:])),
        ]

    def open(self, challenge):
        s = self.shape
        hidden = s.indices(challenge)
        opening = b"".join(self.coms[i][hidden[i]] for i in range(s.tau))
        opening += b"".join(self.tree[a] for a in s.revealed(challenge))
        length = s.com_width * s.tau + s.width * s.t
        return [("opening", opening.ljust(length, b"\x00"))]

    def reconstruct(self, challenge):
        """For an honest opening: the same tree but zeros where covered, and Q
        from the rows under the numbers e xor the hidden index."""
        s = self.shape
        covered = s.covered(challenge)
        us = [self.sum(rows) for rows in self.rows]
        q = b""
        for i, hidden in enumerate(s.indices(challenge)):
            for bit in range(s.depths[i]):
                rows = self.rows[i]
                column = self.sum(
                    r for e, r in enumerate(rows) if (e ^ hidden) >> bit & 1
                )
                if i and hidden >> bit & 1:
                    column = xor(column, xor(us[0], us[i]))
                q += column
        return [
            ("commitment", self.commitment),
            (
                "tree",
                b"".join(
                    bytes(s.width) if a in covered else self.tree[a]
                    for a in range(s.nodes)
                ),
            ),
            ("leaf_commitments", b"".join(b"".join(coms) for coms in self.coms)),
            ("q", q.ljust(s.level * self.b, b"\x00")),
        ]


def record(version, numbers, row_bits, fields):
    """Document 02, E6, E7 and E8: a version byte, then each field behind its length;
    version 2 has the level in its first field, version 3 level and kind."""
    tau, k, w, t, level, kind = numbers
    head = bytes([tau, k, w]) + t.to_bytes(2, "big") + row_bits.to_bytes(4, "big")
    head += bytes([level // 8, kind])[: version - 1]
    text = bytes([version])
    for field in [head] + fields:
        text += len(field).to_bytes(4, "big") + field
    return text


def show(command, arguments, count, lines):
    print("$", command, *arguments)
    print("number 0")
    print("count", count)
    for name, value in lines:
        if isinstance(value, list):
            print(name, len(value), *value)
        elif len(value) == 0:
            print(name, 0)
        elif len(value) <= 64:
            print(name, len(value), value.hex())
        else:
            print(name, len(value), "shake128", shake(value, 32).hex())


def round_trip(shape, arguments, challenge):
    show("roundtrip", arguments, len(shape.revealed(challenge)), [])
    print("commitments agree")
    print(f"columns {shape.level} of {shape.level}")


def refused(command, arguments, number):
    print("$", command, *arguments)
    print("number", number)
    print("count 0")


def challenge_for(shape, label):
    """The first allowed challenge under this label that needs at most T nodes."""
    n = shape.width
    for attempt in range(10**6):
        number = int.from_bytes(shake(f"{label} {attempt}".encode(), n), "little")
        challenge = (number % 2 ** (shape.level - shape.w)).to_bytes(n, "little")
        if len(shape.revealed(challenge)) <= shape.t:
            return challenge
    raise SystemExit(f"no challenge for {label}")


def counter_mode(key, iv, length):
    """The generator of version 1: NIST SP 800-38A, of zeros."""
    return Cipher(algorithms.AES(key), modes.CTR(iv)).encryptor().update(bytes(length))


def grow(nodes, path, node, depth, iv):
    """A node of version 1 and all that is beneath it, by their paths."""
    nodes[path] = node
    if len(path) < depth:
        both = counter_mode(node, iv, 2 * len(node))
        grow(nodes, path + "0", both[: len(node)], depth, iv)
        grow(nodes, path + "1", both[len(node) :], depth, iv)


def paths(length):
    """All paths of this length, from the left."""
    return [format(j, "b").zfill(length) if length else "" for j in range(2**length)]


class Vectors1:
    """What commit and reconstruct of version 1 have in common: for each vector the
    nodes that are known, and the commitment of the leaf that is not."""

    def __init__(self, shape, row_bits, iv):
        self.shape, self.b, self.iv = shape, row_bits // 8, iv
        self.trees = [{} for _ in shape.depths]
        self.hidden_coms = [None for _ in shape.depths]

    def finish(self):
        s, n = self.shape, self.shape.width
        self.coms, self.rows = [], []
        for depth, nodes, hidden in zip(s.depths, self.trees, self.hidden_coms):
            coms, rows = [], []
            for path in paths(depth):
                row, com = 0, hidden
                if path in nodes:
                    out = hashed(s.level, nodes[path] + self.iv + b"\x00", 3 * n)
                    row = counter_mode(out[:n], self.iv, self.b)
                    row, com = int.from_bytes(row, "little"), out[n:]
                coms.append(com)
                rows.append(row)
            self.coms.append(b"".join(coms))
            self.rows.append(rows)
        self.us = [self.sum(rows) for rows in self.rows]

    def sum(self, rows):
        total = 0
        for row in rows:
            total ^= row
        return total.to_bytes(self.b, "little")

    def hash_1(self, message):
        return hashed(self.shape.level, message + b"\x01", 2 * self.shape.width)

    def lines(self):
        """Commitment, trees and leaf commitments."""
        trees = b""
        for depth, nodes in zip(self.shape.depths, self.trees):
            for length in range(depth + 1):
                known = [nodes.get(path) for path in paths(length)]
                trees += b"".join(x or bytes(self.shape.width) for x in known)
        commitment = self.hash_1(b"".join(self.hash_1(coms) for coms in self.coms))
        return [
            ("commitment", commitment),
            ("trees", trees),
            ("leaf_commitments", b"".join(self.coms)),
        ]


class Signer1(Vectors1):
    """Everything that commit and open of version 1 write."""

    def __init__(self, shape, row_bits, root, iv):
        super().__init__(shape, row_bits, iv)
        n = shape.width
        roots = counter_mode(root, iv, shape.tau * n)
        for i, depth in enumerate(shape.depths):
            grow(self.trees[i], "", roots[n * i : n * i + n], depth, iv)
        self.finish()

    def corrections(self):
        return b"".join(xor(self.us[0], u) for u in self.us[1:])

    def commit(self):
        v = b""
        for depth, rows in zip(self.shape.depths, self.rows):
            for bit in range(depth):
                v += self.sum(r for e, r in enumerate(rows) if e >> bit & 1)
        rest = [("u", self.us[0]), ("v", v), ("corrections", self.corrections())]
        return self.lines() + rest

    def open(self, challenge):
        """For each vector the siblings of the path, which are its beginnings with
        the last digit turned, then the commitment of the hidden leaf."""
        opening, n = b"", self.shape.width
        for i, hidden in enumerate(self.shape.indices(challenge)):
            path = paths(self.shape.depths[i])[hidden]
            for length in range(1, len(path) + 1):
                turned = "1" if path[length - 1] == "0" else "0"
                opening += self.trees[i][path[: length - 1] + turned]
            opening += self.coms[i][2 * n * hidden : 2 * n * hidden + 2 * n]
        return opening


class Verifier1(Vectors1):
    """Everything that reconstruct of version 1 writes, from an opening."""

    def __init__(self, shape, row_bits, iv, challenge, corrections, opening):
        super().__init__(shape, row_bits, iv)
        n, self.indices = shape.width, shape.indices(challenge)
        self.corrections = corrections
        for i, (depth, hidden) in enumerate(zip(shape.depths, self.indices)):
            path = paths(depth)[hidden]
            for length in range(1, depth + 1):
                turned = "1" if path[length - 1] == "0" else "0"
                sibling = path[: length - 1] + turned
                grow(self.trees[i], sibling, opening[:n], depth, iv)
                opening = opening[n:]
            self.hidden_coms[i] = opening[: 2 * n]
            opening = opening[2 * n :]
        assert opening == b""
        self.finish()

    def reconstruct(self):
        """Q: the rows under the numbers e xor the hidden index, then the
        corrections."""
        q, b = b"", self.b
        for i, hidden in enumerate(self.indices):
            for bit in range(self.shape.depths[i]):
                rows = enumerate(self.rows[i])
                column = self.sum(r for e, r in rows if (e ^ hidden) >> bit & 1)
                if i and hidden >> bit & 1:
                    column = xor(column, self.corrections[b * i - b : b * i])
                q += column
        return self.lines() + [("q", q)]


def is_shape_1(tau, k, w, t, level, kind):
    """The limits of document 02, E12."""
    return (w, t, kind) == (0, 1, 0) and is_shape(tau, k, w, t, level, kind)


CASES = [
    # (tau, k, w, T, level, kind), row length in bits, stretch, IV (None: any), label
    # (where it is not the shape)
    ((1, 1, 127, 1, 128, 0), 8, (0, 1), None),
    ((1, 12, 116, 12, 128, 0), 136, (15, 2), None),
    ((2, 2, 124, 4, 128, 0), 128, (5, 7), "ff" * 16),
    ((3, 1, 125, 2, 128, 0), 1680, (13, 37), None),
    ((5, 3, 113, 9, 128, 0), 65536, (5000, 16), "fdffffff" + "00" * 8 + "f0ffffff"),
    ((7, 5, 93, 30, 128, 0), 24, (1, 1), "ffffffff" + "00" * 8 + "ffffff7f"),
    ((9, 7, 65, 40, 128, 0), 264, (16, 17), None),
    ((32, 4, 0, 512, 128, 0), 1000, (100, 25), None),
    ((16, 8, 0, 120, 128, 0), 72, (8, 1), None),
    ((11, 11, 7, 102, 128, 0), 1680, (5, 20), None, "0 0 0 0"),
    ((10, 12, 8, 110, 128, 0), 8, (0, 1), "ff" * 16),
    ((2, 1, 125, 4, 128, 0), 128, (15, 1), None),
    ((3, 1, 123, 6, 128, 0), 24, (0, 2), "ff" * 16),
    ((32, 3, 1, 512, 128, 0), 72, (4, 3), None),
    ((16, 7, 8, 110, 128, 0), 1680, (200, 10), None),
    ((0, 0, 0, 0, 128, 0), 16, (1, 1), None, "default"),
    # the fewest leaves of each level, and other depths
    ((32, 2, 127, 40, 192, 0), 8, (0, 1), None),
    ((32, 2, 127, 512, 192, 0), 136, (15, 2), "ff" * 16),
    ((6, 12, 120, 60, 192, 0), 24, (1, 2), "fdffffff" + "00" * 8 + "f0ffffff"),
    ((32, 6, 0, 512, 192, 0), 264, (16, 17), None),
    ((24, 5, 60, 110, 192, 0), 72, (8, 1), None),
    ((32, 4, 127, 100, 256, 0), 8, (0, 1), None),
    ((32, 4, 127, 512, 256, 0), 136, (15, 2), "ff" * 16),
    ((11, 12, 124, 130, 256, 0), 24, (1, 2), "ffffffff" + "00" * 8 + "ffffff7f"),
    ((32, 8, 0, 512, 256, 0), 264, (16, 17), None),
    ((31, 5, 100, 170, 256, 0), 72, (8, 1), None),
    # Even-Mansour leaves
    ((1, 1, 127, 1, 128, 1), 8, (0, 1), None),
    ((2, 2, 124, 4, 128, 1), 128, (5, 7), "ff" * 16),
    ((3, 1, 123, 6, 128, 1), 24, (0, 2), None),
    ((10, 12, 8, 110, 128, 1), 8, (0, 1), "fdffffff" + "00" * 8 + "f0ffffff"),
    ((32, 2, 127, 40, 192, 1), 136, (15, 2), "ff" * 16),
    ((24, 5, 60, 110, 192, 1), 8, (0, 1), None),
    ((32, 4, 127, 100, 256, 1), 136, (16, 1), "ffffffff" + "00" * 8 + "ffffff7f"),
    ((31, 5, 100, 170, 256, 1), 24, (1, 2), None),
    # FAEST-192f and FAEST-256f, FAEST-EM-128s, -128f, -192f and -256f, with the row
    # lengths of document 000
    ((24, 7, 8, 163, 192, 0), 3088, (13, 37), None),
    ((32, 7, 8, 246, 256, 0), 3888, (470, 16), None),
    ((11, 11, 7, 103, 128, 1), 1360, (5, 20), None),
    ((16, 7, 8, 112, 128, 1), 1360, (160, 10), None),
    ((24, 7, 8, 176, 192, 1), 2320, (13, 37), None),
    ((32, 7, 8, 234, 256, 1), 3472, (418, 16), None),
]

# FAEST-192s and -256s, FAEST-EM-192s and -256s: commit and the round trip alone.
LARGE = [
    ((16, 11, 12, 162, 192, 0), 3088),
    ((22, 11, 6, 245, 256, 0), 3888),
    ((16, 11, 8, 162, 192, 1), 2320),
    ((22, 11, 6, 218, 256, 1), 3472),
]

# Numbers with levels and kinds that there are not, and such that do not fit a level.
REFUSED = [
    *[(2, 2, 124, 4, level, 0) for level in (0, 16, 127, 129, 160, 191, 255, 384)],
    *[(0, 0, 0, 0, level, 0) for level in (0, 16, 127, 160, 192, 256, 384)],
    *[(0, 0, 0, 1, level, 0) for level in (128, 192, 256)],
    *[(11, 11, 7, 102, level, 0) for level in (192, 256)],
    *[(24, 7, 8, 163, level, 0) for level in (128, 256)],
    *[(32, 7, 8, 246, level, 0) for level in (128, 192)],
    (16, 12, 0, 512, 191, 0),
    (16, 11, 0, 512, 192, 0),
    (15, 12, 11, 162, 192, 0),
    (32, 2, 128, 40, 192, 0),
    (33, 5, 27, 162, 192, 0),
    (32, 4, 127, 0, 256, 0),
    (32, 4, 127, 513, 256, 0),
    (21, 12, 3, 245, 256, 0),
    (19, 13, 9, 245, 256, 0),
    *[(0, 0, 0, 0, level, 1) for level in (0, 128, 192, 256)],
    *[(0, 0, 0, 0, 128, kind) for kind in (2, 255)],
    *[(2, 2, 124, 4, 128, kind) for kind in (2, 3, 255, 256, 2**64 - 1)],
    *[(32, 7, 8, 234, 256, kind) for kind in (2, 3)],
    # depths and w add up to the level, which is none
    (2, 8, 0, 16, 16, 0),
    (2, 12, 0, 24, 24, 0),
    (1, 3, 124, 3, 127, 0),
    (1, 5, 124, 5, 129, 0),
    (4, 9, 124, 36, 160, 0),
    (4, 9, 124, 36, 160, 1),
    (32, 7, 0, 512, 224, 0),
    (32, 12, 0, 512, 384, 0),
    (2, 2, 124, 4, 160, 1),
    (2, 2, 122, 4, 128, 1),
    (24, 7, 8, 176, 256, 1),
]


# Version 1: (tau, k, level), row length in bits, IV (None: any). The IVs are ones, or
# wrap at 32, 64 or 128 bits: with the first block, within a node and within a row.
CASES_1 = [
    ((32, 4, 128), 8, "ff" * 16),
    ((32, 4, 128), 136, "00112233445566778899aabbffffffff"),
    ((32, 4, 128), 120, "0123456789abcdefffffffffffffffff"),
    ((32, 4, 128), 1680, "00" * 16),
    ((32, 4, 128), 65536, "ff" * 15 + "00"),
    ((32, 4, 128), 264, "ff" * 4 + "fe" + "ff" * 11),
    # the first 4, 8 and 24 vectors deeper
    ((31, 4, 128), 24, "ff" * 15 + "fe"),
    ((15, 8, 128), 8, None),
    ((26, 4, 128), 128, None),
    ((32, 6, 192), 136, "ff" * 15 + "fe"),
    ((31, 6, 192), 8, "0011223344556677ffffffffffffffff"),
    ((29, 6, 192), 72, None),
    ((32, 8, 256), 8, "ff" * 16),
    ((29, 8, 256), 136, "00112233445566778899aabbfffffffe"),
    # 128s, 128f, 192f and 256f of version 1
    ((11, 11, 128), 1680, None),
    ((16, 8, 128), 1680, None),
    ((24, 8, 192), 264, None),
    ((32, 8, 256), 264, None),
]

# 192s and 256s of version 1: commit and one round trip.
LARGE_1 = [((16, 12, 192), 72), ((22, 11, 256), 72)]

# Numbers that version 1 refuses: of version 2 with other w, T or kind, four zeros,
# levels that there are not, and such that do not fit the level.
REFUSED_1 = [
    *[(0, 0, 0, 0, level, kind) for level in (128, 192) for kind in (0, 1)],
    *[(0, 0, 0, 1, level, 0) for level in (0, 128, 256)],
    *[(32, 4, 0, t, 128, 0) for t in (0, 2, 110, 512, 2**64 - 1)],
    *[(32, 4, 0, 1, 128, kind) for kind in (1, 2, 256, 2**64 - 1)],
    *[(32, 4, 0, 1, level, 0) for level in (0, 16, 127, 129, 160, 192, 256)],
    *[(tau, 12, 0, 1, 12 * tau, 0) for tau in (10, 11, 12, 32)],
    (32, 4, 127, 1, 128, 0),
    (32, 3, 1, 1, 128, 0),
    (32, 3, 32, 1, 128, 0),
    (16, 7, 8, 110, 128, 0),
    (16, 7, 8, 1, 128, 0),
    (11, 11, 7, 102, 128, 0),
    (11, 11, 7, 1, 128, 0),
    (11, 10, 0, 1, 128, 0),
    (10, 12, 0, 1, 128, 0),
    (15, 12, 0, 1, 192, 0),
    (21, 12, 0, 1, 256, 0),
    (33, 3, 0, 1, 128, 0),
    (32, 5, 0, 1, 128, 0),
    (128, 1, 0, 1, 128, 0),
    (24, 7, 8, 163, 192, 0),
    (32, 7, 8, 246, 256, 0),
]


def root_and_iv(label, shape, iv=None):
    root = shake(f"root {label}".encode(), shape.width)
    return root, bytes.fromhex(iv) if iv else shake(f"iv {label}".encode(), 16)


def label_of(numbers):
    """Without kind 0, and then without level 128, as before there were others."""
    if numbers[5] == 0:
        numbers = numbers[:4] if numbers[4] == 128 else numbers[:5]
    return " ".join(map(str, numbers))


def version_1(numbers, row_bits, iv):
    """Commit, and for two challenges open, reconstruct and the round trip; the last
    reconstruct has a byte of the opening flipped."""
    tau, k, level = numbers
    shape, label = Shape(tau, k, 0, 1, level, 0), f"version 1 {tau} {k} {level} {row_bits}"
    assert is_shape_1(tau, k, 0, 1, level, 0)
    root, iv = root_and_iv(label, shape, iv)
    signer = Signer1(shape, row_bits, root, iv)
    long = [tau, k, 0, 1, level, 0, row_bits, root.hex(), iv.hex()]
    show("v1_commit", long, 0, signer.commit())
    for n in range(2):
        challenge = shake(f"challenge {label} {n}".encode(), shape.width)
        arguments = [*long, challenge.hex()]
        opening = signer.open(challenge)
        show("v1_open", arguments, 0, [("opening", opening)])
        rest = shape, row_bits, iv, challenge, signer.corrections()
        made = Verifier1(*rest, opening).reconstruct()
        show("v1_reconstruct", arguments, 0, made)
        assert dict(made)["commitment"] == dict(signer.commit())["commitment"]
        round_trip_1(shape, arguments)
    flip = int.from_bytes(shake(f"flip {label}".encode(), 4), "little") % len(opening)
    changed = opening[:flip] + bytes([opening[flip] ^ 1]) + opening[flip + 1 :]
    made = Verifier1(*rest, changed).reconstruct()
    show("v1_reconstruct", [*arguments, flip], 0, made)


def round_trip_1(shape, arguments):
    show("v1_roundtrip", arguments, 0, [])
    print("commitments agree")
    print(f"columns {shape.level} of {shape.level}")


def large_1(numbers, row_bits):
    tau, k, level = numbers
    shape, label = Shape(tau, k, 0, 1, level, 0), f"version 1 {tau} {k} {level} {row_bits}"
    root, iv = root_and_iv(label, shape)
    challenge = shake(f"challenge {label} 0".encode(), shape.width)
    long = [tau, k, 0, 1, level, 0, row_bits, root.hex(), iv.hex()]
    show("v1_commit", long, 0, Signer1(shape, row_bits, root, iv).commit())
    round_trip_1(shape, [*long, challenge.hex()])


def refused_1(numbers):
    assert not is_shape_1(*numbers)
    node = bytes(numbers[4] // 8 if numbers[4] in (192, 256) else 16).hex()
    iv = bytes(16).hex()
    refused("v1_commit", [*numbers, 8, node, iv], 1)
    for command in ("v1_open", "v1_reconstruct", "v1_roundtrip"):
        refused(command, [*numbers, 8, node, iv, node], 1)


def main():
    print("# Derived by tests/derive.py with hashlib and the package cryptography.")
    for numbers, row_bits, stretch, iv, *labels in CASES:
        assert is_shape(*numbers)
        shape = Shape(*numbers)
        label = labels[0] if labels else label_of(numbers)
        root, iv = root_and_iv(label, shape, iv)
        challenge = challenge_for(shape, f"challenge {label}")
        revealed = shape.revealed(challenge)
        signer = Signer(shape, row_bits, root, iv)
        short = [*numbers, challenge.hex()]
        long = [*numbers, row_bits, root.hex(), iv.hex()]
        part = [*numbers, row_bits, *stretch, root.hex(), iv.hex()]
        show("decode", short, 0, [("indices", shape.indices(challenge))])
        show("plan", short, len(revealed), [("nodes", revealed)])
        show("commit", long, 0, signer.commit())
        long.append(challenge.hex())
        show("open", long, len(revealed), signer.open(challenge))
        show("reconstruct", long, len(revealed), signer.reconstruct(challenge))
        committed = dict(signer.commit())
        fields = [iv, challenge, committed["corrections"]]
        fields += [value for _, value in signer.open(challenge)] + [signer.commitment]
        work = signer.reconstruct(challenge)[1:]
        version = 3 if shape.even_mansour else 2
        lines = [("record", record(version, numbers, row_bits, fields))] + work
        show("record", long, len(revealed), lines)
        if shape.level == 128 and not shape.even_mansour:
            lines = [("record", record(1, numbers, row_bits, fields))] + work
            show("record_version_1", long, len(revealed), lines)
        else:
            round_trip(shape, long, challenge)
        signer.take(*stretch)
        show("commit_stretch", part, 0, signer.commit())
        part.append(challenge.hex())
        show("reconstruct_stretch", part, len(revealed), signer.reconstruct(challenge))
    for numbers, row_bits in LARGE:
        shape, label = Shape(*numbers), label_of(numbers)
        root, iv = root_and_iv(label, shape)
        challenge = challenge_for(shape, f"challenge {label}")
        long = [*numbers, row_bits, root.hex(), iv.hex()]
        show("commit", long, 0, Signer(shape, row_bits, root, iv).commit())
        round_trip(shape, [*long, challenge.hex()], challenge)
    for numbers in REFUSED:
        assert not is_shape(*numbers)
        node = bytes(numbers[4] // 8 if numbers[4] in (192, 256) else 16).hex()
        iv = bytes(16).hex()
        for command in ("decode", "plan"):
            refused(command, [*numbers, node], 1)
        refused("commit", [*numbers, 8, node, iv], 1)
        for command in ("open", "reconstruct", "roundtrip", "record"):
            refused(command, [*numbers, 8, node, iv, node], 1)
        refused("commit_stretch", [*numbers, 8, 0, 1, node, iv], 1)
    for case in CASES_1:
        version_1(*case)
    for case in LARGE_1:
        large_1(*case)
    for numbers in REFUSED_1:
        refused_1(numbers)


main()
