"""The checking calls of Rachnoel's shared libraries: plan, reconstruct, check_record and check_named.

    import rachnoel
    try:
        nodes = rachnoel.check_named(open('policy.rec', 'rb').read())
    except rachnoel.Refused as e:
        print(e.number, e)

A refusal is an exception of one class, Refused, with its number. The libraries are those that the system's linker finds; where the environment has
RACHNOEL_LIBDIR, those of that folder. What a call means is said in docs/API.md. Nothing but Python's own modules is needed.
"""
import ctypes
import os
from collections import namedtuple

VERSION = '0.1.0'

REFUSALS = {
    1: 'shape: the numbers are not allowed together',
    2: 'row length: not a multiple of 8 from 8 to 65,536',
    3: 'buffer: a lent buffer has another length',
    4: 'grinding: a grinding bit of the challenge is 1',
    5: 'nodes: the challenge needs more nodes than T',
    6: 'slots: an unused slot of the opening holds a byte other than 0',
    8: 'stretch: it has no bytes, or ends behind the row',
    9: 'version: the first byte of the record is missing or unknown',
    10: 'field: a field of the record has another length, or bytes are missing or left over',
    11: "commitment: the reconstructed one is not the record's",
    13: "not named: shape and row length are no named set's",
}


class Refused(Exception):
    """A call that answered another number than 0. `number` is that number, and `count` the node count where the call gives it, else None."""

    def __init__(self, number, count=None):
        super().__init__(f'refused {number} {REFUSALS.get(number, "unknown")}')
        self.number, self.count = number, count


# ---- shapes

Shape = namedtuple('Shape', 'tau k w t level kind')
Set = namedtuple('Set', 'name shape row_bits')
Lengths = namedtuple('Lengths', 'leaves node commitment indices nodes tree leaf_commitments u matrix corrections opening')

FAEST_128S = Set('FAEST-128s', Shape(11, 11, 7, 102, 128, 0), 1680)
FAEST_128F = Set('FAEST-128f', Shape(16, 7, 8, 110, 128, 0), 1680)
FAEST_192S = Set('FAEST-192s', Shape(16, 11, 12, 162, 192, 0), 3088)
FAEST_192F = Set('FAEST-192f', Shape(24, 7, 8, 163, 192, 0), 3088)
FAEST_256S = Set('FAEST-256s', Shape(22, 11, 6, 245, 256, 0), 3888)
FAEST_256F = Set('FAEST-256f', Shape(32, 7, 8, 246, 256, 0), 3888)
FAEST_EM_128S = Set('FAEST-EM-128s', Shape(11, 11, 7, 103, 128, 1), 1360)
FAEST_EM_128F = Set('FAEST-EM-128f', Shape(16, 7, 8, 112, 128, 1), 1360)
FAEST_EM_192S = Set('FAEST-EM-192s', Shape(16, 11, 8, 162, 192, 1), 2320)
FAEST_EM_192F = Set('FAEST-EM-192f', Shape(24, 7, 8, 176, 192, 1), 2320)
FAEST_EM_256S = Set('FAEST-EM-256s', Shape(22, 11, 6, 218, 256, 1), 3472)
FAEST_EM_256F = Set('FAEST-EM-256f', Shape(32, 7, 8, 234, 256, 1), 3472)
DEFAULT = Set('default', Shape(0, 0, 0, 0, 128, 0), 1680)
SETS = [FAEST_128S, FAEST_128F, FAEST_192S, FAEST_192F, FAEST_256S, FAEST_256F, FAEST_EM_128S, FAEST_EM_128F, FAEST_EM_192S, FAEST_EM_192F, FAEST_EM_256S,
        FAEST_EM_256F]


def lengths(shape, row_bytes):
    """The lengths of a shape's buffers in bytes, with rows of so many bytes; all 0 where it is no shape, or a row has more than 8,192 bytes."""
    tau, k, w, t, level, kind = FAEST_128F.shape if tuple(shape) == DEFAULT.shape else shape
    deeper = level - w - tau * k
    if not (1 <= tau <= 32 and 1 <= k <= 12 and 0 <= w <= 127 and 1 <= t <= 512 and level in (128, 192, 256) and kind in (0, 1)
            and 0 <= deeper < tau and (deeper == 0 or k <= 11) and 0 <= row_bytes <= 8192):
        return Lengths(*[0] * 11)
    leaves, node = (tau + deeper) << k, level // 8
    leaf = (3 - kind) * node
    return Lengths(leaves, node, 2 * node, 4 * tau, 4 * t, node * (2 * leaves - 1), leaf * leaves, row_bytes, level * row_bytes, (tau - 1) * row_bytes,
                   leaf * tau + node * t)


# ---- the libraries

_loaded = {}


def _library(half):
    if half not in _loaded:
        name = f'librachnoel_{half}.so.{VERSION.split(".")[0]}'
        folder = os.environ.get('RACHNOEL_LIBDIR')
        try:
            _loaded[half] = ctypes.CDLL(os.path.join(folder, name) if folder else name)
        except OSError as e:
            raise ImportError(f'{name} is not found: make -C hosts install-{half}, and set RACHNOEL_LIBDIR to its lib folder ({e})') from None
    return _loaded[half]


def _read(x):
    """The bytes of what is lent for reading; TypeError where it has none, as a number."""
    return memoryview(x).tobytes()


def call(half, name, *arguments):
    """A flat call: numbers, and for a slice bytes, a bytearray, or a pair of an address and a length. Its number."""
    flat, kept = [], []
    for x in arguments:
        if isinstance(x, int):
            flat.append(ctypes.c_size_t(x))
            continue
        if isinstance(x, tuple):
            address, length = x
        else:
            written = isinstance(x, bytearray) and len(x) > 0
            x = x if written else _read(x)
            buffer = ctypes.c_char * max(len(x), 1)
            buffer = buffer.from_buffer(x) if written else buffer.from_buffer_copy(x or b'\0')
            kept.append(buffer)
            address, length = ctypes.addressof(buffer), len(x)
        flat += [ctypes.c_void_p(address), ctypes.c_size_t(length)]
    function = getattr(_library(half), name)
    function.restype = ctypes.c_size_t
    return function(*flat)


def _answer(number, count):
    """The count of a call that answered 0; else the refusal."""
    known = int.from_bytes(count, 'little')
    if number:
        raise Refused(number, known if number in (5, 6, 11) else None)
    return known


def _numbers(shape):
    numbers = [int(x) for x in shape]
    if len(numbers) != 6:
        raise ValueError(f'a shape has six numbers, not {len(numbers)}')
    if any(not 0 <= x < 2**64 for x in numbers):
        raise Refused(1)
    return numbers


def _row(row_bits):
    return row_bits if 0 <= row_bits < 2**64 else 0


# ---- the calls

def plan(shape, challenge):
    """The nodes that an opening reveals, in revealing order. Refusals 1, 3, 4, 5."""
    numbers, challenge = _numbers(shape), _read(challenge)
    nodes, count = bytearray(lengths(shape, 0).nodes), bytearray(4)
    n = _answer(call('planning', 'rachnoel_plan', *numbers, challenge, nodes, count), count)
    return [int.from_bytes(nodes[4 * i:4 * i + 4], 'little') for i in range(n)]


Reconstructed = namedtuple('Reconstructed', 'commitment tree leaf_commitments q count')


def reconstruct(shape, row_bits, iv, challenge, corrections, opening):
    """Commitment, tree, leaf commitments, Q and node count from an opening. The caller compares the commitment with the one that it was given. Refusals 1 to 6."""
    numbers, inputs = _numbers(shape), map(_read, (iv, challenge, corrections, opening))
    n = lengths(shape, _row(row_bits) // 8)
    outputs = [bytearray(length) for length in (n.commitment, n.tree, n.leaf_commitments, n.matrix)]
    count = bytearray(4)
    number = call('verifier', 'rachnoel_reconstruct', *numbers, _row(row_bits), *inputs, *outputs, count)
    return Reconstructed(*map(bytes, outputs), _answer(number, count))


def _check(name, record):
    record, work = _read(record), bytearray(12)
    if call('broker', 'rachnoel_work_lengths', record, work):
        work = bytearray(12)
    outputs = [bytearray(int.from_bytes(work[4 * i:4 * i + 4], 'little')) for i in range(3)]
    count = bytearray(4)
    return _answer(call('broker', name, record, *outputs, count), count)


def check_record(record):
    """The node count of a record of any shape that is accepted. Refusals 9, 10, 1, 2, 10, 4, 5, 6, 11."""
    return _check('rachnoel_check_record', record)


def check_named(record):
    """The same for the twelve sets alone, each with its row length. Refusals 9, 10, 1, 2, 13, 10, 4, 5, 6, 11."""
    return _check('rachnoel_check_named', record)
