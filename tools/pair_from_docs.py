"""Pair records and single parts, written from docs/FORMATS.md and docs/REFUSALS.md alone.

Whoever wrote this had read those two pages and nothing else: no code of this repository, and not reference.py. It is kept small and
apart for that reason, as a test of the pages; reference.py is the model of the whole product.
"""

SETS = {1: (5, 6), 2: (7, 7), 3: (701, 13)}  # set: n, w


def _half(x):
    b = [(x >> k) & 1 for k in range(4)]
    v = (b[0] + b[1] - b[2] - b[3]) % 3
    return -1 if v == 2 else v


def _ternary_size(digits):
    return (digits + 4) // 5


def write_ternary(coefficients):
    out = bytearray(_ternary_size(len(coefficients)))
    for i, c in enumerate(coefficients):
        out[i // 5] += (c % 3) * 3 ** (i % 5)
    return bytes(out)


def read_ternary(part, digits):
    if len(part) != _ternary_size(digits):
        return ('refused', 6)
    if any(b > 0xF2 for b in part):
        return ('refused', 8)
    out = []
    for i in range(digits):
        d = part[i // 5] // 3 ** (i % 5) % 3
        out.append(-1 if d == 2 else d)
    return out


def _word_size(count, w):
    return (count * w + 7) // 8


def _word_ok(count, w):
    return 1 <= count <= 1407 and 1 <= w <= 16


def write_word_part(coefficients, w):
    if not _word_ok(len(coefficients), w):
        return ('refused', 6)
    out = bytearray(_word_size(len(coefficients), w))
    for i, c in enumerate(coefficients):
        for j in range(w):
            b = i * w + j
            out[b // 8] |= ((c >> j) & 1) << (b % 8)
    return bytes(out)


def read_word_part(part, count, w):
    if not _word_ok(count, w) or len(part) != _word_size(count, w):
        return ('refused', 6)
    out = []
    for i in range(count):
        c = 0
        for j in range(w):
            b = i * w + j
            c |= ((part[b // 8] >> (b % 8)) & 1) << j
        out.append(c)
    return out


def pair(set_number, coins, out_length):
    if set_number not in SETS:
        return ('refused', 3)
    n, _ = SETS[set_number]
    if len(coins) != n - 1:
        return ('refused', 6)
    if out_length != 2 * _ternary_size(n - 1):
        return ('refused', 7)
    halves = []
    for byte in coins:
        halves += [_half(byte & 15), _half(byte >> 4)]
    return ('ok', write_ternary(halves[:n - 1]) + write_ternary(halves[n - 1:]))
