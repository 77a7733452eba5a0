#!/usr/bin/env python3
"""A reference model of the key card scheme, in plain Python.

It follows docs/FORMATS.md, docs/REFUSALS.md and docs/SCHEME.md and shares no code with the
libraries, so that the two can be held against each other. It is for tests, not for keys: it
makes no effort to be fast or to leave no trace of a secret, and it does not clear coin files.

    python3 tools/reference.py pair SET COINS OUT          the pair record of the coins
    python3 tools/reference.py make SET COINS OUT          the card made of the coins
    python3 tools/reference.py seal SET CARD COINS OUT     the sealed record of the coins
    python3 tools/reference.py open SET CARD SEALED OUT    the pair record of a sealed record
    python3 tools/reference.py key SET CARD                whether the card is a key
    python3 tools/reference.py selftest                    the examples of the docs, and round trips
    python3 tools/reference.py vectors                     writes the cases of crates/vectors and what they give

All but SET are names of files. A refusal prints `refused NUMBER`, writes no file and ends with
status 1.

A polynomial is a list of its n coefficients, the lowest first.
"""

import itertools
import random
import re
import sys
from collections import Counter, namedtuple
from pathlib import Path

Set = namedtuple("Set", "n w ternary word card pair coins")


def parameter_set(n, w):
    """The set with n coefficients and words of w bits; the sizes follow."""
    ternary = -(-(n - 1) // 5)
    word = -(-(n - 1) * w // 8)
    return Set(n, w, ternary, word, 2 * ternary + 2 * word, 2 * ternary, n - 1)


SETS = {1: parameter_set(5, 6), 2: parameter_set(7, 7), 3: parameter_set(701, 13)}

# What a half byte of the coins stands for.
HALVES = (0, 1, 1, -1, -1, 0, 0, 1, -1, 0, 0, 1, 1, -1, -1, 0)

HIGHEST_TERNARY_BYTE = 0xF2
LONGEST_ROW = 1408


class Refused(Exception):
    """A refusal: its number, and how many products were made before it."""

    def __init__(self, number, products=0):
        super().__init__(f"refused {number}")
        self.number = number
        self.products = products


# Numbers and polynomials


def centred(x, k):
    """The number that is x modulo k, from -(k // 2) on: -1, 0, 1 for 3 and -q/2 .. q/2 - 1 for q."""
    return (x + k // 2) % k - k // 2


def product(u, v, k):
    """The cyclic product modulo k, with coefficients 0 .. k - 1.

    Both polynomials are written into one long number each, with enough room for every sum, so
    that one multiplication of long numbers does the work.
    """
    n = len(u)
    room = ((n * (k - 1) ** 2).bit_length() + 7) // 8

    def joined(p):
        return int.from_bytes(b"".join((x % k).to_bytes(room, "little") for x in p), "little")

    raw = (joined(u) * joined(v)).to_bytes(2 * n * room, "little")
    sums = [int.from_bytes(raw[i : i + room], "little") for i in range(0, 2 * n * room, room)]
    return [(sums[i] + sums[i + n]) % k for i in range(n)]


def times_phi1(v):
    """The cyclic product with x - 1, over whole numbers."""
    return [v[i - 1] - v[i] for i in range(len(v))]


def reduced(v, k):
    """v reduced modulo (k, Phin), with coefficients 0 .. k - 1."""
    return [(x - v[-1]) % k for x in v]


def is_one(v, k):
    """Whether v reduces to 1 modulo (k, Phin)."""
    return reduced(v, k) == [1] + [0] * (len(v) - 1)


def correlation(v):
    """The sum of the products of neighbours among coefficients 0 .. n - 2."""
    return sum(v[i] * v[i + 1] for i in range(len(v) - 2))


def in_ternary(v):
    """Whether v is in T."""
    return v[-1] == 0 and all(x in (-1, 0, 1) for x in v)


# Coins


def draw(coins):
    """The two polynomials of a set's coins."""
    values = []
    for byte in coins:
        values += [HALVES[byte % 16], HALVES[byte // 16]]
    half = len(values) // 2
    return values[:half] + [0], values[half:] + [0]


def flipped(v):
    """v, with the signs of the even-numbered coefficients changed if its correlation is negative."""
    if correlation(v) >= 0:
        return v
    return [-x if i % 2 == 0 else x for i, x in enumerate(v)]


# Parts


def write_ternary(v):
    """The ternary part of v."""
    digits = [x % 3 for x in v[:-1]]
    part = []
    for i in range(0, len(digits), 5):
        part.append(sum(d * 3**j for j, d in enumerate(digits[i : i + 5])))
    return bytes(part)


def holds_ternary(part):
    """Whether no byte of the part is above F2."""
    return all(byte <= HIGHEST_TERNARY_BYTE for byte in part)


def read_ternary(part, n):
    """The polynomial of a ternary part, none of whose bytes is above F2."""
    digits = [byte // 3**j % 3 for byte in part for j in range(5)]
    return [centred(d, 3) for d in digits[: n - 1]] + [0]


def write_words(v, w):
    """The word part of v, whose coefficients are taken modulo 2^w."""
    number = sum(x % 2**w << i * w for i, x in enumerate(v[:-1]))
    return number.to_bytes(-(-(len(v) - 1) * w // 8), "little")


def read_words(part, n, w):
    """Coefficients 0 .. n - 2 of a word part, and 0 after them."""
    number = int.from_bytes(part, "little")
    return [(number >> i * w) % 2**w for i in range(n - 1)] + [0]


def read_with_sum_zero(part, n, w):
    """The polynomial of the word part of h or of a sealed record: the last is minus the sum of the others."""
    v = read_words(part, n, w)
    v[-1] = -sum(v) % 2**w
    return v


def card_parts(p, card):
    """The four parts f, fp, h, hq of a card, as bytes."""
    ends = list(itertools.accumulate([p.ternary, p.ternary, p.word, p.word]))
    return [card[end - size : end] for end, size in zip(ends, [p.ternary, p.ternary, p.word, p.word])]


# Inverses


def trimmed(a):
    """a without zeros at its upper end."""
    while a and a[-1] == 0:
        a.pop()
    return a


def divided(a, b, p):
    """Quotient and remainder of a by b over the field of p elements, b not zero and trimmed."""
    a = a[:]
    size = len(b)
    lead = pow(b[-1], -1, p)
    quotient = [0] * max(len(a) - size + 1, 0)
    for at in range(len(a) - size, -1, -1):
        c = a[at + size - 1] * lead % p
        quotient[at] = c
        if c:
            a[at : at + size] = [(x - c * y) % p for x, y in zip(a[at : at + size], b)]
    return quotient, trimmed(a)


def less_product(t, quotient, v, p):
    """t - quotient * v over the field of p elements, trimmed."""
    out = t + [0] * (len(quotient) + len(v) - len(t))
    for i, c in enumerate(quotient):
        if c:
            out[i : i + len(v)] = [(x - c * y) % p for x, y in zip(out[i : i + len(v)], v)]
    return trimmed(out)


def inverse_mod_prime(a, p):
    """The inverse of a modulo (p, Phin) for a prime p, reduced; None where there is none. Euclid's method."""
    n = len(a)
    r, s = [1] * n, trimmed(reduced(a, p))
    t, v = [], [1]
    while s:
        quotient, rest = divided(r, s, p)
        r, s = s, rest
        t, v = v, less_product(t, quotient, v, p)
    if len(r) != 1:
        return None
    c = pow(r[0], -1, p)
    return [c * x % p for x in t] + [0] * (n - len(t))


def inverse_mod_power(a, w):
    """The inverse of a modulo (2^w, Phin), reduced; None where there is none.

    It starts from the inverse modulo 2. If b is an inverse modulo k, b * (2 - a * b) is one modulo k^2.
    """
    b = inverse_mod_prime(a, 2)
    if b is None:
        return None
    k = 2
    while k < 2**w:
        k = k * k
        twice_less = [-x for x in product(a, b, k)]
        twice_less[0] += 2
        b = reduced(product(b, twice_less, k), k)
    return [x % 2**w for x in b]


# Row units and the product by rows


def row(factor, words, out):
    """One row, word by word: the new output words."""
    if not 1 <= len(words) <= LONGEST_ROW or len(out) != len(words):
        raise Refused(15)
    return [(x + factor * y) % 65536 for x, y in zip(out, words)]


def halved_row(factor, words, out):
    """One row through the halving layer over word by word."""
    if not 1 <= len(words) <= LONGEST_ROW or len(out) != len(words):
        raise Refused(15)
    if len(words) == 1:
        return row(factor, words, out)
    h = (len(words) + 1) // 2
    return row(factor, words[:h], out[:h]) + row(factor, words[h:], out[h:])


def product_by_rows(u, v, row_call=row):
    """The words that the n rows of a product write, for words u and v."""
    n = len(u)
    twice = v + v
    out = [0] * n
    for j in range(n):
        out = row_call(u[j], twice[n - j : 2 * n - j], out)
    return out


# The scheme


def lift(m):
    """Lift(m), over whole numbers."""
    n = len(m)
    t = centred(-sum(m) * pow(n, -1, 3), 3)
    total, s = 0, []
    for x in m:
        total += x + t
        s.append(centred(-total, 3))
    return times_phi1(s)


def encrypt(r, m, h, q):
    """The polynomial to which the pair r, m encrypts under h."""
    return [(x + y) % q for x, y in zip(product(r, h, q), lift(m))]


def candidate(h, f, q):
    """The only polynomial g, centred and with last coefficient 0, that can have h * f = 3 Phi1 * g modulo q."""
    third = pow(3, -1, q)
    total, g = 0, []
    for d in product(h, f, q):
        total += d
        g.append(centred(-total * third, q))
    return g


def find_set(number):
    """The set of that number, or refusal 3."""
    if number not in SETS:
        raise Refused(3)
    return SETS[number]


def check(number, *lengths):
    """Refuses with the number unless both lengths of every pair of lengths are equal."""
    if any(given != wanted for given, wanted in lengths):
        raise Refused(number)


def pair(number, coins, out_length=None):
    """The pair record of coins. An output length, where given, is tested."""
    p = find_set(number)
    check(6, (len(coins), p.coins))
    check(7, (p.pair if out_length is None else out_length, p.pair))
    r, m = draw(coins)
    return write_ternary(r) + write_ternary(m)


def make(number, coins, out_length=None):
    """The card of coins."""
    p = find_set(number)
    check(6, (len(coins), p.coins))
    check(7, (p.card if out_length is None else out_length, p.card))
    q = 2**p.w
    f, g = (flipped(v) for v in draw(coins))
    fq = inverse_mod_power(f, p.w)
    fp = inverse_mod_prime(f, 3)
    if fq is None or fp is None:
        raise Refused(13)
    h = product(times_phi1([3 * x for x in g]), fq, q)
    hq = inverse_mod_power(h, p.w)
    if hq is None:
        raise Refused(13)
    return write_ternary(f) + write_ternary(fp) + write_words(h, p.w) + write_words(hq, p.w)


def seal(number, card, coins, out_length=None):
    """The sealed record of coins under the public key of a card."""
    p = find_set(number)
    check(6, (len(card), p.card), (len(coins), p.coins))
    check(7, (p.word if out_length is None else out_length, p.word))
    h = read_with_sum_zero(card_parts(p, card)[2], p.n, p.w)
    r, m = draw(coins)
    return write_words(encrypt(r, m, h, 2**p.w), p.w)


def open_(number, card, sealed, out_length=None):
    """The pair record of a sealed record under a card."""
    p = find_set(number)
    check(6, (len(card), p.card), (len(sealed), p.word))
    check(7, (p.pair if out_length is None else out_length, p.pair))
    f_part, fp_part, _, hq_part = card_parts(p, card)
    if not holds_ternary(f_part + fp_part):
        raise Refused(8)
    q = 2**p.w
    c = read_with_sum_zero(sealed, p.n, p.w)
    a = [centred(x, q) for x in product(c, read_ternary(f_part, p.n), q)]
    m = [centred(x, 3) for x in reduced(product(a, read_ternary(fp_part, p.n), 3), 3)]
    b = [x - y for x, y in zip(c, lift(m))]
    r = [centred(x, q) for x in reduced(product(b, read_words(hq_part, p.n, p.w), q), q)]
    if not in_ternary(r):
        raise Refused(14, 3)
    return write_ternary(r) + write_ternary(m)


def key_test(number, card):
    """Passes when the card is a key, and refuses otherwise."""
    p = find_set(number)
    check(6, (len(card), p.card))
    f_part, fp_part, h_part, hq_part = card_parts(p, card)
    if not holds_ternary(f_part + fp_part):
        raise Refused(8)
    q = 2**p.w
    f = read_ternary(f_part, p.n)
    if correlation(f) < 0:
        raise Refused(9)
    if not is_one(product(f, read_ternary(fp_part, p.n), 3), 3):
        raise Refused(10, 1)
    h = read_with_sum_zero(h_part, p.n, p.w)
    g = candidate(h, f, q)
    if not in_ternary(g) or correlation(g) < 0:
        raise Refused(11, 2)
    if not is_one(product(h, read_words(hq_part, p.n, p.w), q), q):
        raise Refused(12, 3)


# Cases for the program `vectors`


ROOT = Path(__file__).resolve().parent.parent

# How many turns of random cases a set gets: those of set 3 are long.
TURNS = {1: 8, 2: 8, 3: 2}


def shown(data):
    """Bytes as a case has them."""
    return data.hex().upper() or "-"


def case_line(kind, number, *given, length=None):
    """A case as a line."""
    words = [kind, str(number), *(shown(data) for data in given)]
    return " ".join(words + ([] if length is None else [str(length)]))


def answer_line(kind, number, *given, length=None):
    """What a case gives, as a line: the output and the number of rows, which is left open for make."""
    call = {"make": make, "seal": seal, "open": open_, "test": key_test}[kind]
    lengths = () if kind == "test" else (length,)
    products = {"seal": 1}.get(kind, 3)
    try:
        text = f"ok {shown(call(number, *given, *lengths) or b'')}"
    except Refused as refused:
        text, products = str(refused), refused.products
    rows = products * SETS[number].n if number in SETS else 0
    return text if kind == "make" else f"{text} rows {rows}"


def changed(data, at, value):
    """The data with another byte in one place."""
    return data[:at] + bytes([value]) + data[at + 1 :]


def with_bit(data, bit):
    """The data with one bit flipped."""
    return changed(data, bit // 8, data[bit // 8] ^ 1 << bit % 8)


def good_card(rng, number):
    """A card that random coins make."""
    while True:
        try:
            return make(number, rng.randbytes(SETS[number].coins))
        except Refused:
            pass


def zero_halves(rng, count):
    """Coins that draw nothing but 0."""
    zeros = [half for half, value in enumerate(HALVES) if value == 0]
    return bytes(rng.choice(zeros) + 16 * rng.choice(zeros) for _ in range(count))


def coins_without_card(rng, number):
    """Coins that are refused 13: f is 0, g is 0, and where chance finds them others."""
    size = SETS[number].coins
    yield zero_halves(rng, size // 2) + rng.randbytes(size // 2)
    yield rng.randbytes(size // 2) + zero_halves(rng, size // 2)
    yield bytes(size)
    while number < 3:
        coins = rng.randbytes(size)
        if outcome(make, number, coins) == "refused 13":
            yield coins
            if rng.randrange(6) == 0:
                return


def card_with(rng, number, draw_g):
    """A card that is in order but for its g, which draw_g gives for the drawn one, or None for another try."""
    p = SETS[number]
    while True:
        f, g = (flipped(v) for v in draw(rng.randbytes(p.coins)))
        fq, fp, g = inverse_mod_power(f, p.w), inverse_mod_prime(f, 3), draw_g(g)
        if g is None or fq is None or fp is None:
            continue
        h = product(times_phi1([3 * x for x in g]), fq, 2**p.w)
        hq = inverse_mod_power(h, p.w)
        if hq is not None:
            return write_ternary(f) + write_ternary(fp) + write_words(h, p.w) + write_words(hq, p.w)


def unsettled_card(rng, number):
    """A card whose g has negative correlation."""

    def turned(g):
        g = [-x if i % 2 == 0 else x for i, x in enumerate(g)]
        return g if correlation(g) < 0 else None

    return card_with(rng, number, turned)


def wide_card(rng, number, value):
    """A card whose g has a coefficient that is not ternary."""
    at = rng.randrange(SETS[number].n - 1)
    return card_with(rng, number, lambda g: g[:at] + [value] + g[at + 1 :])


def wide_record(rng, number, card, value):
    """A record of an r with a coefficient that is not ternary."""
    p = SETS[number]
    r, m = draw(rng.randbytes(p.coins))
    r[rng.randrange(p.n - 1)] = value
    h = read_with_sum_zero(card_parts(p, card)[2], p.n, p.w)
    return write_words(encrypt(r, m, h, 2**p.w), p.w)


def edge_record(rng, number, card):
    """A record under which a coefficient is centred at the very edge, at -q/2."""
    p = SETS[number]
    q = 2**p.w
    f = read_ternary(card_parts(p, card)[0], p.n)
    while True:
        record = rng.randbytes(p.word)
        if q // 2 in product(read_with_sum_zero(record, p.n, p.w), f, q):
            return record


def negative_f(rng, p, card):
    """The card with its f replaced by one of negative correlation."""
    while True:
        f = draw(rng.randbytes(p.coins))[0]
        if correlation(f) < 0:
            return write_ternary(f) + card[p.ternary :]


def spare(p, card):
    """The card with its spare digits and bits set, where the set has any."""
    f, fp, h, hq = card_parts(p, card)
    if p.ternary * 5 > p.n - 1:
        places = 3 ** (p.n - 1 - 5 * (p.ternary - 1))
        f, fp = (part[:-1] + bytes([part[-1] + places * ((0xF2 - part[-1]) // places)]) for part in (f, fp))
    unused = 8 * p.word - (p.n - 1) * p.w
    h, hq = (part[:-1] + bytes([part[-1] | 0xFF00 >> unused & 0xFF]) for part in (h, hq))
    return f + fp + h + hq


def damaged_cards(rng, number, card, other):
    """Cards that differ from a key: most of them are no keys, and all have the right length."""
    p = SETS[number]
    f, fp, h, hq = card_parts(p, card)
    for at in sorted({0, p.ternary - 1, p.ternary, 2 * p.ternary - 1}):
        yield changed(card, at, 0xF3)
    yield changed(card, rng.randrange(2 * p.ternary), 0xFF)
    yield negative_f(rng, p, card)
    yield f + bytes(p.ternary) + h + hq
    yield f + card_parts(p, other)[1] + h + hq
    yield f + fp + card_parts(p, other)[2] + hq
    yield f + fp + card_parts(p, other)[2] + card_parts(p, other)[3]
    yield f + fp + bytes(p.word) + hq
    yield f + fp + h + bytes(p.word)
    yield f + fp + h + card_parts(p, other)[3]
    yield unsettled_card(rng, number)
    for start, size in ((0, p.ternary), (p.ternary, p.ternary)):
        at = start + rng.randrange(size)
        yield changed(card, at, (card[at] + rng.choice((1, 3, 9))) % 0xF3)
    for start in (2 * p.ternary, 2 * p.ternary + p.word):
        yield with_bit(card, 8 * start + rng.randrange((p.n - 1) * p.w))


def wrong_lengths(number, size):
    """Lengths that are not the size, of which set 3 tries fewer."""
    return [x for x in (size - 1, size + 1, 0, 2 * size, 1) if x != size][: 2 if number == 3 else 5]


def served_cases(rng, number, card, other):
    """Made, sealed, opened and tested, with records that open and some that do not."""
    p = SETS[number]
    coins = rng.randbytes(p.coins)
    sealed = seal(number, card, coins)
    for _ in range(3):
        yield "make", number, rng.randbytes(p.coins)
    yield "test", number, card
    yield "seal", number, card, coins
    yield "open", number, card, sealed
    yield "open", number, other, sealed
    yield "open", number, card, with_bit(sealed, rng.randrange((p.n - 1) * p.w))
    yield "open", number, card, rng.randbytes(p.word)


def chosen_cases(rng, number, card, other):
    """What is not left to chance."""
    p = SETS[number]
    sealed = seal(number, card, rng.randbytes(p.coins))
    for coins in coins_without_card(rng, number):
        yield "make", number, coins
    yield "test", number, spare(p, card)
    yield "open", number, spare(p, card), sealed[:-1] + bytes([sealed[-1] | 0xFF00 >> 8 * p.word - (p.n - 1) * p.w & 0xFF])
    yield "seal", number, spare(p, card), rng.randbytes(p.coins)
    yield "seal", number, card, bytes(p.coins)
    yield "open", number, card, bytes(p.word)
    yield "open", number, card, bytes([0x14]) + bytes(p.word - 1)
    for value in (2, -2):
        yield "test", number, wide_card(rng, number, value)
        yield "open", number, card, wide_record(rng, number, card, value)
    # With an hq of 0 every record opens to an r of 0, and to an m that shows every step before.
    blind = card[: -p.word] + bytes(p.word)
    for _ in range(6 if number < 3 else 1):
        yield "open", number, blind, edge_record(rng, number, blind)
    yield "open", number, changed(card, p.ternary - 1, 0xF3), sealed
    yield "open", number, changed(card, p.ternary, 0xFF), sealed
    for damaged in damaged_cards(rng, number, card, other):
        yield "test", number, damaged
        if number < 3 or rng.randrange(3) == 0:
            yield "open", number, damaged, sealed
        if number < 3 or rng.randrange(6) == 0:
            yield "seal", number, damaged, rng.randbytes(p.coins)


def length_cases(rng, number, card):
    """Wrong lengths of what is given and of the output, and several faults at once."""
    p = SETS[number]
    sealed, coins = seal(number, card, rng.randbytes(p.coins)), rng.randbytes(p.coins)
    for length in wrong_lengths(number, p.coins):
        yield "make", number, rng.randbytes(length)
        yield "seal", number, card, rng.randbytes(length)
    for length in wrong_lengths(number, p.card):
        yield "test", number, (card + card)[:length]
        yield "open", number, (card + card)[:length], sealed
        if number < 3:
            yield "seal", number, (card + card)[:length], coins
    for length in wrong_lengths(number, p.word):
        yield "open", number, card, (sealed + sealed)[:length]
        yield "seal", number, card, coins, length
    for length in wrong_lengths(number, p.card):
        yield "make", number, coins, length
    for length in wrong_lengths(number, p.pair):
        yield "open", number, card, sealed, length
    yield "make", number, bytes(p.coins), p.card + 1
    yield "make", number, coins[1:], p.card + 1
    yield "seal", number, card[1:], coins, p.word + 1
    yield "seal", number, card, coins[1:], p.word + 1
    yield "open", number, card[1:], sealed, p.pair + 1
    yield "open", number, changed(card, 0, 0xF3), sealed, p.pair + 1
    yield "open", number, changed(card, 0, 0xF3), sealed[1:], p.pair + 1
    yield "test", number, changed(changed(negative_f(rng, p, card), p.ternary, 0xF3), p.card - 1, 0)


def no_set_cases(rng, card):
    """Numbers that name no set, and a card of one set under another."""
    p = SETS[1]
    sealed, coins = seal(1, card, rng.randbytes(p.coins)), rng.randbytes(p.coins)
    for number in (0, 2, 3, 4, 255):
        yield "make", number, coins, p.card
        yield "seal", number, card, coins, p.word
        yield "open", number, card, sealed, p.pair
        yield "test", number, card


def vector_cases():
    """All cases, the same in every run: call, set, what is given, and where it is not the usual the length of the output."""
    rng = random.Random(701)
    for number, turns in TURNS.items():
        for _ in range(turns):
            card, other = good_card(rng, number), good_card(rng, number)
            yield from served_cases(rng, number, card, other)
        yield from chosen_cases(rng, number, card, other)
        yield from length_cases(rng, number, card)
    yield from no_set_cases(rng, good_card(rng, 1))


def vectors():
    """The two texts: the cases, and what they give."""
    cases, answers = [], []
    for kind, number, *given in vector_cases():
        length = given.pop() if isinstance(given[-1], int) else None
        cases.append(case_line(kind, number, *given, length=length))
        answers.append(answer_line(kind, number, *given, length=length))
    return "\n".join(cases) + "\n", "\n".join(answers) + "\n"


def write_vectors():
    """Writes them, and says how often each answer occurs in each set."""
    cases, answers = vectors()
    folder = ROOT / "crates" / "vectors"
    (folder / "stdin").write_text(cases, encoding="ascii")
    (folder / "stdout").write_text(answers, encoding="ascii")
    counts = Counter()
    for case, answer in zip(cases.splitlines(), answers.splitlines()):
        words = answer.split()
        counts[case.split()[1], case.split()[0], "served" if words[0] == "ok" else f"refused {words[1]}"] += 1
    for (number, kind, answer), count in sorted(counts.items(), key=lambda item: (int(item[0][0]), *item[0])):
        print(f"set {number}: {kind} {answer}: {count}")
    print(f"{len(cases.splitlines())} cases, {len(cases) + len(answers)} bytes")


# Selftest


def numbers_of(text):
    """The whole numbers in a text, with either kind of minus sign."""
    return [int(x) for x in re.findall(r"-?\d+", text.replace("\u2212", "-"))]


def outcome(call, *arguments):
    """What a call gives, as the docs write it: bytes, numbers, `a key` or `refused NUMBER`."""
    try:
        result = call(*arguments)
    except Refused as refused:
        return str(refused)
    if result is None:
        return "a key"
    if isinstance(result, bytes):
        return result.hex(" ").upper()
    return ", ".join(str(x) for x in result)


def example(kind, given, card):
    """What the model gives for one row of a table of examples, at set 1 where no other is named."""
    number = int(kind[-1]) if re.search(r"set \d$", kind) else 1
    kind = kind.split(",")[0]
    numbers = numbers_of(given)
    if kind == "coin halves":
        return outcome(lambda: [HALVES[x] for x in numbers])
    if kind == "drawn for making":
        return outcome(lambda: flipped(numbers + [0])[:-1])
    if kind == "Lift":
        return outcome(lambda: lift(numbers + [0]))
    if kind == "ternary part":
        return outcome(lambda: write_ternary(numbers + [0]))
    if kind == "word part":
        return outcome(lambda: write_words(numbers + [0], SETS[number].w))
    if kind == "row":
        factor, words, out = (numbers_of(part) for part in re.split("times|added to", given))
        return outcome(lambda: row(factor[0], words, out))
    data = bytes.fromhex(given)
    if kind == "pair":
        return outcome(pair, number, data)
    if kind == "make":
        return outcome(make, number, data)
    if kind == "seal":
        return outcome(seal, number, card, data)
    if kind == "open":
        return outcome(open_, number, card, data)
    if kind == "key test":
        return outcome(key_test, number, data)
    return f"no example of kind {kind}"


def table_rows(path):
    """The rows (kind, given, result) of the tables in a document that are headed call, given, result."""
    inside = False
    for line in path.read_text(encoding="utf-8").splitlines():
        cells = [cell.strip().strip("`") for cell in line.strip().strip("|").split("|")]
        if not line.startswith("|"):
            inside = False
        elif cells == ["call", "given", "result"]:
            inside = True
        elif inside and not set(line) <= set("|- "):
            yield cells


def selftest():
    """Tries everything; whether all was well."""
    bad = []

    def tell(text, fine):
        print(("ok    " if fine else "WRONG ") + text)
        if not fine:
            bad.append(text)

    for name, least in (("FORMATS.md", 12), ("REFUSALS.md", 9)):
        path = ROOT / "docs" / name
        count = 0
        for kind, given, result in table_rows(path):
            count += 1
            got = example(kind, given, CARD_K)
            wanted = result.replace("\u2212", "-")
            tell(f"{name}: {kind} {given} -> {result}" + ("" if got == wanted else f", but it is {got}"), got == wanted)
        tell(f"{name}: {count} examples", count >= least)

    tell("coin table: all sixteen halves agree with their bits", all(
        HALVES[x] == centred((x & 1) + (x >> 1 & 1) - (x >> 2 & 1) - (x >> 3), 3) for x in range(16)))
    for number, sizes in SIZES.items():
        p = SETS[number]
        facts = 2 <= p.n <= 1408 and p.n % 2 and p.n % 3 and p.w <= 16 and 128 * (p.n - 1) ** 2 < 4**p.w
        tell(f"set {number}: sizes, and the facts about n and q", tuple(p) == sizes and bool(facts))

    tell("products made before refusals 8 to 12 and 14", all(
        products_before(call, *arguments) == (number, products) for number, products, call, *arguments in COUNTED))
    tell("refusals in order: the smaller number is given", all(
        outcome(call, *arguments) == f"refused {number}" for number, call, *arguments in ORDERED))
    set_one_in_full(tell)

    seed = 20
    rng = random.Random(seed)
    for number, turns in ((1, 300), (2, 300), (3, 4)):
        round_trips(tell, rng, number, turns)
    folder = ROOT / "crates" / "vectors"
    tell("crates/vectors: its cases and what they give are the model's", vectors() == (
        (folder / "stdin").read_text(encoding="ascii"), (folder / "stdout").read_text(encoding="ascii")))
    print(f"seed {seed}; {len(bad)} wrong")
    return not bad


def products_before(call, *arguments):
    """The number of a refusal and of the products before it."""
    try:
        call(*arguments)
    except Refused as refused:
        return refused.number, refused.products
    return 0, 3


def all_ternary(n):
    """All of T."""
    return [list(v) + [0] for v in itertools.product((-1, 0, 1), repeat=n - 1)]


def set_one_in_full(tell):
    """Card K with all pairs, and the key test beside the bare definition."""
    p = SETS[1]
    q = 2**p.w
    ternary = all_ternary(p.n)
    h = read_with_sum_zero(card_parts(p, CARD_K)[2], p.n, p.w)
    pair_of = {write_words(encrypt(r, m, h, q), p.w): write_ternary(r) + write_ternary(m) for r in ternary for m in ternary}
    tell("set 1: the 6561 pairs encrypt under K to 6561 records", len(pair_of) == 6561)
    tell("set 1: each opens to its pair", all(open_(1, CARD_K, c) == wanted for c, wanted in pair_of.items()))
    rng = random.Random(5)
    records = [rng.randbytes(3) for _ in range(3000)]
    tell("set 1: 3000 random records, refused 14 exactly where no pair encrypts to them", all(
        outcome(open_, 1, CARD_K, c) == (pair_of[c].hex(" ").upper() if c in pair_of else "refused 14") for c in records))

    def defined_key(card):
        f, fp = (read_ternary(part, p.n) for part in card_parts(p, card)[:2])
        hq = read_words(card_parts(p, card)[3], p.n, p.w)
        h = read_with_sum_zero(card_parts(p, card)[2], p.n, p.w)
        sums = [tuple(3 * x % q for x in times_phi1(g)) for g in ternary if correlation(g) >= 0]
        return (correlation(f) >= 0 and is_one(product(f, fp, 3), 3) and tuple(product(h, f, q)) in sums
                and is_one(product(h, hq, q), q))

    cards, keys = [], 0
    while keys < 100:
        coins = rng.randbytes(4)
        try:
            card = make(1, coins)
        except Refused:
            continue
        keys += 1
        damaged = bytearray(card)
        damaged[rng.randrange(8)] = rng.randrange(0xF3)
        cards += [card, bytes(damaged)]
    tell(f"set 1: the key test agrees with the definition on {len(cards)} cards, half of them damaged", all(
        (outcome(key_test, 1, card) == "a key") == defined_key(card) for card in cards))


def round_trips(tell, rng, number, turns):
    """Random cards, pairs and records of a set."""
    p = SETS[number]
    q = 2**p.w
    made = refused = opened = absent = 0
    keys = back = encrypts = small = rows = parts = True
    for turn in range(turns):
        coins = rng.randbytes(p.coins)
        try:
            card = make(number, coins)
        except Refused as no:
            refused += 1
            keys = keys and no.number == 13
            continue
        made += 1
        keys = keys and outcome(key_test, number, card) == "a key"
        f_part, fp_part, h_part, hq_part = card_parts(p, card)
        f, h = read_ternary(f_part, p.n), read_with_sum_zero(h_part, p.n, p.w)
        g = candidate(h, f, q)
        keys = keys and g == flipped(draw(coins)[1]) and f == flipped(draw(coins)[0])
        parts = parts and write_words(h, p.w) == h_part and write_ternary(f) == f_part

        coins = rng.randbytes(p.coins)
        sealed = seal(number, card, coins)
        back = back and open_(number, card, sealed) == pair(number, coins)
        record = rng.randbytes(p.word)
        try:
            found = open_(number, card, record)
            opened += 1
            r, m = (read_ternary(found[i : i + p.ternary], p.n) for i in (0, p.ternary))
            encrypts = encrypts and encrypt(r, m, h, q) == read_with_sum_zero(record, p.n, p.w)
        except Refused as no:
            absent += 1
            encrypts = encrypts and no.number == 14

        r, m = draw(coins)
        s = [centred(x, 3) for x in partial_sums_of_lift(lift(m))]
        wide = 2**32
        left = product(times_phi1([3 * x for x in r]), g, wide)
        right = product(times_phi1(s), f, wide)
        small = small and all(abs(centred(x + y, wide)) < q // 2 for x, y in zip(left, right))
        if turn < 3:
            words = [x % 65536 for x in f]
            for call in (row, halved_row):
                rows = rows and [x % q for x in product_by_rows(h, words, call)] == product(h, f, q)
            digits = [x % 3 for x in f]
            sums = product_by_rows(digits, digits)
            rows = rows and max(sums) <= 4 * (p.n - 1) and [x % 3 for x in sums] == product(f, f, 3)
    tell(f"set {number}: {made} cards made are keys with the drawn f and g, {refused} refused 13", keys and made > 0)
    tell(f"set {number}: {made} sealed records open to their pairs", back)
    tell(f"set {number}: {made} random records, {opened} open to a pair that encrypts to them, {absent} refused 14", encrypts)
    tell(f"set {number}: every coefficient of 3 Phi1 r g + Phi1 s f is below q/2 in size", small)
    tell(f"set {number}: products by rows, word by word and halved, are the cyclic product", rows)
    tell(f"set {number}: parts read and written again are the same", parts)


def partial_sums_of_lift(v):
    """The s with last coefficient 0 whose product with Phi1 is v."""
    return [-x for x in itertools.accumulate(v)]


CARD_K = bytes.fromhex("04 3C C0 D0 0F B3 49 88")

SIZES = {1: (5, 6, 1, 3, 8, 2, 4), 2: (7, 7, 2, 6, 16, 4, 6), 3: (701, 13, 140, 1138, 2556, 280, 700)}

COUNTED = [
    (8, 0, key_test, 1, bytes.fromhex("F3 3C C0 D0 0F B3 49 88")),
    (8, 0, open_, 1, bytes.fromhex("04 F3 C0 D0 0F B3 49 88"), bytes(3)),
    (9, 0, key_test, 1, bytes.fromhex("07 3C C0 D0 0F B3 49 88")),
    (10, 1, key_test, 1, bytes.fromhex("04 00 C0 D0 0F B3 49 88")),
    (11, 2, key_test, 1, bytes.fromhex("04 3C 01 00 00 B3 49 88")),
    (12, 3, key_test, 1, bytes.fromhex("04 3C 00 00 00 B3 49 88")),
    (14, 3, open_, 1, CARD_K, bytes.fromhex("14 00 00")),
    (0, 3, key_test, 1, CARD_K),
]

ORDERED = [
    (3, pair, 0, bytes(9), 9),
    (6, pair, 1, bytes(5), 9),
    (7, pair, 1, bytes(4), 3),
    (3, make, 4, bytes(9), 9),
    (6, make, 1, bytes(3), 9),
    (7, make, 1, bytes(4), 9),
    (13, make, 1, bytes(4), 8),
    (3, seal, 9, bytes(8), bytes(4), 3),
    (6, seal, 1, bytes(7), bytes(4), 9),
    (6, seal, 1, bytes(8), bytes(5), 9),
    (7, seal, 1, bytes(8), bytes(4), 2),
    (3, open_, 0, bytes(8), bytes(3), 2),
    (6, open_, 1, bytes(8), bytes(2), 3),
    (7, open_, 1, bytes([0xFF] * 8), bytes(3), 3),
    (8, open_, 1, bytes([0xFF] * 8), bytes(3), 2),
    (3, key_test, 0, bytes(8)),
    (6, key_test, 1, bytes([0xFF] * 9)),
    (8, key_test, 1, bytes([7, 0xFF, 0, 0, 0, 0, 0, 0])),
    (9, key_test, 1, bytes([7, 0, 1, 0, 0, 0, 0, 0])),
    (10, key_test, 1, bytes([4, 0, 1, 0, 0, 0, 0, 0])),
    (11, key_test, 1, bytes([4, 0x3C, 1, 0, 0, 0, 0, 0])),
    (15, row, 1, [], []),
    (15, row, 1, [0] * 1409, [0] * 1409),
    (15, halved_row, 1, [0, 0], [0]),
]

CALLS = {"pair": (pair, 1), "make": (make, 1), "seal": (seal, 2), "open": (open_, 2), "key": (key_test, 1)}


def main(arguments):
    """The command line; the exit status."""
    if arguments == ["selftest"]:
        return 0 if selftest() else 1
    if arguments == ["vectors"]:
        write_vectors()
        return 0
    name = arguments[0] if arguments else ""
    call, files = CALLS.get(name, (None, 0))
    writes = name != "key"
    if call is None or len(arguments) != 2 + files + writes or not re.fullmatch(r"\d+", arguments[1]):
        print(__doc__.strip(), file=sys.stderr)
        return 2
    try:
        result = call(int(arguments[1]), *(Path(path).read_bytes() for path in arguments[2 : 2 + files]))
    except Refused as refused:
        print(refused)
        return 1
    except OSError as error:
        print(error, file=sys.stderr)
        return 2
    if writes:
        Path(arguments[-1]).write_bytes(result)
    else:
        print("a key")
    return 0


if __name__ == "__main__":
    sys.exit(main(sys.argv[1:]))
