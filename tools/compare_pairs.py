#!/usr/bin/env python3
"""Holds the program's pair records against those of two models: reference.py, and pair_from_docs.py, which was written from the docs alone.

    python3 tools/compare_pairs.py [PROGRAM] [--seed SEED] [--turns TURNS]

PROGRAM is crates/keycards/out/keycards of this repository unless another is named. For each set it is run
as `PROGRAM pair SET COINS PAIR` on TURNS files of random coins, and on some that are chosen. Each run
must end with status 0, write the model's pair record, and leave a coin file of zeros. Then coins
of wrong lengths and numbers of no set are tried: such a run must end with status 1, say
`refused 6` or `refused 3` on standard error, write no file, and leave a coin file of zeros too.

Prints the seed and the counts; the status is 0 if nothing differed, 1 if something did, and 2 if the
program cannot be run.
"""

import argparse
import random
import re
import subprocess
import sys
import tempfile
from collections import Counter
from pathlib import Path

sys.dont_write_bytecode = True
sys.path.insert(0, str(Path(__file__).resolve().parent))

import pair_from_docs  # noqa: E402
import reference  # noqa: E402

ROOT = Path(__file__).resolve().parent.parent
NO_SETS = (0, 4, 5, 100, 255)
SECONDS = 60


class Comparison:
    """The program under test, a folder for its files, and what was found."""

    def __init__(self, program, folder):
        self.program = program
        self.coins_file = folder / "coins"
        self.pair_file = folder / "pair"
        self.counts = Counter()
        self.differences = []

    def run(self, number, coins):
        """Runs the program on the coins: its status, its standard error and the pair record, None if there is none."""
        self.coins_file.write_bytes(coins)
        self.pair_file.unlink(missing_ok=True)
        done = subprocess.run(
            [self.program, "pair", str(number), self.coins_file, self.pair_file],
            stdin=subprocess.DEVNULL, capture_output=True, timeout=SECONDS)
        written = self.pair_file.read_bytes() if self.pair_file.exists() else None
        return done.returncode, done.stderr.decode(errors="replace"), written

    def differs(self, number, coins, text):
        """Notes a difference."""
        shown = coins.hex(" ").upper() if len(coins) <= 16 else coins[:16].hex(" ").upper() + " .."
        self.differences.append(f"set {number}, {len(coins)} bytes of coins {shown}: {text}")

    def check_cleared(self, number, coins):
        """The coin file has its length, and zeros."""
        left = self.coins_file.read_bytes() if self.coins_file.exists() else None
        if left != bytes(len(coins)):
            self.differs(number, coins, "the coin file is not as many zeros")

    def compare(self, number, coins):
        """Coins that are served."""
        self.counts[f"set {number}: pair records compared"] += 1
        wanted = reference.pair(number, coins)
        if pair_from_docs.pair(number, coins, len(wanted)) != ("ok", bytes(wanted)):
            self.differs(number, coins, "the two models differ")
        status, error, written = self.run(number, coins)
        if status != 0:
            self.differs(number, coins, f"status {status}, {error.strip() or 'with no message'}")
        elif written is None:
            self.differs(number, coins, "no pair record was written")
        elif written != wanted:
            at = next((i for i, (x, y) in enumerate(zip(written, wanted)) if x != y), min(len(written), len(wanted)))
            self.differs(number, coins, f"the pair record has {len(written)} bytes and differs at byte {at}")
        self.check_cleared(number, coins)

    def refuse(self, number, coins):
        """Coins or a set that are refused, with the number that the model gives."""
        try:
            reference.pair(number, coins)
            raise AssertionError("the model serves this")
        except reference.Refused as refused:
            wanted = refused.number
        self.counts[f"refused {wanted}"] += 1
        status, error, written = self.run(number, coins)
        if status != 1 or not re.search(rf"\brefused {wanted}\b", error):
            self.differs(number, coins, f"not refused {wanted}: status {status}, {error.strip() or 'with no message'}")
        if written is not None:
            self.differs(number, coins, "a pair record was written where none may be")
        self.check_cleared(number, coins)


def chosen(number, size):
    """Coins that are not left to chance: zeros, ones, single bytes, and every byte value."""
    yield bytes(size)
    yield bytes([0xFF] * size)
    for at in (0, size // 2 - 1, size // 2, size - 1):
        yield bytes(at) + b"\x21" + bytes(size - at - 1)
    for start in range(0, 256, size):
        yield bytes((start + i) % 256 for i in range(size))
    if number == 1:
        yield bytes.fromhex("01 04 10 01")


def wrong_lengths(number):
    """Lengths that are not the set's: neighbours, none at all, double, and those of the other sets."""
    size = reference.SETS[number].coins
    others = {other.coins for other in reference.SETS.values()}
    return sorted((others | {0, 1, size // 2, size - 1, size + 1, 2 * size, 4096}) - {size})


def compare_all(comparison, rng, turns):
    """All sets, then what is refused."""
    for number, p in reference.SETS.items():
        for coins in chosen(number, p.coins):
            comparison.compare(number, coins)
        for _ in range(turns):
            comparison.compare(number, rng.randbytes(p.coins))
    for number in reference.SETS:
        for length in wrong_lengths(number):
            comparison.refuse(number, rng.randbytes(length))
    for number in NO_SETS:
        for length in (0, 3, *(p.coins for p in reference.SETS.values())):
            comparison.refuse(number, rng.randbytes(length))


def main():
    """The command line; the exit status."""
    parser = argparse.ArgumentParser(description="Compares the program's pair records with the reference model's.")
    parser.add_argument("program", nargs="?", default=str(ROOT / "crates" / "keycards" / "out" / "keycards"))
    parser.add_argument("--seed", type=int, default=None)
    parser.add_argument("--turns", type=int, default=200)
    options = parser.parse_args()
    program = Path(options.program).resolve()
    seed = random.SystemRandom().randrange(2**32) if options.seed is None else options.seed
    print(f"seed {seed}")
    with tempfile.TemporaryDirectory() as folder:
        comparison = Comparison(program, Path(folder))
        try:
            compare_all(comparison, random.Random(seed), options.turns)
        except OSError as error:
            print(f"{program} cannot be run: {error}", file=sys.stderr)
            return 2
        except subprocess.TimeoutExpired:
            print(f"{program} did not end within {SECONDS} seconds", file=sys.stderr)
            return 1
    for text, count in comparison.counts.items():
        print(f"{text}: {count}")
    for text in comparison.differences[:20]:
        print(text)
    print(f"differences: {len(comparison.differences)}")
    return 1 if comparison.differences else 0


if __name__ == "__main__":
    sys.exit(main())
