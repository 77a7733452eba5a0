#!/usr/bin/env python3
"""Holds the program's cards, sealed records, pairs and key tests against those of the model in reference.py.

    python3 tools/compare_scheme.py [PROGRAM] [--seed SEED] [--turns TURNS]

PROGRAM is crates/keycards/out/keycards of this repository unless another is named. For each set TURNS boards are tried (a tenth of that at set 3):
a card is made, tested, sealed to and opened, each also with damaged files, files of wrong lengths, and the card of another board. Where the
model serves a call, the program must end with status 0 and write the model's bytes; where it refuses, the program must end with
status 1, say `refused NUMBER` with the model's number in one line on standard error, and write no file. The input files
must stay as they are, and the coin file must be as many zeros. Then it is tried that an output that is there already stays and costs no
coins, and that neither does a set that is no number, a missing file, or a wrong number of words.

Prints the seed and the counts; the status is 0 if nothing differed, 1 if something did, and 2 if the
program cannot be run.
"""

import argparse
import random
import subprocess
import sys
import tempfile
from collections import Counter
from pathlib import Path

sys.dont_write_bytecode = True
sys.path.insert(0, str(Path(__file__).resolve().parent))

import reference  # noqa: E402

ROOT = Path(__file__).resolve().parent.parent
SECONDS = 60

# The files of each command, in their order, and the model's call.
COMMANDS = {
    "make": (("coins", "out"), reference.make),
    "seal": (("card", "coins", "out"), reference.seal),
    "open": (("card", "record", "out"), reference.open_),
    "test": (("card",), reference.key_test),
}


class Comparison:
    """The program under test, a folder for its files, and what was found."""

    def __init__(self, program, folder):
        self.program = program
        self.folder = folder
        self.counts = Counter()
        self.differences = []

    def run(self, *words):
        """Runs the program: its status and its standard error."""
        done = subprocess.run([self.program, *map(str, words)], stdin=subprocess.DEVNULL, capture_output=True, timeout=SECONDS)
        return done.returncode, done.stderr.decode(errors="replace")

    def path(self, name):
        return self.folder / name

    def put(self, **files):
        """Writes the files that a command is given, and takes an old output away."""
        self.path("out").unlink(missing_ok=True)
        for name, data in files.items():
            self.path(name).write_bytes(data)

    def compare(self, command, number, **files):
        """A call, and what the model says of it. Returns the model's bytes, or None where it refuses."""
        names, call = COMMANDS[command]
        self.put(**files)
        wanted, refused = None, None
        try:
            wanted = call(number, *(files[name] for name in names if name != "out"))
        except reference.Refused as no:
            refused = no.number
        status, error = self.run(command, number, *(self.path(name) for name in names))
        self.counts[f"{command}, set {number}: " + ("served" if refused is None else f"refused {refused}")] += 1
        written = self.path("out").read_bytes() if self.path("out").exists() else None
        told = f"status {status}, {error.strip() or 'with no message'}"
        if refused is None and status != 0:
            self.differs(command, number, files, f"not served: {told}")
        if refused is not None and (status != 1 or not error.startswith(f"refused {refused}: ") or error.count("\n") != 1):
            self.differs(command, number, files, f"not refused {refused}: {told}")
        if written != wanted:
            self.differs(command, number, files, "the output is not the model's")
        self.check_inputs(command, number, files)
        return wanted

    def check_inputs(self, command, number, files):
        """Coins are zeros, and everything else is as it was."""
        for name, data in files.items():
            if self.path(name).read_bytes() != (bytes(len(data)) if name == "coins" else data):
                self.differs(command, number, files, "the coin file is not as many zeros" if name == "coins" else f"the {name} file was changed")

    def untouched(self, text, words, **files):
        """A call that must end with status 1 and no refusal, and touch nothing."""
        self.counts[text] += 1
        status, error = self.run(*words)
        if status != 1 or not error.startswith("keycards: "):
            self.differs(text, words[1] if len(words) > 1 else "-", files, f"status {status}, {error.strip() or 'with no message'}")
        for name, data in files.items():
            if self.path(name).read_bytes() != data:
                self.differs(text, words[1] if len(words) > 1 else "-", files, f"the {name} file was changed")

    def differs(self, command, number, files, text):
        """Notes a difference."""
        shown = ", ".join(f"{name} {data[:16].hex(' ').upper()}{' ..' if len(data) > 16 else ''}" for name, data in files.items())
        self.differences.append(f"{command}, set {number}, {shown}: {text}")


def lengths(size):
    """Lengths that are not the size, among them far too long ones."""
    return sorted({0, 1, size - 1, size + 1, 2 * size, 2557, 100000} - {size})


def cut(data, length):
    """The data, cut or repeated to a length."""
    return (data * (length // len(data) + 1))[:length]


def damaged(rng, data):
    """The data with a flipped bit, with another byte, and with one above F2."""
    at = rng.randrange(len(data))
    yield reference.with_bit(data, rng.randrange(8 * len(data)))
    yield reference.changed(data, at, rng.randrange(256))
    yield reference.changed(data, at, 0xF3 + rng.randrange(13))


def try_board(comparison, rng, number):
    """A board: its card is made, tested, sealed to and opened, whole and damaged."""
    p = reference.SETS[number]
    card = comparison.compare("make", number, coins=rng.randbytes(p.coins))
    other = reference.good_card(rng, number)
    card = card or reference.good_card(rng, number)
    comparison.compare("test", number, card=card)
    coins = rng.randbytes(p.coins)
    record = comparison.compare("seal", number, card=card, coins=coins)
    if comparison.compare("open", number, card=card, record=record) != reference.pair(number, coins):
        comparison.differs("open", number, {"card": card, "record": record}, "the model does not give the pair back")
    comparison.compare("open", number, card=other, record=record)
    comparison.compare("open", number, card=card, record=rng.randbytes(p.word))
    for record_too in damaged(rng, record):
        comparison.compare("open", number, card=card, record=record_too)
    for card_too in damaged(rng, card):
        comparison.compare("test", number, card=card_too)
        comparison.compare("open", number, card=card_too, record=record)
        comparison.compare("seal", number, card=card_too, coins=rng.randbytes(p.coins))


def try_refusals(comparison, rng, number):
    """Coins of no card, spare digits and bits, wrong lengths, and numbers of no set."""
    p = reference.SETS[number]
    card = reference.good_card(rng, number)
    record = reference.seal(number, card, rng.randbytes(p.coins))
    for coins in reference.coins_without_card(rng, number):
        comparison.compare("make", number, coins=coins)
    comparison.compare("test", number, card=reference.spare(p, card))
    comparison.compare("test", number, card=reference.negative_f(rng, p, card))
    comparison.compare("test", number, card=reference.unsettled_card(rng, number))
    for length in lengths(p.coins):
        comparison.compare("make", number, coins=rng.randbytes(length))
        comparison.compare("seal", number, card=card, coins=rng.randbytes(length))
    for length in lengths(p.card):
        comparison.compare("test", number, card=cut(card, length))
        comparison.compare("seal", number, card=cut(card, length), coins=rng.randbytes(p.coins))
        comparison.compare("open", number, card=cut(card, length), record=record)
    for length in lengths(p.word):
        comparison.compare("open", number, card=card, record=cut(record, length))
    for no_set in (0, 4, 255):
        comparison.compare("make", no_set, coins=rng.randbytes(p.coins))
        comparison.compare("seal", no_set, card=card, coins=rng.randbytes(p.coins))
        comparison.compare("open", no_set, card=card, record=record)
        comparison.compare("test", no_set, card=card)


def try_manners(comparison, rng):
    """What must touch nothing: an output that is there, a set that is no number, a missing file, a wrong number of words."""
    p = reference.SETS[1]
    files = {"card": reference.CARD_K, "record": rng.randbytes(p.word), "coins": rng.randbytes(p.coins), "out": b"taken"}
    comparison.put(**files)
    forms = {command: [command, 1, *(comparison.path(name) for name in names)] for command, (names, _) in COMMANDS.items()}
    for command, words in forms.items():
        if command != "test":
            comparison.untouched("an output that is there", words, **files)
        for set_word in ("x", "-1", "", "1.0"):
            comparison.untouched("a set that is no number", [command, set_word, *words[2:]], **files)
        comparison.untouched("a word too few", words[:-1], **files)
        comparison.untouched("a word too many", [*words, "more"], **files)
    comparison.path("out").unlink()
    del files["out"]
    for command, words in forms.items():
        for at in range(2, len(words)):
            if words[at] == comparison.path("out"):
                lost = comparison.path("no-folder") / "out"
            else:
                lost = comparison.path("no-file")
            comparison.untouched("a missing file", [*words[:at], lost, *words[at + 1 :]], **files)
            if comparison.path("out").exists() or comparison.path("no-file").exists():
                comparison.differs(command, 1, files, "a file was made where none may be")
                comparison.path("out").unlink(missing_ok=True)


def main():
    """The command line; the exit status."""
    parser = argparse.ArgumentParser(description="Compares the program's cards and records with the reference model's.")
    parser.add_argument("program", nargs="?", default=str(ROOT / "crates" / "keycards" / "out" / "keycards"))
    parser.add_argument("--seed", type=int, default=None)
    parser.add_argument("--turns", type=int, default=20)
    options = parser.parse_args()
    program = Path(options.program).resolve()
    seed = random.SystemRandom().randrange(2**32) if options.seed is None else options.seed
    print(f"seed {seed}")
    rng = random.Random(seed)
    with tempfile.TemporaryDirectory() as folder:
        comparison = Comparison(program, Path(folder))
        try:
            for number in reference.SETS:
                for _ in range(options.turns if number < 3 else max(1, options.turns // 10)):
                    try_board(comparison, rng, number)
                try_refusals(comparison, rng, number)
            try_manners(comparison, rng)
        except subprocess.TimeoutExpired:
            print(f"{program} did not end within {SECONDS} seconds", file=sys.stderr)
            return 1
        except OSError as error:
            print(f"{program} cannot be run: {error}", file=sys.stderr)
            return 2
    for text, count in sorted(comparison.counts.items()):
        print(f"{text}: {count}")
    for text in comparison.differences[:20]:
        print(text)
    print(f"calls: {sum(comparison.counts.values())}, differences: {len(comparison.differences)}")
    return 1 if comparison.differences else 0


if __name__ == "__main__":
    sys.exit(main())
