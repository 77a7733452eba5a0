#!/usr/bin/env python3
"""Compares the library's inverses at n = 701 with those of the reference model, coefficient by coefficient.

Runs `crates/polynomials/out/polynomials words` (or the program named by the argument), which prints a polynomial f and its inverses modulo 2, 3
and 8192, and works the inverses out anew with tools/reference.py. Run it in the repository's root after `rt run` in crates/polynomials.
"""
import os
import subprocess
import sys

sys.path.insert(0, os.path.dirname(os.path.abspath(__file__)))
import reference  # noqa: E402


def lists(program):
    out = subprocess.run([program, 'words'], check=True, capture_output=True, text=True).stdout
    for line in out.splitlines():
        name, words = line.split(' ', 1)
        yield name, [int(word) for word in words.strip('[]').split(',')]


def main(arguments):
    program = arguments[0] if arguments else 'crates/polynomials/out/polynomials'
    told = dict(lists(program))
    f = [code - 3 if code == 2 else code for code in told['f']]
    model = {
        '2': [c % 2 for c in reference.inverse_mod_prime(f, 2)],
        '3': [c % 3 for c in reference.inverse_mod_prime(f, 3)],
        '8192': [c % 8192 for c in reference.inverse_mod_power(f, 13)],
    }
    wrong = 0
    for name, words in model.items():
        same = told[name] == words
        wrong += not same
        print(f'inverse modulo {name} at n = {len(f)}: {"the same" if same else "DIFFERENT"}')
    return 1 if wrong else 0


sys.exit(main(sys.argv[1:]))
