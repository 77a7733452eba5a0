#!/usr/bin/env python3
"""Times the libraries at n = 701 beside a plain C product, in one run, and prints ratios.

    python3 tools/bench/run.py [FOLDER]

P is one product by 701 rows in C (tools/bench/product.c, gcc -O3). FOLDER has the crates `polynomials` and `bench` with their programs,
and is crates unless another is named. The three programs take turns, and each figure is the best of all turns. Run it in the repository's
root after `rt run` in both folders, on a machine with nothing else to do.
"""
import subprocess
import sys
import tempfile

TURNS = 5

# Times P, at most.
AIMS = {
    'product': 1.1,
    'product-over-halving': 1.25,
    'inverse-modulo-2': 2,
    'inverse-modulo-3': 3,
    'inverse-modulo-8192': 14,
    'make': 25,
    'key-test': 3.5,
    'seal': 1.25,
    'open': 3.5,
}


def lines(command):
    out = subprocess.run(command, check=True, capture_output=True, text=True).stdout
    return {name: int(value) for name, value in (line.split() for line in out.splitlines())}


def main(arguments):
    folder = arguments[0] if arguments else 'crates'
    with tempfile.TemporaryDirectory() as place:
        program = place + '/product'
        subprocess.run(['gcc', '-O3', '-o', program, 'tools/bench/product.c'], check=True)
        best = {}
        for _ in range(TURNS):
            for command in ([program], [f'{folder}/polynomials/out/polynomials', 'time'], [f'{folder}/bench/out/bench', 'time']):
                for name, value in lines(command).items():
                    best[name] = min(value, best.get(name, value))
    p = best.pop('P')
    print(f'P, a product by 701 rows in C: {p / 1000:.1f} microseconds')
    for name, value in best.items():
        missed = '' if value <= AIMS[name] * p else ', MISSED'
        print(f'{name}: {value / 1000:.1f} microseconds, {value / p:.2f} P, aim {AIMS[name]} P{missed}')
    return 0


sys.exit(main(sys.argv[1:]))
