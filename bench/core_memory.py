#!/usr/bin/env python3
"""What memory a core of wire sessions takes, by `core_bench`, built.

    bench/core_memory.py CORE_BENCH [--hundreds N] [--conns N] [--thousands N] [--runs N]

Runs `core_bench full N`: the resident size beside that of `core_bench full 0` has to be at most what the buffers of all flows hold, and
20 % more. Then `core_bench many`: after so many connections that came and went, and after so many thousand exchanges, the greatest
resident size has to be that after the first thousand, within the spread of that size over some runs. Debian's package time. Ends with
1 where it isn't.
"""
import argparse, os, re, subprocess, sys

# KiB by which the size differs from run to run
SPREAD = 512


def peak(*words):
    """What a run prints, and its greatest resident size in KiB."""
    run = subprocess.run(['/usr/bin/time', '-f', '%M', *words], capture_output=True, text=True)
    if run.returncode:
        sys.exit(f'{" ".join(words)}: {run.stderr}')
    return run.stdout, int(run.stderr)


def full(program, hundreds):
    _said, empty = peak(program, 'full', '0')
    said, size = peak(program, 'full', str(hundreds))
    flows, taken, limits, most = map(int, re.findall(r'\d+', said))
    used = (size - empty) * 1024
    print(f'{flows} flows took {taken} octets, their limits are {limits}, with a unit each {most}; resident {used}, '
          f'{used / most:.2f} of limits and units')
    return taken >= limits and used <= most * 1.2


def many(program, conns, thousands, runs):
    first = [peak(program, 'many', '1000', '1')[1] for _run in range(runs)]
    by_conns = peak(program, 'many', str(conns), '1')[1]
    by_exchanges = peak(program, 'many', '1000', str(thousands))[1]
    print(f'resident at most: {min(first)} to {max(first)} KiB after the first thousand, {by_conns} after {conns} connections, '
          f'{by_exchanges} after {thousands} thousand exchanges')
    return max(by_conns, by_exchanges) <= max(first) + SPREAD


def main():
    parser = argparse.ArgumentParser(description=__doc__.splitlines()[0])
    parser.add_argument('core_bench')
    parser.add_argument('--hundreds', type=int, default=10)
    parser.add_argument('--conns', type=int, default=1_000_000)
    parser.add_argument('--thousands', type=int, default=1_000)
    parser.add_argument('--runs', type=int, default=10)
    args = parser.parse_args()
    program = os.path.abspath(args.core_bench)
    kept = full(program, args.hundreds)
    kept = many(program, args.conns, args.thousands, args.runs) and kept
    sys.exit(0 if kept else 1)


main()
