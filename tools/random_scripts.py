#!/usr/bin/env python3
"""Compares the program with a plain model on random scripts: `fstch replay`, or with --store the commands on a file.

What the scripts are like stands in `replay_scripts.py` and `store_scripts.py`. A script is run through PROGRAM and
through the model, and the texts, the exit statuses and the bytes of the file are compared. Scripts are the same for the
same seed. One that was never reached of the answers that a script can reach is a failure.
"""

import argparse
import collections
import functools
import os
import sys

sys.dont_write_bytecode = True

import replay_scripts
import store_scripts
from comparing import difference, differs, try_all

DIFFERENCES_SHOWN = 5


def scripts_of(is_store):
    return store_scripts if is_store else replay_scripts


def try_script(is_store, program, seed, number):
    """Writes and compares one script: how often each kind of answer was reached, and the script if the two differ."""
    scripts = scripts_of(is_store)
    script, steps = scripts.author_of(number)(f"{seed} {number}").write()
    return scripts.kinds(steps), script if program and differs(program, steps) else None


def wanted_kinds(scripts):
    return [(op, word) for op, words in scripts.REACHED.items() for word in words.split()]


def print_table(scripts, reached):
    print(f"{'op':<10}{'answer':<20}{'reached':>10}")
    others = sorted(set(reached) - set(wanted_kinds(scripts)))
    for op, word in wanted_kinds(scripts) + others:
        print(f"{op:<10}{word:<20}{reached[op, word]:>10}")


def arguments():
    parser = argparse.ArgumentParser(description=__doc__, formatter_class=argparse.RawDescriptionHelpFormatter)
    parser.add_argument("program", nargs="?", metavar="PROGRAM", help="the built fstch")
    parser.add_argument("--store", action="store_true", help="scripts of the store, with the commands on a file")
    parser.add_argument("--scripts", type=int, help="how many scripts (default 10000; of the store 5000)")
    parser.add_argument("--seed", type=int, default=1, help="which scripts (default 1)")
    parser.add_argument("--jobs", type=int, default=1, help="how many processes write and compare (default 1)")
    parser.add_argument("--model-only", action="store_true", help="run no program, and only show what is reached")
    words = parser.parse_args()
    if (words.program is None) != words.model_only:
        parser.error("give either PROGRAM or --model-only")
    if words.program and not os.access(words.program, os.X_OK):
        parser.error(f"{words.program} can't be run")
    return words


def main():
    words = arguments()
    scripts = scripts_of(words.store)
    count = scripts.USUAL_COUNT if words.scripts is None else words.scripts
    program = words.program and os.path.abspath(words.program)
    work = functools.partial(try_script, words.store, program, words.seed)
    reached, failed = collections.Counter(), 0
    for kinds, script in try_all(work, count, words.jobs):
        reached.update(kinds)
        failed += script is not None
        if script and failed <= DIFFERENCES_SHOWN:
            print(difference(program, script), end="\n\n", flush=True)
    print_table(scripts, reached)
    missing = [pair for pair in wanted_kinds(scripts) if not reached[pair]]
    for op, word in missing:
        print(f"never reached: {op} {word}")
    print(f"{count - failed} passed, {failed} failed")
    return 1 if failed or missing else 0


if __name__ == "__main__":
    sys.exit(main())
