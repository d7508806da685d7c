#!/usr/bin/env python3
"""A script for polycalc with one system of counters and a run of it to its limit.

make_systems.py DIM DELAY [TRANSITIONS [LOCATIONS [SEED]]]

Each transition has a guard on one counter and adds to, resets or moves counters; the others stay as they are.
Without `fixpoint` as last line (a sixth argument 'made'), so that the making of the system can be timed alone.
"""
import random
import sys

LETTERS = "ABCDEFGHIJKLMNOPQRSTUVWXYZ"


def relation(choose, dim, kinds):
    """The constraints between a state and its successor."""
    before = LETTERS[:dim]
    after = LETTERS[dim:2 * dim]
    one, other = choose.sample(range(dim), 2)
    bound = choose.randint(1, 20)
    change = {}
    kind = choose.choice(kinds)
    if kind == "add":
        rows = [f"{before[one]} <= {bound}"]
        change[one] = f"{before[one]} + {choose.randint(1, 3)}"
    elif kind == "reset":
        rows = [f"{before[one]} >= {bound}"]
        change[one] = "0"
    else:
        rows = [f"{before[one]} >= 1"]
        change[one] = f"{before[one]} - 1"
        change[other] = f"{before[other]} + 1"
    return rows + [f"{after[i]} = {change.get(i, before[i])}" for i in range(dim)]


def main():
    dim, delay = int(sys.argv[1]), int(sys.argv[2])
    transitions = int(sys.argv[3]) if len(sys.argv) > 3 else 30
    locations = int(sys.argv[4]) if len(sys.argv) > 4 else 5
    seed = int(sys.argv[5]) if len(sys.argv) > 5 else 1
    choose = random.Random(seed)
    print(f"system s {dim} {locations}")
    print(f"cons start closed {dim} : " + ", ".join(f"{x} = 0" for x in LETTERS[:dim]))
    print("init s 0 start")
    for k in range(transitions):
        # the first ones make a ring and can be taken at the start, so that each location is reached
        source = k % locations if k < locations else choose.randrange(locations)
        target = (k + 1) % locations if k < locations else choose.randrange(locations)
        print(f"cons r closed {2 * dim} : " + ", ".join(relation(choose, dim, ["add"] if k < locations else ["add", "add", "reset", "move"])))
        print(f"trans s {source} {target} r")
    if "made" not in sys.argv[6:]:
        print(f"fixpoint s {delay} q")
        for location in range(locations):
            print(f"print cons q{location}")


main()
