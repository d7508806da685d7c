#!/usr/bin/env python3
"""A script of an analyser's life, loop after loop: make_loops.py DIM [TOPOLOGY [LOOPS [SEED]]].

Each loop begins in a box of DIM variables and goes through its body some times: the guard is added, variables
are assigned, a second branch is made by a meet, both are joined, the head is joined with them and, where it is
closed, widened; then the script asks whether the body stays in the head and prints it. Behind the loop the guard
is false. The sets that are printed decide nothing of what follows, so that any program can run the script.
"""
import random
import sys

LETTERS = "ABCDEFGHIJKLMNOPQRSTUVWXYZ"


def assignment(choose, names):
    target, source, other = choose.choice(names), choose.choice(names), choose.choice(names)
    return target, choose.choice([
        f"{target} + {choose.randint(1, 3)}",
        f"{target} - 1",
        f"{source} + {choose.randint(0, 2)}",
        f"{target} + {source}" if target != source else "0",
        f"{choose.randint(0, 4)}",
        f"({source} + {other})/2" if source != other else f"({source})/2",
    ])


def loop(choose, names, strict):
    below = "<" if strict else "<="
    bounds = []
    for name in names:
        low = choose.randint(-2, 2)
        bounds += [f"{name} >= {low}", f"{name} {below} {low + choose.randint(1, 3)}"]
    one, two = choose.sample(names, 2)
    limit = choose.randint(5, 20)
    yield f"cons head {'nnc' if strict else 'closed'} {len(names)} : {', '.join(bounds)}"
    yield f"cons branch {'nnc' if strict else 'closed'} {len(names)} : {one} - {two} >= {choose.randint(-1, 1)}"
    for _ in range(3):
        yield "copy body head"
        yield f"add body : {one} + {two} {below} {limit}"
        target, value = assignment(choose, names)
        yield f"image left body {target} : {value}"
        yield "meet right body branch"
        for _ in range(2):
            target, value = assignment(choose, names)
            yield f"image right right {target} : {value}"
        yield "hull body left right"
        yield "hull more head body"
        if strict:
            yield "copy head more"
        else:
            yield "widen head head more"
        yield "contains head body"
        yield "print cons head"
    yield "copy behind head"
    yield f"add behind : {one} + {two} >= {limit}"
    yield "disjoint behind branch"
    yield "print cons behind"


def main():
    dim = int(sys.argv[1])
    topology = sys.argv[2] if len(sys.argv) > 2 else "closed"
    loops = int(sys.argv[3]) if len(sys.argv) > 3 else 100
    choose = random.Random(int(sys.argv[4]) if len(sys.argv) > 4 else 1)
    names = list(LETTERS[:dim])
    for _ in range(loops):
        for line in loop(choose, names, topology == "nnc"):
            print(line)


main()
