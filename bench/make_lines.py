#!/usr/bin/env python3
"""Makes scripts for the program: `make_lines.py lines N` writes N short lines, and `make_lines.py long N` one line of N bytes."""
import sys

kind, count = sys.argv[1], int(sys.argv[2])
out = sys.stdout
if kind == "lines":
    out.write("cons a closed 2 : A >= 0, B >= 0, A + B <= 4\n")
    out.writelines(f"has a : p({number % 7}*A + {number % 5}*B)\n" for number in range(count - 1))
elif kind == "long":
    for _ in range(count // 65_536):
        out.write("#" * 65_536)
    out.write("#" * (count % 65_536) + "\n")
else:
    sys.exit(__doc__)
