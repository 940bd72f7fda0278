"""Writes types of sixteen lamps each, where all combinations come about but for the one with all lamps on.

    lamps.py TYPES    with two the report has 131,070 rows
    lamps.py TYPES all    each lamp goes on by itself, so that each view is a product of 65,536 rows
"""

import sys

LAMPS = "abcdefghijklmnop"
for number in range(int(sys.argv[1])):
    name = f"W{number}"
    print(f"%agent: {name}({', '.join(f'{lamp}{{off on}}' for lamp in LAMPS)})")
    print(f"%init: 1 {name}()")
    for lamp, next_one in zip(LAMPS, LAMPS[1:] + LAMPS[0]):
        held = "" if len(sys.argv) > 2 else f", {next_one}{{off}}"
        print(f"{name}({lamp}{{off/on}}{held})")
        print(f"{name}({lamp}{{on/off}})")
    print(f"'all{number}' {name}({', '.join(f'{lamp}{{on}}' for lamp in LAMPS)})")
