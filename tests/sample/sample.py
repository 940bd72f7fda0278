"""Writes the sample model of a size: each type binds the next one and passes a mark on to it.

    sample.py SIZE [reversed]    with the rules in reverse order, so that each one wakes the one before it
"""

import sys

size = int(sys.argv[1])
pairs = [(i, i + 1) for i in range(size - 1)]
rules = [f"'bind{i}' D{i}(r[./1]),D{j}(l[./1])" for i, j in pairs]
rules += ["'start' D0(r[_],m{off/on})"]
rules += [f"'pass{i}' D{i}(r[1],m{{on}}),D{j}(l[1],m{{off/on}})" for i, j in pairs]
rules += [f"'bad{i}' D{i}(r[1],m{{off}}),D{j}(l[1],m{{on/off}})" for i, j in pairs]
for i in range(size):
    print(f"%agent: D{i}(l,r,m{{off on}})")
for i in range(size):
    print(f"%init: 1 D{i}()")
print("\n".join(rules[::-1] if "reversed" in sys.argv else rules))
