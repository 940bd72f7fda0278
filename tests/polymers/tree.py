"""Writes a tree of types: of each level but the last an agent binds two of the next, so that the largest species of N levels
has 2^N - 1 agents.

    tree.py LEVELS    the tree alone
    tree.py LEVELS leaf    with a site of the first type for one more agent
"""

import sys

levels, leaf = int(sys.argv[1]), sys.argv[2:] == ["leaf"]
for level in range(levels):
    sites = ["up"] * (level > 0) + ["left", "right"] * (level < levels - 1) + ["leaf"] * (leaf and level == 0)
    print(f"%agent: A{level}({','.join(sites)})")
    print(f"%init: 1 A{level}()")
for level in range(levels - 1):
    for site in ("left", "right"):
        print(f"A{level}({site}[./1]),A{level + 1}(up[./1])")
if leaf:
    print("%agent: Leaf(to)")
    print("%init: 1 Leaf()")
    print("A0(leaf[./1]),Leaf(to[./1])")
