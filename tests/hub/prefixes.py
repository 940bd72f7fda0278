"""Tries each beginning of a text: a report, or a fault with a place in it or directly behind it."""

import re
import subprocess
import sys

text = open(sys.argv[2], "rb").read()
wrong = 0
for length in range(len(text) + 1):
    part = text[:length]
    open("part.ka", "wb").write(part)
    done = subprocess.run([sys.argv[1], "analyse", "part.ka"], stdout=subprocess.PIPE)
    if done.returncode == 0 and done.stdout.startswith(b"contact map\n"):
        continue
    place = re.fullmatch(rb"model (\d+):(\d+): [A-Za-z]+\n", done.stdout)
    lines = part.split(b"\n")
    line, column = (int(place[1]), int(place[2])) if place and done.returncode == 3 else (0, 0)
    if not (1 <= line <= len(lines) and 1 <= column <= len(lines[line - 1]) + 1):
        print(length, done.returncode, done.stdout)
        wrong += 1
print("all placed" if len(text) > 0 and wrong == 0 else f"{wrong} wrong")
