"""Writes 250 types of 25 sites with 32 states each, agents that are in each state, and rules that mention one site each."""

TYPES, SITES, STATES = 250, 25, 32
agents = []
for number in range(TYPES):
    name = f"T{number}"
    states = " ".join(f"u{state}" for state in range(STATES))
    print(f"%agent: {name}({','.join(f's{site}{{{states}}}' for site in range(SITES))})")
    for first in range(0, SITES, 12):
        print(",".join(f"{name}(s{site}{{u0}})" for site in range(first, min(first + 12, SITES))))
    for state in range(STATES):
        agents.append(f"{name}({','.join(f's{site}{{u{state}}}' for site in range(SITES))})")
for first in range(0, len(agents), 200):
    print("%init: 1 " + ",".join(agents[first : first + 200]))
