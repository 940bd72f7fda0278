"""Fires the rules of worked models at random and looks whether each state, bond and row that occurs is printed.

    fire.py KASA MODEL FIRINGS

The rules are written here by hand, beside the texts of the models: a left pattern as the text of its nodes, and what is done
to its agents in order. A site that is freed or deleted frees its partner, whatever agent that is.
"""

import itertools
import random
import re
import subprocess
import sys

HUB, CART = {"port": None, "lock": "open"}, {"nose": None, "load": "empty"}

DOCK = [("bind", 0, "port", 1, "nose")]
PLATE = {"a": None, "b": None}
SWAP = [("state", 0, "load", "empty"), ("state", 2, "load", "full")]
MODELS = {
    "scrap": (
        [("Hub", HUB), ("Cart", {"nose": None})] * 10,
        [
            ("Hub(port[.],lock{open}) Cart(nose[.])", DOCK),
            ("Hub(port[_],lock{open})", [("state", 0, "lock", "shut")]),
            ("Hub(lock{shut})", [("state", 0, "lock", "open")]),
            ("Cart()", [("delete", 0)]),
        ],
    ),
    "cut": ([("Hub", {"port": None}), ("Cart", {"nose": None})] * 10, [("Hub(port[_])", [("free", 0, "port")])]),
    "load": (
        [("Hub", HUB), ("Cart", CART)] * 10,
        [
            ("Hub(port[.]) Cart(nose[.])", DOCK),
            ("Hub(port[_],lock{open})", [("state", 0, "lock", "shut")]),
            ("Hub(port[1],lock{shut}) Cart(nose[1],load{empty})", [("state", 1, "load", "full")]),
            ("Hub(port[1],lock{shut}) Cart(nose[1],load{full})", [("state", 1, "load", "empty")]),
            ("Hub(port[1],lock{shut}) Cart(nose[1],load{empty})", [("state", 0, "lock", "open")]),
            ("Hub(port[1],lock{open}) Cart(nose[1],load{full})", [("state", 1, "load", "empty")]),
        ],
    ),
    "rails": (
        [("Plate", PLATE), ("Rail", PLATE)] * 10,
        [
            ("Plate(a[.],b[.]) Rail(a[.],b[.])", [("bind", 0, "a", 1, "a")]),
            ("Plate(a[1],b[.]) Rail(a[1],b[.])", [("bind", 0, "b", 1, "b")]),
        ],
    ),
    "pass": (
        [("Bar", {"l": None, "r": None}), ("Cart", {"hook": None, "load": "full"}), ("Cart", {"hook": None, "load": "empty"})] * 5,
        [
            ("Cart(hook[1],load{full}) Bar(l[1],r[2]) Cart(hook[2],load{empty})", SWAP),
            ("Cart(hook[1],load{empty}) Bar(l[1],r[2]) Cart(hook[2],load{full})", [("state", 0, "load", "full"), ("state", 2, "load", "empty")]),
            ("Cart(hook[1],load{full}) Bar(l[1],r[2]) Cart(hook[2],load{full})", [("state", 2, "load", "empty")]),
        ],
    ),
    "make": (
        [("Hub", {"port": None})] * 20,
        [
            ("Hub(port[.])", [("make", "Cart", {**CART, "load": "full"})] + DOCK),
            ("Hub(port[_])", [("make", "Cart", {**CART, "load": "full"}), ("make", "Cart", CART), ("bind", 1, "nose", 2, "nose")]),
            ("Hub(port[_])", [("free", 0, "port")]),
        ],
    ),
    "beam": (
        [("Beam", {"l": None, "r": None}), ("Cart", {"hook": None}), ("Cart", {"hook": None})] * 5,
        [("Cart() Cart()", [("delete", 0), ("delete", 1)])],
    ),
}
# The bonds that are there at first, of each copy of the complex.
BONDS = {"cut": [(0, "port", 1, "nose")], "beam": [(0, "l", 1, "hook"), (0, "r", 2, "hook")], "pass": [(0, "l", 1, "hook"), (0, "r", 2, "hook")]}


class Agent:
    def __init__(self, kind, states):
        self.kind, self.states, self.links = kind, dict(states), {}


def free(agent, site):
    if site in agent.links:
        other, there = agent.links.pop(site)
        other.links.pop(there, None)


def bind(one, site, other, there):
    free(one, site)
    free(other, there)
    one.links[site], other.links[there] = (other, there), (one, site)


def is_embedding(left, agents):
    ends = {}
    for (kind, tests), agent in zip(left, agents):
        if kind != agent.kind:
            return False
        for site, state, link in tests:
            if state and agent.states[site] != state:
                return False
            if link == "." and site in agent.links or link == "_" and site not in agent.links:
                return False
            if "." in link[1:] and partner(agent, site) != link:
                return False
            if link and link.isdigit():
                ends.setdefault(link, []).append((agent, site))
    return all(len(one) < 2 or one[0][0].links.get(one[0][1]) == one[1] for one in ends.values())


def partner(agent, site):
    """The partner of a site as `site.Type`, nothing where it is free."""
    other, there = agent.links.get(site, (None, None))
    return other and f"{there}.{other.kind}"


def extensions(pattern, mixture, given=()):
    """The lists of different agents that a connected pattern embeds on and that begin with the given ones."""
    if not is_embedding(pattern, given):
        return
    if len(given) == len(pattern):
        yield given
        return
    labels = {link: site for site, _, link in pattern[len(given)][1] if link.isdigit()}
    ends = [a.links.get(s) for (_, tests), a in zip(pattern, given) for s, _, link in tests if link in labels]
    for other in [end[0] for end in ends[:1] if end] if ends else mixture:
        if other not in given:
            yield from extensions(pattern, mixture, given + (other,))


def fire(mixture, agents, steps):
    agents = list(agents)
    for step, *rest in steps:
        if step == "make":
            agents.append(Agent(*rest))
            mixture.append(agents[-1])
        elif step == "state":
            agents[rest[0]].states[rest[1]] = rest[2]
        elif step == "bind":
            bind(agents[rest[0]], rest[1], agents[rest[2]], rest[3])
        elif step == "free":
            free(agents[rest[0]], rest[1])
        else:
            for site in list(agents[rest[0]].links):
                free(agents[rest[0]], site)
            mixture.remove(agents[rest[0]])


def nodes(text):
    """A left pattern as types with tests, each a site, a state or nothing, and a link or nothing."""
    return [(k, re.findall(r"(\w+)(?:\{(\w+)\})?(?:\[([^\]]+)\])?", s)) for k, s in re.findall(r"(\w+)\(([^)]*)\)", text)]


def contacts(report):
    """The printed contact map: a type, a site, and a state or a partner there."""
    section = report.split("lemmas\n")[0]
    lines = re.findall(r"^ (\w+)\.(\w+)(?:\{([^}]*)\})?(?:\[([^\]]*)\])?$", section, re.M)
    return {(kind, site, it) for kind, site, states, partners in lines for it in states.split() + partners.split()}


def shown_contacts(agent):
    states = {(agent.kind, site, state) for site, state in agent.states.items() if state}
    return states | {(agent.kind, site, f"{there}.{other.kind}") for site, (other, there) in agent.links.items()}


def lemmas(report):
    """The printed lemmas: the pattern of a root, and its rows, each with its text."""
    section = report.split("lemmas\n")[1].split("dead rules\n")[0]
    blocks = re.findall(r"^ (\w.*)\n((?:  .*\n)+)", section, re.M)
    return [(nodes(root), [(row, nodes(row)) for row in rows.splitlines() if row != "  never"]) for root, rows in blocks]


def dead_rules(report):
    return {int(it) for it in re.findall(r"^ (\d+)", report.split("dead rules\n")[1], re.M)}


def main():
    kasa, name, firings = sys.argv[1], sys.argv[2], int(sys.argv[3])
    report = subprocess.run([kasa, "analyse", name + ".ka"], stdout=subprocess.PIPE).stdout.decode()
    printed, known, dead, choose = lemmas(report), contacts(report), dead_rules(report), random.Random(1)
    fired, seen, met = set(), set(), set()
    agents, rules = MODELS[name]
    mixture = [Agent(*it) for it in agents]
    bonds = BONDS.get(name, [])
    size = 3 if name in ("beam", "pass") else 2
    for first in range(0, len(mixture), size):
        for one, site, other, there in bonds:
            bind(mixture[first + one], site, mixture[first + other], there)
    done = 0
    for done in range(1, firings + 1):
        number, (left, steps) = choose.choice(list(enumerate(rules, 1)))
        left = nodes(left)
        places = [it for it in itertools.permutations(mixture, len(left)) if is_embedding(left, it)]
        if places:
            fired.add(number)
            fire(mixture, choose.choice(places), steps)
        met |= {it for agent in mixture for it in shown_contacts(agent)}
        if not met <= known:
            print("not in the contact map:", sorted(met - known))
            return
        for root, rows in printed:
            for place in extensions(root, mixture):
                row = next((text for text, row in rows if any(extensions(row, mixture, place))), None)
                if row is None:
                    print("not printed: what holds of", [agent.kind for agent in place], "with", root)
                    return
                seen.add(row)
    if fired & dead:
        print("dead rules fired:", sorted(fired & dead))
        return
    rows = sum(len(rows) for _, rows in printed)
    fired = " ".join(map(str, sorted(fired)))
    print(f"{name}: rules {fired} fired, {len(met)} of {len(known)} states and bonds and {len(seen)} of {rows} rows were seen")


if __name__ == "__main__":
    main()
