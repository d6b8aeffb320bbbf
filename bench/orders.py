#!/usr/bin/env python3
"""Tries each ORDER below a bound over woven sessions, by a built program of hera.

    bench/orders.py [--below N] [--sessions N] PROGRAM

The scripts have no branch, so each makes as many steps as `list` prints instructions of it, and the steps of an ORDER are
known one by one, as docs/LANGUAGE.md tells them. What the sessions print in the order in which they close, and the database
behind them, have to be exactly what follows: of one that commits what it does behind those that committed before, of one that
meets a conflict its line alone, and of any other what it prints over the state that it began with. It stops at the first
answer that is another.
"""

import argparse
import itertools
import os
import sys

import script as scripts
import tables
from beside_scripts import holds, put_database
from common import Folder, Wrong, call
from random import Random

CATALOGUE = [(b"R", [(b"a", tables.INT)]), (b"S", [(b"a", tables.INT)])]
DECLARED = b"relation R(a int); relation S(a int); "
TURNS = 100
# Scripts, each with the places of the relations that it reads.
WORKS = [
    (b"main { apply {+R(1)}; commit; }", set()),
    (b"main { int c = count(R); apply {+S(c)}; commit; }", {0}),
    (b"main { int c = count(S); apply {+R(c)}; commit; }", {1}),
    (b"main { print count(R); print count(S); }", {0, 1}),
    (b"main { apply {+S(5)}; commit; apply {-S(5)}; commit; print count(S); }", {1}),
]


class Work:
    """A script, what it reads, and how many steps it makes."""

    def __init__(self, text, reads, steps):
        self.text, self.reads, self.steps = text, reads, steps

    def over(self, state):
        """What it prints over a state, the state that it leaves, and the relations that its commits touch, or None."""
        machine = tables.StoredMachine(scripts.read(self.text), TURNS, CATALOGUE, state)
        text, _, after = machine.run_over()
        touched = {place for record in machine.records for (place, _), _ in record}
        return text, after, touched if machine.records else None


def listed(program, folder, text, reads):
    """The work of a script, with as many steps as its listing has instructions."""
    folder.write("script", text)
    listing, _, status = call(program, ["list", folder.script])
    lines = listing.splitlines()
    if status != 0 or sum(line.startswith(b"body ") for line in lines) != 1:
        raise Wrong(f"list of {text!r}: {listing!r} {status}")
    return Work(text, reads, len(lines) - 1)


class Weave:
    """Sessions by the steps of an ORDER: the touched relations of each commit, and the state behind it."""

    def __init__(self, works, order):
        self.works, self.order, self.x = works, order, order
        self.open, self.made, self.begun = list(range(len(works))), [0] * len(works), {}
        self.states, self.touched, self.printed = [[set() for _ in CATALOGUE]], [], b""

    def step(self):
        many = len(self.open)
        session = self.open[self.x % many]
        self.x = self.x // many or self.order
        self.begun.setdefault(session, len(self.touched))
        self.made[session] += 1
        if self.made[session] == self.works[session].steps:
            self.open.remove(session)
            self.printed += b"session %d\n" % session + self.close(self.works[session], self.begun[session])

    def close(self, work, begun):
        """Stores what the session does, where nothing that it read was touched. What it prints."""
        text, _, touched = work.over(self.states[begun])
        if touched is None:
            return text
        for place in range(begun, len(self.touched)):
            if self.touched[place] & work.reads:
                return b"conflict with commit %d\n" % (place + 1)
        alone, after, _ = work.over(self.states[-1])
        if alone != text:
            raise Wrong(f"these are not serial: {work.text!r}")
        self.touched.append(touched)
        self.states.append(after)
        return text


def woven(works, order):
    """What the sessions print, and the state behind them."""
    weave = Weave(works, order)
    while weave.open:
        weave.step()
    return weave.printed, weave.states[-1]


def try_order(program, folder, works, order):
    put_database(folder, Random(order), CATALOGUE, [set() for _ in CATALOGUE])
    names = []
    for place, work in enumerate(works):
        folder.write(f"f{place}", work.text)
        names.append(os.path.join(folder.path, f"f{place}"))
    text, complaint, status = call(program, ["weave", folder.database, str(TURNS), str(order), *names])
    wanted, after = woven(works, order)
    what = f"order {order} of {[work.text for work in works]}"
    if (text, complaint, status) != (wanted, b"", 0):
        raise Wrong(f"{what}: {text!r} {complaint!r} {status}, wanted {wanted!r}")
    if not holds(folder.read(), CATALOGUE, after):
        raise Wrong(f"{what}: it left {folder.read()}, wanted {after}")
    return b"conflict with commit" in text


def main():
    parser = argparse.ArgumentParser()
    parser.add_argument("--below", type=int, default=81)
    parser.add_argument("--sessions", type=int, default=3)
    parser.add_argument("program")
    options = parser.parse_args()
    program, tried, conflicts = os.path.abspath(options.program), 0, 0
    with Folder() as folder:
        try:
            works = [listed(program, folder, DECLARED + text, reads) for text, reads in WORKS]
            for some in itertools.product(works, repeat=options.sessions):
                for order in range(options.below):
                    conflicts += try_order(program, folder, some, order)
                    tried += 1
        except Wrong as wrong:
            print(wrong)
            return 1
    print(f"{tried} weaves of {options.sessions} sessions, all as they have to be, {conflicts} with a conflict")
    return 0


if __name__ == "__main__":
    sys.exit(main())
