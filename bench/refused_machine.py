#!/usr/bin/env python3
"""Refuses each allocation of two tests of the machine in turn, each alone, and counts those that fall into the machine.

    bench/refused_machine.py [PROGRAM]

PROGRAM is the tests of `machine_trials`, which `rt test` there builds. The two tests count and join a relation under a
delta, and differ only in the rows that their base has of it: 10 or 10,000. What the machine copies of a relation would
be more allocations over many rows than over few, so the two counts have to be equal.
"""

import os
import sys

from common import Folder, call
from memory import Refuser

TESTS = os.path.join(os.path.dirname(os.path.abspath(__file__)), "..", "crates/machine_trials/out/machine_trials_tests")
FEW, MANY = "machine::few_rows_are_counted_and_joined", "machine::many_rows_are_counted_and_joined"


def falls(refuser, program, test):
    """How many refused allocations of a test fall into the machine, and how many into what makes its code and its base."""
    machine, other, number = 0, 0, 0
    while True:
        number += 1
        made, (text, complaint, status) = refuser.call(number, program, [test])
        if made < number:
            if status != 0:
                sys.exit(f"{test} with no refusal: status {status} with {complaint!r}")
            return machine, other
        if b"error: Machine\n" in text + complaint:
            machine += 1
        elif status == 0 or status == "hang" or status < 0:
            sys.exit(f"{test} with allocation {number} refused: status {status} with {complaint!r}")
        else:
            other += 1


def main():
    program = os.path.abspath(sys.argv[1] if len(sys.argv) > 1 else TESTS)
    counts = []
    with Folder() as folder:
        refuser = Refuser(folder)
        for test in (FEW, MANY):
            machine, other = falls(refuser, program, test)
            print(f"{test}: {machine} fall into the machine, {other} elsewhere")
            counts.append(machine)
    if counts[0] == 0 or counts[0] != counts[1]:
        sys.exit("the machine makes more allocations over many rows than over few")
    print("as many over few rows as over many")


if __name__ == "__main__":
    main()
