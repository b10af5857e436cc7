"""Writes example files of the programs.

    python3 make_examples.py EXAMPLES

EXAMPLES/one-contest gets draws.bin: 17 cards for ADAMS, then a verdict. EXAMPLES/by-hand gets
setup.bin and draws.bin: five cards, of which the fourth is missing, three draws, then a full hand
count that upholds the first contest and not the second. EXAMPLES/village gets setup.bin: a contest of
each kind and one of two odd names, and a policy that shrinks; `plan` and `pencil` print of it.
"""

import os
import sys

from make_cases import batch, candidate, contest, terms, two


def marks(*contests):
    """The marks of eight contests, four bytes each."""
    padded = list(contests) + [0] * (8 - len(contests))
    return b"".join(n.to_bytes(4, "big") for n in padded)


def entry(place, found, *contests):
    return b"\x11" + two(place) + bytes([found]) + marks(*contests)


def count(place, found, *contests):
    return b"\x14" + two(place) + bytes([found]) + marks(*contests)


VERDICT, ESCALATE, CLOSE, OPEN = b"\x12", b"\x13", b"\x15", b"\x05"


def one_contest():
    return entry(1, 1, 1) * 17 + VERDICT


def by_hand():
    setup = (
        batch(5)
        + terms(50, 3)
        + contest(1, 2, 1)
        + candidate(4, b"ADAMS   ")
        + candidate(1, b"BAKER   ")
        + contest(3, 2, 1, 2, 3)
        + candidate(4, b"YES     ")
        + candidate(1, b"NO      ")
        + OPEN
    )
    cards = {1: (1, 1), 2: (1, 1), 3: (1, 1), 5: (2, 2)}

    def show(command, place):
        if place in cards:
            return command(place, 1, *cards[place])
        return command(place, 0)

    draws = show(entry, 2) + VERDICT + show(entry, 5) + show(entry, 4) + VERDICT + ESCALATE
    draws += b"".join(show(count, place) for place in range(1, 6)) + CLOSE
    return setup, draws


def village():
    return (
        batch(60, b"HALL-001")
        + batch(39, b"POST-001")
        + batch(1, b"LATE \x072 ")
        + terms(50, 400, 2, 100)
        + contest(1, 2, 1)
        + candidate(40, b"ADAMS   ")
        + candidate(60, b"BAKER   ")
        + contest(2, 3, 2)
        + candidate(55, b"CLARK   ")
        + candidate(30, b"DAVIS   ")
        + candidate(48, b"EVANS   ")
        + contest(3, 2, 1, 2, 3)
        + candidate(18, b"NO      ")
        + candidate(72, b"YES     ")
        + contest(1, 2, 1)
        + candidate(1, b"        ")
        + candidate(0, b"ZO\xcb  S. ")
        + OPEN
    )


def write(folder, name, data):
    os.makedirs(folder, exist_ok=True)
    with open(os.path.join(folder, name), "wb") as out:
        out.write(data)


if __name__ == "__main__":
    examples = sys.argv[1]
    write(os.path.join(examples, "one-contest"), "draws.bin", one_contest())
    setup, draws = by_hand()
    write(os.path.join(examples, "by-hand"), "setup.bin", setup)
    write(os.path.join(examples, "by-hand"), "draws.bin", draws)
    write(os.path.join(examples, "village"), "setup.bin", village())
