#!/usr/bin/env python3
"""transponders.py TSMUX [COUNT]: in what time `plan` fills whole transponders to 95 %: 9 television services, 40 radio services on one clock, and 64
services with up to 254 streams (100 of each where not given, a seed each), of streams as in plan.py. It prints how many have a plan, how many
of these within half a second, and the times, start of the process included. `check` judges each plan. Last the processor time of `check` of a plan
of 65,536 slots for 254 streams and 133 tables, and of two such plans."""

import random
import sys
import tempfile
from fractions import Fraction
from pathlib import Path

import plan
from common import seconds

LOAD = Fraction(95, 100)
TOP = ["transponder = true"]


def television(chance):
    """Mostly standard definition, two to four sounds, teletext in half of the services."""
    sounds = [plan.audio(chance) for _ in range(chance.randint(2, 4))]
    return [plan.video(chance.random() < 0.3, chance), *sounds, *([plan.teletext()] if chance.random() < 0.5 else [])]


def radio(chance):
    return [plan.audio(chance) for _ in range(chance.choice((1, 1, 2)))]


def every_stream(chance):
    """Four streams a service; 256 with 64 services, of which 254 are taken."""
    return [plan.audio(chance) for _ in range(3)] + [plan.teletext() if chance.random() < 0.2 else plan.audio(chance)]


KINDS = {"9 television services": (9, television, TOP, ()), "40 radio services": (40, radio, [*TOP, "clock_pid = 299"], range(40)),
         "64 services": (64, every_stream, [*TOP, "clock_pid = 299"], range(32, 64))}


def transponder(kind, chance):
    """A transponder of a kind, which has room at 100 Mbit/s."""
    programs, own_streams, top, shared = KINDS[kind]
    while True:
        streams = [dict(s, program=p + 1) for p in range(programs) for s in own_streams(chance)][:254]
        made = dict(streams=streams, programs=programs, events=True, private=chance.choice((0, 1, 2)), top=top, shared=shared)
        if (plan.load(made, 100_000_000) or 1) <= LOAD:
            return made


def measure(kind, count):
    took, found = [], 0
    for number in range(count):
        made = transponder(kind, random.Random(f"{kind} {number}"))
        text = plan.text(made, plan.rate_of(made, LOAD), True)
        status, said, milliseconds = plan.run("plan", text)
        found += status == 0 and plan.accepted(text, said)
        took.append(milliseconds)
    took.sort()
    print(f"{count} transponders of {kind} at 95 %: plan finds {found}; {sum(it < 500 for it in took)} answers within half a second;"
          f" {took[count // 2]:.0f} ms in the median, {took[-1]:.0f} at most", flush=True)


def repeated(text, times):
    """The text of the same plan with a period so many times as long: its spreads are so many times as great."""
    lines = text.split("\n")
    period = int(lines[1].split()[1])
    words = " ".join(lines[2:]).split()
    slots, first = words[:period] * times, next(i for i, line in enumerate(lines) if line.startswith("stream "))
    claims = [line.split() for line in lines[first:]]
    for claim in claims:
        if claim[:1] == ["stream"]:
            claim[3] = str(int(claim[3]) * times)
    rows = [" ".join(slots[at:at + 24]) for at in range(0, len(slots), 24)]
    return "\n".join(["tsplan 1", f"period {period * times}", *rows, *map(" ".join, claims)])


def longest_check():
    """As many streams and tables as a transponder has, and as many slots as a plan."""
    made = dict(transponder("64 services", random.Random("the longest check")), private=1)
    tables = "".join(f"[[table]]\npid = {7000 + n}\nlimit = 2000\nsections = {plan.PRIVATE[0][1]}\n".replace("'", '"') for n in range(64))
    text = plan.text(dict(made, private=0), plan.rate_of(made, Fraction(1, 2)), True) + tables
    found = plan.run("plan", text)[1]
    longest = repeated(found, 65_536 // int(found.split("\n")[1].split()[1]))
    with tempfile.TemporaryDirectory() as scratch:
        one, two = Path(scratch, "one"), Path(scratch, "two")
        one.write_text(text + longest)
        two.write_text(text + longest + longest)
        assert plan.accepted(text, longest)
        alone = min(seconds([plan.binary, "check"], one) for _ in range(5))
        switched = min(seconds([plan.binary, "check", "--switch"], two) for _ in range(5))
    print(f"check of 65,536 slots, 254 streams, 133 tables: {1000 * alone:.0f} ms, of two such plans {1000 * switched:.0f} ms", flush=True)


if __name__ == "__main__":
    plan.binary = sys.argv[1]
    for one in KINDS:
        measure(one, int(sys.argv[2]) if len(sys.argv) > 2 else 100)
    longest_check()
