#!/usr/bin/env python3
"""line_ups.py TSMUX TSJOB [CHANGES]: how often a service that comes finds slots beside those that stay. Of services of random sizes (television of
standard and high definition, mixed, radio; as in plan.py), at loads of 80 and 90 %: again and again one goes and another takes its place in the list,
of a size that leaves the load at most 12 % below the limit; all others, and the tables, keep their slots. For each load as many changes as asked for
(400 where not given), ten of each line. It prints of how many `tsjob next --plan` finds a plan, in which periods, and in what time, start of the
process included. `tsmux check` judges each plan, and this program compares the slots of each PID that stays."""

import random
import subprocess
import sys
import tempfile
import time
from collections import Counter
from fractions import Fraction
from pathlib import Path

import plan

KINDS = ("sd", "mixed", "hd", "radio")
CHANGES_OF_A_LINE = 10


class Service:
    """A service of random size, with a number and PIDs that no other one has."""

    def __init__(self, kind, number, chance):
        self.number, self.pid = number, 90 + 10 * number
        self.streams = [] if kind == "radio" else [plan.video(kind == "hd" or kind == "mixed" and chance.random() < 0.4, chance)]
        self.streams += [plan.audio(chance) for _ in range(chance.choice((1, 2)))]
        self.streams += [plan.teletext()] if kind != "radio" and chance.random() < 0.3 else []


def made_of(services):
    """The services in the form of plan.py."""
    streams = [dict(s, program=p + 1) for p, service in enumerate(services) for s in service.streams]
    return dict(streams=streams, programs=len(services), events=True, private=0)


def text(services, rate):
    lines = [f"rate = {rate}", 'start = "2026-03-29T00:59:50"', "ts_id = 1", "original_network_id = 1", "sdt = true", "tdt = true",
             "[network]", "id = 1", 'name = "Net"']
    for s in services:
        lines += ["[[program]]", f"number = {s.number}", f"pmt_pid = {s.pid}", f"pcr_pid = {s.pid + 1}", "pcr_limit = 40",
                  'name = "Service"']
    for s in services:
        for k, stream in enumerate(s.streams):
            keys = dict(stream, group_packets=stream["packets"])
            lines += ["[[stream]]", f"program = {s.number}", f"pid = {s.pid + 2 + k}"]
            lines += [f"{key} = {keys[key]}" for key in ("id", "type", "interval", "size", "lead", "rx", "main", "group", "group_packets")]
    for s in services:
        lines += ["[[event]]", f"program = {s.number}", "id = 1", 'start = "2026-03-29T00:59:00"', "duration = 3600", 'language = "eng"',
                  'name = "News of the hour"', 'text = "What happened"']
    return "\n".join(lines) + "\n"


def slots_of(services, plan_text):
    """The slots of a plan by what they carry: PIDs, and the numbers of the tables that no service has."""
    names = {f"S{i}": pid for i, pid in enumerate(s.pid + 2 + k for s in services for k in range(len(s.streams)))}
    names |= {f"P{p}": s.pid + 1 for p, s in enumerate(services)} | {f"T{1 + p}": s.pid for p, s in enumerate(services)}
    names |= {"T0": "PAT", "-": None} | {f"T{1 + len(services) + t}": name for t, name in enumerate(("NIT", "SDT", "EIT", "TDT"))}
    lines = plan_text.split("\n")
    return [names[word] for word in " ".join(lines[2:]).split()[:int(lines[1].split()[1])]]


def keeps(before, after):
    """Whether each slot of what stays carries the same, and nothing of it has another slot."""
    stays = set(before) & set(after) - {None}
    only = lambda slots, at: slots[at % len(slots)] if slots[at % len(slots)] in stays else None
    return all(only(before, at) == only(after, at) for at in range(max(len(before), len(after))))


def first_line_up(kind, load, chance):
    """As many services as half of the highest rate carries, the rate of the load, and a plan."""
    services = []
    for number in range(1, 1 + (chance.randint(10, 16) if kind == "radio" else chance.randint(4, 8))):
        more = services + [Service(kind, number, chance)]
        if (plan.load(made_of(more), 100_000_000) or 1) > Fraction(1, 2):
            break
        services = more
    rate = plan.rate_of(made_of(services), load)
    status, found, _ = plan.run("plan", text(services, rate))
    assert status == 0
    return services, rate, found


def changed(services, kind, load, rate, number, chance):
    """The services with another one in place of one of them."""
    while True:
        place = chance.randrange(len(services))
        more = services[:place] + [Service(kind, number, chance)] + services[place + 1:]
        share = plan.load(made_of(more), rate)
        if share is not None and load * 88 / 100 <= share <= load:
            return more


def line(kind, load, chance, told):
    """Changes of one line-up: the periods of plans that are found, and how long each answer takes."""
    services, rate, found = first_line_up(kind, load, chance)
    with tempfile.TemporaryDirectory() as scratch:
        old, new = Path(scratch, "old"), Path(scratch, "new")
        for number in range(100, 100 + CHANGES_OF_A_LINE):
            more = changed(services, kind, load, rate, number, chance)
            old.write_text(text(services, rate) + found)
            new.write_text(text(more, rate))
            before = time.perf_counter()
            done = subprocess.run([tsjob, "next", old, new, "--plan"], capture_output=True, text=True)
            told["ms"].append(1000 * (time.perf_counter() - before))
            if done.returncode == 0:
                front = done.stdout
                after = front[len(text(more, rate)):]
                assert front.startswith(text(more, rate)) and plan.accepted(text(more, rate), after)
                assert keeps(slots_of(services, found), slots_of(more, after))
                services, found = more, after
                told["periods"][int(found.split("\n")[1].split()[1])] += 1
            else:
                assert done.stderr.startswith("no plan is found"), done.stderr
                told["ways"]["let program" in done.stderr] += 1


def measure(percent, count):
    everything = 0
    for kind in KINDS:
        told = dict(periods=Counter(), ways=Counter(), ms=[])
        for number in range(count // len(KINDS) // CHANGES_OF_A_LINE):
            line(kind, Fraction(percent, 100), random.Random(f"{kind} {number}"), told)
        found, asked = sum(told["periods"].values()), len(told["ms"])
        everything += found
        told["ms"].sort()
        print(f"{percent} %, {kind}: {found} of {asked} found, periods {dict(sorted(told['periods'].items()))}; of the others"
              f" {told['ways'][True]} with a program in the way; {told['ms'][asked // 2]:.0f} ms in the median, {told['ms'][-1]:.0f} at most", flush=True)
    print(f"{percent} %: {everything} of {count}", flush=True)


if __name__ == "__main__":
    plan.binary, tsjob = sys.argv[1], sys.argv[2]
    for load_percent in (80, 90):
        measure(load_percent, int(sys.argv[3]) if len(sys.argv) > 3 else 400)
