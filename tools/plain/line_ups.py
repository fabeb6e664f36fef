"""A plain reading of docs/ON_AIR.md for tools/plain-mux: whether a line-up (a description with a plan) may take the place of another while it is on air.
What stays is known by its PID and keeps its slots over all time: each plan is repeated from slot 0 of the run on."""

from plain import jobs as reading
from plain import plans

STREAM = ("program", "pid", "id", "pts_limit")  # what a stream declares beside its units and buffers


class LineUp:
    """A description, the slots of its plan, its tables (of each its PID and the packets of each section), and what it has on each PID: the name of its
    slots, and what has to be the same if it stays."""

    def __init__(self, d, slots, tables):
        self.d, self.slots = d, slots
        self.places = [places for _, places, *_ in tables]
        self.on = {pid: (f"T{t}", self.table(t, pid)) for t, (pid, *_) in enumerate(tables)}
        for i, p in enumerate(d["program"]):
            if plans.clock_of(d, i) == i:
                self.on[p.get("pcr_pid", d.get("clock_pid"))] = f"P{i}", "clock"
        for k, s in enumerate(reading.parts(d, "stream")):
            self.on[s["pid"]] = f"S{k}", ([{"pts_limit": 90_000, **s}[key] for key in STREAM], vars(plans.Stream(s)))
        self.pids = {name: pid for pid, (name, _) in self.on.items()}

    def table(self, t, pid):
        """The kind of a table: of a PMT its program without texts, of a private table its limit."""
        if 1 <= t <= len(self.d["program"]):
            p = self.d["program"][t - 1]
            return "PMT", p["number"], p.get("pcr_pid"), self.d.get("clock_pid") if "pcr_pid" not in p else None, p.get("pcr_limit", 40)
        return next((("private", own["limit"]) for own in reading.parts(self.d, "table") if own["pid"] == pid), "service information")

    def name_on(self, pid):
        return self.on[pid][0] if pid in self.on else None


def moved(old, new):
    """The first PID, slot by slot, that stays and has another slot."""
    for s in range(max(len(old.slots), len(new.slots))):
        before, now = old.slots[s % len(old.slots)], new.slots[s % len(new.slots)]
        for one, here, other, there in ((new, now, old, before), (old, before, new, now)):
            if here != "-" and other.name_on(one.pids[here]) not in (None, there):
                return one.pids[here]
    return None


def fault(old, new, used):
    """The words of the first reason why a line-up may not take the place of the old one; None if it may. `used` are the PIDs of all line-ups so far. PIDs
    are looked at in the order of tables, clock references and streams."""
    differs = lambda *keys: any(old.d.get(key, 0) != new.d.get(key, 0) for key in keys)
    for pid in new.on:
        if pid in used and pid not in old.on:
            return f"pid {pid}"
    if differs("rate"):
        return "rate"
    if differs("base0"):
        return "clock"
    if differs("ts_id", "original_network_id", "transponder"):
        return "stream"
    for pid, (_, what) in new.on.items():
        if pid in old.on and old.on[pid][1] != what:
            return f"pid {pid}"
    if len(old.slots) % len(new.slots) and len(new.slots) % len(old.slots):
        return "period"
    if (pid := moved(old, new)) is not None:
        return f"moved {pid}"
    for t, places in enumerate(new.places):
        before = old.name_on(new.pids[f"T{t}"])
        if before and old.places[int(before[1:])] != places:
            return f"shape {t}"
    numbers = [p["number"] for p in old.d["program"]]
    for j, p in enumerate(new.d["program"]):
        if p["number"] in numbers and numbers.index(p["number"]) < j:
            return f"order {p['number']}"
    return None
