"""The rules of the Trace Event Format that a timeline keeps, as viewers want them: fields of each kind of event, slices of a track that don't
overlap, pairs, and flows whose ends are bound to slices."""
import bisect
from collections import defaultdict

# The fields of each kind of event besides `ph`, `pid` and `name`.
FIELDS = {
    "X": ("tid", "ts", "dur"), "i": ("tid", "ts", "s"), "s": ("tid", "ts", "id", "cat"), "f": ("tid", "ts", "id", "cat", "bp"), "C": ("ts", "args"),
    "M": ("args",), "B": ("tid", "ts"), "E": ("tid", "ts"),
}
# The numbers among them: how small each may be.
LEAST = {"ts": 0, "dur": 0, "pid": 1, "tid": 0}


def in_itself(at, event, first_track):
    """Yields what is wrong with an event by itself, if the tracks have numbers from this one on."""
    kind = event.get("ph")
    if kind not in FIELDS:
        yield f"event {at} is of the kind {kind!r}"
        return
    yield from (f"event {at}, {kind}: no {it}" for it in ("pid", "name", *FIELDS[kind]) if it not in event and (it, kind) != ("name", "E"))
    for name, least in {**LEAST, "tid": first_track}.items():
        value = event.get(name, least)
        if isinstance(value, bool) or not isinstance(value, int) or value < least:
            yield f"event {at}, {kind}: {name} is {value!r}"
    if kind == "i" and event.get("s") not in ("t", "p", "g"):
        yield f"event {at}: the scope of an instant is {event.get('s')!r}"
    if kind == "C" and not all(isinstance(it, (int, float)) for it in event.get("args", {}).values()):
        yield f"event {at}: a counter counts {event['args']}"
    if kind == "M" and not isinstance(event.get("args", {}).get("name"), str):
        yield f"event {at}: a name is {event.get('args')}"


def tracks(events):
    """Returns the slices of each track, by their starts."""
    found = defaultdict(list)
    for it in events:
        if it.get("ph") == "X":
            found[it["pid"], it["tid"]].append((it["ts"], it["ts"] + it["dur"], it["name"]))
    return {track: sorted(slices) for track, slices in found.items()}


def overlapping(slices):
    """Yields the slices of a track that begin before the one before them has ended."""
    for track, every in slices.items():
        for (_, end, name), (start, _, other) in zip(every, every[1:]):
            if start < end:
                yield f"track {track}: {other} begins at {start}, and {name} ends at {end}"


def is_bound(slices, event):
    """Returns whether there is a slice at an event's time on its track."""
    every = slices.get((event["pid"], event["tid"]), [])
    at = bisect.bisect_right(every, (event["ts"], float("inf"), ""))
    # (a slice that ends there may be the last but one that begins there, if one without a length follows it)
    return any(start <= event["ts"] <= end for start, end, _ in every[max(0, at - 2) : at])


def flows(events, slices):
    """Yields what is wrong with flows: each has one start and one end, not before it, both bound to slices."""
    ends = defaultdict(list)
    for it in events:
        if it.get("ph") in ("s", "f"):
            ends[it["cat"], it["name"], it["id"]].append(it)
    for flow, some in ends.items():
        if [it["ph"] for it in some] != ["s", "f"]:
            yield f"flow {flow}: its ends are {[it['ph'] for it in some]}"
        elif some[0]["ts"] > some[1]["ts"]:
            yield f"flow {flow}: it ends before it starts"
        yield from (f"flow {flow}: no slice at {it['ts']} on track {it['tid']}" for it in some if not is_bound(slices, it))


def pairs(events):
    """Yields begins without an end, and ends without a begin."""
    open_of = defaultdict(int)
    for it in events:
        if it.get("ph") in ("B", "E"):
            open_of[it["pid"], it["tid"]] += 1 if it["ph"] == "B" else -1
            if open_of[it["pid"], it["tid"]] < 0:
                yield f"track {it['tid']}: an end without a begin at {it['ts']}"
    yield from (f"track {track}: {count} begins without an end" for track, count in open_of.items() if count > 0)


def names(events):
    """Yields tracks without a name, and those with two."""
    named = [(it["pid"], it["tid"]) for it in events if it.get("ph") == "M" and it.get("name") == "thread_name" and "tid" in it]
    yield from (f"track {it} has {named.count(it)} names" for it in sorted(set(named)) if named.count(it) > 1)
    yield from (f"track {it} has no name" for it in sorted({(it["pid"], it["tid"]) for it in events if it.get("ph") == "X"} - set(named)))


def broken(whole, first_track=1):
    """Returns the rules that a timeline breaks; nothing if it keeps all. Some viewers take thread 0 for the one that is idle."""
    events = whole.get("traceEvents") if isinstance(whole, dict) else None
    if not isinstance(events, list):
        return ["there is no list traceEvents"]
    wrong = [it for at, event in enumerate(events) for it in in_itself(at, event, first_track)]
    # (what compares events wants their fields)
    if wrong:
        return wrong
    slices = tracks(events)
    return [*overlapping(slices), *flows(events, slices), *pairs(events), *names(events)]
