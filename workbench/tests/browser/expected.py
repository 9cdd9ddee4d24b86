"""What a page has to show of a run, worked out from `run --json` and from nothing of the page."""

STAGES = (1, 2, 3)
OWNERS = {"executions": "sender", "packets": "origin", "entries": "server", "items": "server"}
LISTS = {"request": "requests", "execution": "executions", "packet": "packets", "entry": "entries", "item": "items"}
PLACES = {"request": "slot", "execution": "place", "packet": "place", "entry": "place", "item": "index"}


# The world behind a step of a run: each box by whose it is and its place; and how many numbers were given.
def world(run, at):
    boxes = {name: {} for name in LISTS.values()}
    numbered = 0
    for change in (change for step in run["steps"][:at] for change in step["changes"]):
        if change["box"] == "numbered":
            numbered = change["now"]
            continue
        name = LISTS[change["box"]]
        key = (change.get(OWNERS.get(name), 0), change[PLACES[change["box"]]])
        boxes[name].pop(key, None)
        if change["now"] is not None:
            boxes[name][key] = change["now"]
    return boxes, numbered


# The world at the end as the run's own JSON has it, in the form of `world`.
def final(run):
    state = run["final"]
    lists = lambda name: {(whose, place): box for whose, row in enumerate(state[name]) for place, box in enumerate(row)}
    without = lambda box, *names: {key: value for key, value in box.items() if key not in names}
    boxes = {
        "requests": {(0, slot): request for slot, request in enumerate(state["requests"])},
        "executions": lists("executions"),
        "packets": {(p["origin"], p["place"]): without(p, "origin", "place") for p in state["packets"]},
        "entries": {(e["server"], e["place"]): without(e, "server", "place") for e in state["entries"]},
        "items": lists("items"),
    }
    return boxes, state["numbered"]


# A sending as the page writes it.
def sending(box):
    return f"{box['sender']}.{box['id']}.{box['slot']}"


# The boxes of one server, the lowest place first.
def of_server(boxes, server):
    return [(place, box) for (whose, place), box in sorted(boxes.items()) if whose == server]


# What a server's row shows: its packets, its entries by stage, its deliveries.
def server_row(boxes, server):
    packets = [f"{place} {sending(box)} → {box['to']}" for place, box in of_server(boxes["packets"], server)]
    entries = of_server(boxes["entries"], server)
    number = lambda box: f" #{box['number']}" if box["number"] else ""
    stages = [[f"{p} {sending(e)}{number(e)}" for p, e in entries if e["stage"] == stage] for stage in STAGES]
    items = [f"{place + 1} {sending(box)}" for place, box in of_server(boxes["items"], server)]
    return [packets, *stages, items]


# All that the page shows of a world.
def shown(run, boxes, numbered):
    executions = [
        {"key": f"{sender}.{box['id']}", "called": box["called"], "mask": box["mask"],
         "number": str(box["number"] or "–"), "digest": box["digest"]}
        for (sender, _), box in sorted(boxes["executions"].items())
    ]
    requests = [
        {"slot": str(slot), "client": f"{box['client']} / {box['number']}", "seals": box["seals"],
         "command": box["command"], "digest": box["digest"]}
        for (_, slot), box in sorted(boxes["requests"].items())
    ]
    servers = [server_row(boxes, server) for server in range(run["world"]["n"])]
    return {"servers": servers, "executions": executions, "requests": requests, "given": f"numbers given: {numbered}"}


# How many boxes the page marks as new, changed and gone; an entry that goes a stage on is gone from its old one.
def marks(step):
    counts = {"new": 0, "changed": 0, "gone": 0}
    for change in step["changes"]:
        if change["box"] == "numbered":
            continue
        was, now = change["was"], change["now"]
        counts["new" if was is None else "gone" if now is None else "changed"] += 1
        counts["gone"] += change["box"] == "entry" and bool(was and now) and was["stage"] != now["stage"]
    return counts
