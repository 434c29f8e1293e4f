"""The figures of tools/speed server, run and databases as a page has them."""
# what a thread does, in the order in which an uplink goes through them
ROLES = ("readers", "the closer", "the flusher", "senders")
BEGIN, END = "<!-- figures, by tools/speed page: {} -->", "<!-- end of these figures -->"


def rows_of(cells):
    return ["| " + " | ".join(str(cell) for cell in row) + " |" for row in cells]


def table(head, *cells):
    """A table, its lines at most as wide as they come."""
    return [*rows_of([head]), "|" + "---|" * len(head), *rows_of(cells), ""]


def spread(of):
    return f"{of['median_ms']} ms", f"{of['p99_ms']} ms", f"{of['largest_ms']} ms"


def machine(of):
    """What the figures of a measurement are of."""
    return [
        f"{of['processor']}, {of['processors']} processors, {of['memory_gib']} GiB; Linux",
        f"{of['kernel']}, {of['file_system']}; {of['date']}, commit {of['commit']};",
        f"load average before: {of['load_average']:.1f}.",
        "",
    ]


def uplinks(found):
    """The loads of uplinks."""
    cells = []
    for rate, load in sorted(found["loads"].items(), key=lambda pair: int(pair[0])):
        lost = load["sent"] - load["came"]
        told = f"{load['uplinks_a_second']:,.0f}", f"{load['sent']:,}", lost
        cells.append((*told, *spread(load["latency"]), f"{load['processor_us_an_uplink']} µs"))
        cells.append(("two syncs meanwhile", "", "", *spread(load["syncs"]["two"]), ""))
    head = ("Uplinks a second", "sent", "lost", "median", "99th", "largest", "processor time each")
    for name in ("before", "after"):
        two = spread(found[f"syncs_{name}"]["two"])
        cells.append((f"two syncs alone, {name}", "", "", *two, ""))
    return table(head, *cells)


def others(found):
    """What it takes besides."""
    idle, full = found["idle"], found["full"]
    most = max(found["loads"].items(), key=lambda pair: int(pair[0]))[1]["memory_after"]

    def median(values):
        return sorted(values)[len(values) // 2]

    taken, answered = zip(*full["taken_and_answered_ms"])
    calls = "not looked" if idle["system_calls"] is None else idle["system_calls"]
    return table(
        ("What", "Figure"),
        (f"12 links, {idle['seconds']} s without a frame: times a thread woke", idle["switches"]),
        ("in another such time, under strace: system calls", calls),
        ("memory after these loads (VmHWM)", f"{most['VmHWM']} MiB"),
        ("4,096 full records: `lnsd list`", f"{median(full['list_ms'])} ms"),
        ("the same of version 1, which are taken over", f"{median(found['older']['list_ms'])} ms"),
        (
            "from the start until a link is taken; until a line is answered",
            f"{median(taken)} ms; {median(answered)} ms",
        ),
        (
            "memory before an uplink of each of these, and after (VmHWM)",
            f"{full['memory_before']['VmHWM']} MiB; {full['memory_after']['VmHWM']} MiB",
        ),
        (
            "beyond the window, 1,000 of these a second: median; 99th",
            "; ".join(spread(full["latency"])[:2]),
        ),
        ("the server's end after that of the last input", f"{found['uplinks']['end_ms']} ms"),
    )


def each(of, names, digits=1):
    """Values of these names, parted."""
    return "; ".join(f"{of.get(name, 0):.{digits}f}" for name in names)


def modes(found):
    """`run` beside `serve`."""
    both = [found["run"][mode] for mode in ("serve", "run")]
    rate = round(both[0]["uplinks_a_second"])

    def row(what, told):
        return (what, *map(told, both))

    return table(
        (f"{rate:,} uplinks a second, {both[0]['uplinks']:,} of each", "`serve`", "`run`"),
        row("beyond the window: median; 99th", lambda of: "; ".join(spread(of["latency"])[:2])),
        row(
            "processor time an uplink, µs; in the kernel",
            lambda of: each(of, ("processor_us", "kernel_us")),
        ),
        row("of readers; closer; flusher; senders", lambda of: each(of["threads_us"], ROLES)),
        row("times these were taken off a processor", lambda of: each(of["switches"], ROLES, 2)),
        row(
            "commits; syncs",
            lambda of: each(of, ("commits", "syncs"), 2) if "commits" in of else "",
        ),
    )


def links(found):
    """Links that say nothing, and that come anew; calls under strace."""
    idle, anew, calls = found["idle run"], found["anew"], found.get("calls")
    first, settled, *_, last = anew["used"]
    what = f"{idle['links']} links, {idle['places']} places, {idle['seconds']} s without a frame"
    called = "not looked" if idle["system_calls"] is None else idle["system_calls"]
    cells = [
        (f"{what}: times a thread woke; system calls", f"{idle['switches']}; {called}"),
        (
            f"memory after {first[0]:,} links that came; {settled[0]:,}; {last[0]:,}",
            "; ".join(f"{memory[1]:,} KiB" for memory in (first, settled, last)),
        ),
        ("descriptors; threads, then", f"{first[2]}, {last[2]}; {first[3]}, {last[3]}"),
        ("processor time of a link that comes and ends", f"{anew['processor_us']} µs"),
    ]
    if calls:
        told = ", ".join(f"{name} {count:.2f}" for name, count in calls["calls"].items())
        cells.append(("calls an uplink, under strace", told))
    return table(("What, of `run`", "Figure"), *cells)


def asked(found):
    """A row's figures of one server, or none."""
    if not found:
        return ("", "", "")
    return f"{found['commits_a_second']:,}", "; ".join(spread(found)[:2]), found["processor_us"]


def commits(found):
    """Requests that wait for their answers, of lnsd beside the databases."""
    of = {
        name: {(row["clients"], row["window"]): row for row in found["requests"][name]}
        for name in ("lnsd", "postgresql")
    }
    version = found.get("postgresql", {}).get("server_version", "").split(" ")[0]
    head = ("Clients, requests of each", "lnsd a second", "median; 99th", "µs each")
    cells = []
    for key in sorted({**of["lnsd"], **of["postgresql"]}, key=lambda key: key[0] * key[1]):
        rows = (asked(of[name].get(key)) for name in ("lnsd", "postgresql"))
        cells.append((f"{key[0]}, {key[1]}", *(cell for row in rows for cell in row)))
    sqlite = found["sqlite"]
    name = f"1, 1: SQLite {sqlite['version']}"
    cells.append(
        (name, "", "", "", f"{sqlite['commits_a_second']:,}", "; ".join(spread(sqlite)[:2]), "")
    )
    return table((*head, f"PostgreSQL {version} a second", "median; 99th", "µs each"), *cells)


# the tables of each measurement
PARTS = {"server": (uplinks, others), "run": (modes, links), "databases": (commits,)}


def replaced(text, name, found):
    """The text of a page with the figures of a measurement between their two lines."""
    first = BEGIN.format(name) + "\n"
    before, begins, rest = text.partition(first)
    _, ends, after = rest.partition(END + "\n")
    if not (begins and ends):
        raise ValueError(f"the page has no place for the figures of {name}")
    made = [line for part in PARTS[name] for line in part(found)]
    told = [*machine(found[f"machine of {name}"]), *made, END, ""]
    return before + first + "\n" + "\n".join(told) + after


def put(page, found):
    """Puts the figures of each measurement that was made into a page."""
    with open(page, encoding="utf-8") as file:
        text = file.read()
    for name in PARTS:
        if f"machine of {name}" in found:
            text = replaced(text, name, found)
    with open(page, "w", encoding="utf-8") as file:
        file.write(text)
