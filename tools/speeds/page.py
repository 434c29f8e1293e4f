"""Puts what tools/speed server, run and databases measured (--out) into a page, for example
docs/SPEED.md, each between two lines that mark the place.

It draws with matplotlib (Debian: python3-matplotlib), or else with gnuplot (Debian: gnuplot-nox),
and installs neither.

Status: 0; 1 if the results can't be used, or nothing is there to draw with; 2 for a wrong word."""
import os
import shutil
import subprocess
import tempfile

import json

from bozintar.words import Words, stop
from speeds import table

os.environ.setdefault("MPLCONFIGDIR", tempfile.gettempdir())
try:
    import matplotlib
except ImportError:
    matplotlib = None

COLOURS = ("#0072b2", "#d55e00", "#999999")
# in ms; the server's clock may be early by so much, or more
LEAST = 0.1
LATENCY = "Uplinks: from the window's end to the line"


def curves(found):
    """Name, and percentiles in ms, of what is compared."""
    shown = [
        (f"{int(rate):,} uplinks a second", load["latency"]["percentiles_ms"])
        for rate, load in sorted(found["loads"].items(), key=lambda pair: int(pair[0]))
    ]
    most = max(found["loads"].items(), key=lambda pair: int(pair[0]))[1]
    return [*shown, ("two syncs of another file then", most["syncs"]["two"]["percentiles_ms"])]


def by_matplotlib(found, png):
    matplotlib.use("Agg")
    from matplotlib import pyplot

    figure, plot = pyplot.subplots(figsize=(5.5, 4.4), dpi=110)
    for (name, values), colour in zip(curves(found), COLOURS):
        plot.plot(
            values, [permille / 2 for permille in range(len(values))], label=name, color=colour
        )
    plot.set(title=LATENCY, xlabel="ms", ylabel="% of uplinks", xscale="log", ylim=(0, 100))
    plot.set_xlim(left=LEAST)
    plot.legend(loc="lower right")
    plot.grid(alpha=0.3)
    figure.tight_layout()
    figure.savefig(png, metadata={"Software": None})


def by_gnuplot(found, png):
    told = curves(found)
    plots = ", ".join(
        f'"-" with lines lw 2 lc rgb "{colour}" title "{name}"'
        for (name, _), colour in zip(told, COLOURS)
    )
    script = [
        'set terminal pngcairo size 605,484 font ",9" noenhanced',
        f'set output "{png}"',
        f'set title "{LATENCY}"; set xlabel "ms"; set ylabel "% of uplinks"; set logscale x',
        f"set xrange [{LEAST}:*]",
        f"set yrange [0:100]; set key bottom right; set grid; plot {plots}",
    ]
    for _, values in told:
        script += [f"{value} {place / 2}" for place, value in enumerate(values)] + ["e"]
    ran = subprocess.run(["gnuplot"], input="\n".join(script), text=True, check=False)
    if ran.returncode:
        stop("gnuplot failed")


def main():
    words = Words(__doc__)
    words.add_argument("--page", metavar="FILE", help="the page")
    words.add_argument("results", metavar="RESULTS", help="the figures that were measured")
    words.add_argument(
        "png",
        nargs="?",
        metavar="PNG",
        help="also draws this picture of what speed server measured: how long uplinks take "
        "beyond their window, beside two syncs of the same disk",
    )
    given = words.parse_args()
    try:
        with open(given.results, encoding="utf-8") as file:
            found = json.load(file)
        if given.png:
            curves(found)
        if given.page:
            table.put(given.page, found)
    except (ValueError, KeyError, TypeError, AttributeError, IndexError):
        told = f"{given.results} has no results of speed server, run or databases"
        stop(f"{told}, or {given.page} no place for them" if given.page else told)
    if not given.png:
        return 0
    if matplotlib:
        by_matplotlib(found, given.png)
    elif shutil.which("gnuplot"):
        by_gnuplot(found, given.png)
    else:
        why = "it draws by matplotlib or gnuplot, and neither is here"
        stop(f"{why}: apt-get install python3-matplotlib, or gnuplot-nox")
    return 0
