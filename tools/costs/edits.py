"""Prints what each must-fail edit of a crate costs beyond a check that finds nothing to do, in
processor seconds, and what the prover printed first. Run `rt check --jobs 1` in the crate before:
the edits are tried over a copy of the work that it kept, as the merge gate tries them.

`search` is the part of the seconds in which the prover reports what it found (the stages after its
check). If it is above a second, the prover searched for the broken goal and printed help; answer
the goal (see tools/costs/README.md).

Status: 0; 1 if no check of the crate kept anything; 2 for a wrong word; 127 if there is no rt."""
import os
import resource
import shutil
import tempfile

import commands
from commands import ROOT
from bozintar.words import Words, stop


def toolchain():
    """The toolchain's command as a module: it knows how the gate applies and checks an edit."""
    made = commands.toolchain()
    for name in ("checked", "edits_of", "must_fail", "read_edit", "rtlib"):
        if not hasattr(made, name):
            stop(f"this toolchain's rt has no {name}, which this reads (rattle-kit-13b has it)")
    return made


def seconds():
    """How long the processors worked for the commands that have ended."""
    used = resource.getrusage(resource.RUSAGE_CHILDREN)
    return used.ru_utime + used.ru_stime


def tried(rt, crate, texts, kept):
    """The processor seconds of a check with these texts, those of its help, and what it said."""
    with tempfile.TemporaryDirectory(prefix="edit-costs-") as room:
        shutil.copytree(kept, f"{room}/kept")
        times = f"{room}/times"
        before = seconds()
        ran = rt.checked(crate, texts, ["--jobs", "1", "--stage-times", times], f"{room}/kept")
        spent = seconds() - before
        with open(times) as file:
            stages = dict(line.split()[1:3] for line in file if line.startswith("stage "))
    return spent, float(stages.get("offers", 0)), ran.stdout.rstrip("\n").split("\n")


def main():
    words = Words(__doc__)
    words.add_argument("crate", metavar="CRATE", type=commands.crate, help="the crate")
    words.add_argument(
        "edits", nargs="*", metavar="EDIT", help="this edit; without it, all edits of the crate"
    )
    given = words.parse_args()
    commands.need_rt()
    rt = toolchain()
    os.chdir(ROOT)
    crate = next(crate for crate in rt.rtlib.crates_below(ROOT) if crate.name == given.crate)
    edits = {os.path.basename(path)[: -len(".edit")]: path for path in rt.edits_of(crate)[0]}
    for name in given.edits:
        if name not in edits:
            stop(f"{given.crate} has no edit {name}; it has {', '.join(edits) or 'none'}", 2)
    kept = f"{crate.folder}/out/incremental"
    if not os.path.isdir(kept):
        stop(f"no check of {given.crate} kept anything: run rt check --jobs 1 there")
    nothing, _, said = tried(rt, crate, {}, kept)
    print(f"{nothing:6.1f}         {given.crate} with no edit: {said[-1][:40]}")
    for label in given.edits or edits:
        texts, why = rt.read_edit(edits[label], crate.folder)
        if why:
            print(f"BAD EDIT {label}: {why}")
            continue
        spent, search, said = tried(rt, crate, texts, kept)
        told = next((line for line in said if ": error" in line or line.startswith("note: ")), "")
        cost = f"{spent - nothing:6.1f} {search:6.1f}"
        print(f"{cost}  {label}: {said[-1][:18]}; {told[:150]}", flush=True)
    return 0
