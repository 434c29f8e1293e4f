"""Restores side by side, which share the folders of their copies and of their stores."""

import subprocess
from collections.abc import Sequence
from pathlib import Path

from bozintar.processes import await_that
from bozintar.server import Program

from ..clocks import held_syncs
from ..conftest import Environment
from .cases import Case, made_copy, nonces_in
from .conftest import NewCase

# how many restores run at once, and how often
AT_ONCE, ROUNDS = 6, 4


def test_restores_side_by_side(program: str) -> None:
    """Copies in one folder, of other devices each, are restored into another one at once. What
    succeeds is in both records, and what doesn't has made no store; one after another, all
    succeed, above what the records say."""
    copies = [made_copy(program, 3 * number) for number in range(AT_ONCE)]
    with Program(program) as made:
        cases = [Case(made, copy, room=number) for number, copy in enumerate(copies)]
        for _ in range(ROUNDS):
            restore_at_once(program, cases)
        for case in cases:
            known = case.known()
            assert case.restore() == (0, case.copy.printed(known), "")


def restore_at_once(path: str, cases: Sequence[Case]) -> None:
    """All of them at once; then the stores are removed."""
    before = [case.known() for case in cases]
    running = [
        subprocess.Popen(
            [path, "restore", case.old, case.new],
            stdin=subprocess.DEVNULL,
            stdout=subprocess.PIPE,
            stderr=subprocess.PIPE,
            text=True,
        )
        for case in cases
    ]
    ended = [(*process.communicate(timeout=60), process.returncode) for process in running]
    assert any(status == 0 for *_, status in ended), "the first one that has both folders"
    for case, known, (out, said, status) in zip(cases, before, ended):
        assert case.is_as_it_was(), "the copy"
        if status:
            assert said in [f"lnsd: record {path}\n" for path in case.paths]
            assert not case.is_made()
            continue
        assert out == case.copy.printed(known)
        due = case.copy.due(known)
        for text in case.records():
            nonces = nonces_in(text)
            assert {name: nonces.get(name) for name in due} == due, "the record"
        Path(case.new).unlink()


def test_restore_beside_one_that_works(new_case: NewCase, with_disk: Environment) -> None:
    """While a restore makes its file, another one in its folders is refused; later it goes well."""
    first, second = (new_case(room=number) for number in range(2))
    words = [first.program.path, "restore", first.old, first.new]
    with held_syncs(first.program):
        how = with_disk(HELD_SYNCS=first.program.folder)
        running = subprocess.Popen(words, stdout=subprocess.DEVNULL, env=how)
        await_that("the file is there", first.is_made)
        refused = second.restore()
    assert running.wait(60) == 0
    assert refused == (1, "", f"lnsd: record {second.paths[0]}\n")
    second.goes_well(second.copy.due({}))
