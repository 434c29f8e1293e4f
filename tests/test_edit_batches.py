"""Which edits one check may try together, and which of them it refused (tools/edit_batches.py)."""

import importlib.util
import sys
from pathlib import Path
from types import ModuleType

import pytest

TOOL = Path(__file__).parent.parent / "tools/edit_batches.py"
SOURCE = """\
const MOST: usize = 5;

pub fn first(a: u8) -> u8
    ensures { result ≡ a }
{
    a
}

impl Thing {
    #[says]
    pub fn first_of(&self) -> u8 {
        self.0
    }

    fn again(
        &self,
    ) -> u8
        ensures { result ≡ self.now }
    {
        self.2
    }
}

impl Other<u8> {
    fn again(&self) -> u8 {
        self.1
    }
}

impl Other<u16> {
    fn again(&self) -> u8 {
        self.3
    }
}
"""


@pytest.fixture(scope="module")
def batches() -> ModuleType:
    spec = importlib.util.spec_from_file_location("edit_batches", TOOL)
    assert spec and spec.loader
    module = importlib.util.module_from_spec(spec)
    sys.modules["edit_batches"] = module
    spec.loader.exec_module(module)
    return module


@pytest.fixture
def crate(tmp_path: Path) -> Path:
    (tmp_path / "src/low").mkdir(parents=True)
    (tmp_path / "src/low/part.rt").write_text(SOURCE, encoding="utf-8")
    return tmp_path


def edit(*changes: tuple[str, str]) -> str:
    lines = [f"old: {old}\nnew: {new}\n" for old, new in changes]
    return "file: src/low/part.rt\n" + "".join(lines)


@pytest.mark.parametrize(
    ("changes", "name"),
    [
        ([("    a", "    a + 1")], "first"),
        ([("    pub fn first_of(&self) -> u8 {", "    fn first_of(&self) -> u8 {")], ""),
        ([("const MOST: usize = 5;", "const MOST: usize = 6;")], ""),
        ([("    ensures { result ≡ a }", "    ensures { result ≡ 1 }")], ""),
        ([("        self.2", "        self.0")], "again"),
        ([("        self.1", "        self.0")], ""),
        ([("    a", "    1"), ("const MOST: usize = 5;", "const MOST: usize = 6;")], ""),
    ],
)
def test_function_of_an_edit(
    batches: ModuleType, crate: Path, changes: list[tuple[str, str]], name: str
) -> None:
    """An edit is of one function only if it changes that one's body and nothing else, and no other
    function of the file has the same name and type."""
    found = batches.function_of(edit(*changes), str(crate))
    assert (found.name if found else "") == name


def test_functions(batches: ModuleType) -> None:
    """The functions of a source, with the ends of their names, and where their bodies are."""
    found = batches.functions_in("src/low/part.rt", SOURCE)
    assert [(it.path, it.first, it.body, it.last) for it in found] == [
        ("low::part::first", 3, 5, 7),
        ("Thing::first_of", 10, 11, 13),
        ("Thing::again", 15, 19, 21),
        ("Other::again", 25, 25, 27),
        ("Other::again", 31, 31, 33),
    ]
    # a method is in the module of its type, whatever file it is in
    named = ("crate::low::part::first", "crate::Thing::first_of", "crate::low::Thing::first_of")
    assert [[it.is_named(name) for name in named] for it in found[:2]] == [
        [True, False, False],
        [False, True, True],
    ]


def test_batches(batches: ModuleType) -> None:
    """No batch has two edits of one function."""
    one, other = batches.functions_in("src/low/part.rt", SOURCE)[:2]
    edits = {"a": one, "b": one, "c": other, "d": other}
    assert batches.batches_of(edits) == [["a", "c"], ["b", "d"]]


def test_edited(batches: ModuleType, crate: Path) -> None:
    """Edits change a source together, if each text that they replace is there once."""
    edits = [edit(("    a", "    1")), edit(("        self.1", "        9"), ("9", "8"))]
    text = batches.edited(edits, str(crate))["src/low/part.rt"]
    assert text == SOURCE.replace("    a\n", "    1\n").replace("self.1", "8")
    with pytest.raises(ValueError, match="not once there: self.1"):
        batches.edited([*edits, edits[1]], str(crate))


REFUSED = "fn crate::low::part::Thing::first_of: not proved"
CALLER = "fn crate::low::part::Thing::first_of: no proof: it calls `f`, which is not proved"
AT_SOURCE = "note: src/low/part.rt:12:9: it is not proved that what the function ensures holds"
AT_ANOTHER = "note: src/low/part.rt:6:5: it is not proved that what the function ensures holds"
PROOF = "proofs/low/part/Thing/first_of/Answers.antt:5:13: error: "


@pytest.mark.parametrize(
    ("said", "is_refused"),
    [
        ([AT_SOURCE, REFUSED], True),
        ([f"./{PROOF}`returns`: `search`: no proof was found", REFUSED], True),
        ([AT_SOURCE], False),
        ([REFUSED], False),
        ([AT_ANOTHER, REFUSED], False),
        ([AT_SOURCE, CALLER], False),
        ([f"{PROOF}1 declaration that depends on `x`, which was not admitted", REFUSED], False),
        ([AT_SOURCE, REFUSED.replace("first_of", "first")], False),
        ([AT_SOURCE, REFUSED.replace("Thing", "Other")], False),
    ],
)
def test_refused(batches: ModuleType, said: list[str], is_refused: bool) -> None:
    """A function counts as refused only for its own body."""
    function = batches.functions_in("src/low/part.rt", SOURCE)[1]
    assert bool(batches.refused_in("\n".join(said), function)) == is_refused


@pytest.mark.parametrize(
    ("silenced", "refused", "checks"),
    [
        ({"a": "", "b": "", "c": ""}, "abc", 1),
        ({"a": "", "b": "", "c": "b"}, "abc", 2),  # the proof of c rests on that of b
        ({"a": "b", "b": "b", "c": "b", "d": "b"}, "acd", 5),  # b keeps all from being proved
        ({"a": "a"}, "", 1),
    ],
)
def test_refused_together(
    batches: ModuleType, silenced: dict[str, str], refused: str, checks: int
) -> None:
    """An edit of which a check says nothing, because of another one, is tried without that."""
    edits = {
        name: batches.Function("src/lib.rt", "", name, at, at, at)
        for at, name in enumerate(silenced)
    }
    checked = []

    def check(batch: list[str]) -> str:
        checked.append(batch)
        told = [name for name in batch if silenced[name] not in batch]
        lines = [f"note: src/lib.rt:{edits[name].first}:1: it is not proved that" for name in told]
        return "\n".join(lines + [f"fn crate::{name}: not proved" for name in told])

    found = dict(batches.refused_together(list(edits), edits, check))
    assert ("".join(sorted(found)), len(checked)) == (refused, checks)
