"""Edits that one check can try together, and which of them it refused.

The prover checks each function against the contracts of those that it calls, and never against
their bodies. So edits of the bodies of different functions don't touch each other: one check can
have several of them, and it says of each function whether it is proved. Edits of anything else,
for example of a constant, are tried alone."""
import os
import re
from collections.abc import Callable, Iterator
from dataclasses import dataclass

IMPL = re.compile(
    r"impl(?P<taken><.*?>)? (?:(?P<trait>\w[\w:]*)(?:<.*?>)? for )?(?P<type>\S.*?)(?: \{)?$"
)
TYPE = re.compile(r"(?<!')\b[A-Za-z]\w*")
FUNCTION = re.compile(r"( *)(?:pub(?:\(\w+\))? )?(?:const )?fn (\w+)")
# What a check says of a function, of a place in a source, and of a place in a proof.
VERDICT = re.compile(r"fn (\S+): (?:not proved|no proof: (?!it calls ))")
IN_SOURCE = re.compile(r"note: (src/\S+?):(\d+):\d+: it is not proved that")
IN_PROOF = re.compile(r"(?:\./)?(proofs/\S+)/\w+\.antt:\d+:\d+: error: (.*)")
# An error that says nothing of a body: a name that isn't there, or another proof that was refused.
SAYS_NOTHING = re.compile(r"has no field|is not in scope|has no `|was not admitted")


@dataclass(frozen=True)
class Function:
    """A function with a body, in a file of a crate. Its lines, from 1, begin at its attributes."""

    file: str
    owner: str
    name: str
    first: int
    body: int
    last: int

    @property
    def path(self) -> str:
        """The end of its name in a check, as `--only` takes it: a method is in the module of its
        type, whatever file it is in, and any other function in that of its file."""
        modules = self.file.removeprefix("src/").removesuffix(".rt").removesuffix("lib").split("/")
        parts = [self.owner, self.name] if self.owner else [*filter(None, modules), self.name]
        return "::".join(parts)

    def is_named(self, name: str) -> bool:
        """Whether a check means this function by a name such as `crate::module::Type::function`."""
        if self.owner:
            return name.endswith(f"::{self.path}")
        return name.partition("::")[2] == self.path


def functions_in(file: str, text: str) -> list[Function]:
    """The functions of a source that have a body."""
    found, owner, lines = [], "", text.split("\n")
    for number, line in enumerate(lines):
        if told := IMPL.match(line):
            owner = owner_of(told)
        elif line == "}":
            owner = ""
        if told := FUNCTION.match(line):
            ends, first = body_of(lines, number, told[1]), number
            # a check may name the line of an attribute
            while first and lines[first - 1].strip() and lines[first - 1][-1] not in "{};":
                first -= 1
            if ends:
                where = (first + 1, ends[0] + 1, ends[1] + 1)
                found.append(Function(file, owner if told[1] else "", told[2], *where))
    return found


def owner_of(told: re.Match[str]) -> str:
    """How a check calls the owner of a block's functions: a type, and the trait if there is one."""
    taken = TYPE.findall(told["taken"] or "")
    names = [name for name in TYPE.findall(told["type"]) if name not in taken]
    trait = (told["trait"] or "").rpartition("::")[2]
    return "".join(names) + trait if trait else names[0] if names else ""


def body_of(lines: list[str], first: int, indent: str) -> tuple[int, int] | None:
    """Where the body of a function begins and ends, if it has one."""
    for begins in range(first, len(lines)):
        line = lines[begins]
        own = line.startswith(indent) and not line.startswith(f"{indent} ")
        if own and line.endswith(";"):
            return None
        if own and line.endswith("{"):
            ends = lines.index(f"{indent}}}", begins + 1)
            return begins, ends
    return None


def read(file: str) -> str:
    with open(file, encoding="utf-8") as text:
        return text.read()


def changes_of(edit: str) -> list[tuple[str, str, str]]:
    """The changes of an edit: a file, a text, and what comes in its place."""
    changes, file, old = [], "", ""
    for word, _, text in (line.partition(":") for line in edit.split("\n")):
        text = text.removeprefix(" ")
        if word == "file":
            file = text.strip()
        elif word == "old":
            old = text
        elif word == "new":
            changes.append((file, old, text))
    return changes


def function_of(edit: str, crate: str) -> Function | None:
    """The one function of a crate's folder whose body an edit changes, and nothing else."""
    functions = set()
    texts: dict[str, str] = {}
    for file, old, new in changes_of(edit):
        if not file.startswith("src/") or not os.path.isfile(f"{crate}/{file}"):
            return None
        texts[file] = texts.get(file) or read(f"{crate}/{file}")
        before, _, after = texts[file].partition(old)
        line = before.count("\n") + 1
        there = functions_in(file, texts[file])
        of_line = [it for it in there if it.body < line < it.last]
        named = [it for it in there if of_line and it.path == of_line[-1].path]
        if len(of_line) != 1 or len(named) != 1:
            return None
        functions.add(of_line[0])
        texts[file] = before + new + after
    return functions.pop() if len(functions) == 1 else None


def batches_of(edits: dict[str, Function]) -> list[list[str]]:
    """The edits in batches, in each of which no two change one function."""
    batches: list[list[str]] = []
    for edit, function in edits.items():
        for batch in batches:
            if all(edits[other] != function for other in batch):
                batch.append(edit)
                break
        else:
            batches.append([edit])
    return batches


def edited(edits: list[str], crate: str) -> dict[str, str]:
    """The sources of a crate's folder that edits change, as they make them. The texts of an edit
    are replaced one after another, so a later one may be what an earlier one has made."""
    texts: dict[str, str] = {}
    for file, old, new in (change for edit in edits for change in changes_of(edit)):
        texts[file] = texts.get(file) or read(f"{crate}/{file}")
        if texts[file].count(old) != 1:
            raise ValueError(f"not once there: {old.strip()}")
        texts[file] = texts[file].replace(old, new)
    return texts


def refused_together(
    batch: list[str], edits: dict[str, Function], check: Callable[[list[str]], str]
) -> Iterator[tuple[str, str]]:
    """Each edit of a batch that checks of several refuse, and why. A check may say nothing of an
    edit because another one is refused: then the others are tried without that. If it refuses none,
    one edit may have kept it from all proofs: then each half is tried."""
    said = check(batch)
    refused = {edit: why for edit in batch if (why := refused_in(said, edits[edit]))}
    yield from refused.items()
    rest = [edit for edit in batch if edit not in refused]
    middle = 0 if refused else len(rest) // 2
    for part in (rest[:middle], rest[middle:]):
        if part and len(part) < len(batch):
            yield from refused_together(part, edits, check)


def refused_in(said: str, function: Function) -> str:
    """Why a check refused a function for its own body, or nothing."""
    if not any(function.is_named(name) for name in VERDICT.findall(said)):
        return ""
    for line in said.split("\n"):
        if (told := IN_SOURCE.match(line)) and told[1] == function.file:
            if function.first <= int(told[2]) <= function.last:
                return line.removeprefix("note: ")
        if (told := IN_PROOF.match(line)) and function.is_named(told[1].replace("/", "::")):
            if not SAYS_NOTHING.search(told[2]):
                return line
    return ""
