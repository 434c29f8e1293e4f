"""Man pages, made from what --help prints, be it of clap, of argparse, or a docstring."""

import re
import time
from collections.abc import Iterator
from dataclasses import dataclass

# a list's item: an indented word, or an option, two spaces or more, and its description
ITEM = re.compile(r"^( *)(\S(?:.*?\S)??) {2,}(\S.*)$")
OPTION = re.compile(r"^ *-\S.*$")
HEADING = re.compile(r"^([A-Za-z][A-Za-z ]*):$")
USAGE = re.compile(r"^usage: *", re.IGNORECASE)
SENTENCE = re.compile(r"(.*?)(?:[.;:](?:\s|$)|$)", re.DOTALL)
NAMES = {"positional arguments": "ARGUMENTS", "example": "EXAMPLES"}


@dataclass(frozen=True)
class Edition:
    """What the foot of each page shows."""

    version: str
    moment: int

    def day(self) -> str:
        """The day of the release."""
        return time.strftime("%Y-%m-%d", time.gmtime(self.moment))


@dataclass(frozen=True)
class Help:
    """What --help prints, in its parts."""

    synopsis: str
    title: str
    paragraphs: tuple[str, ...]


def escaped(line: str) -> str:
    """A line that roff prints as it is."""
    line = line.replace("\\", "\\e").replace("-", "\\-").replace("`", "\\(ga")
    return f"\\&{line}" if line[:1] in (".", "'") else line


def read(text: str, command: str) -> Help:
    """The parts of what --help of this command printed."""
    parts = [part for part in re.split(r"\n[ \t]*\n", text.strip("\n")) if part.strip()]
    usage = next((part for part in parts if USAGE.match(part)), None)
    if usage is None:
        synopsis, parts[0] = split_docstring(parts[0], command)
    else:
        parts.remove(usage)
        synopsis = USAGE.sub("", joined(usage))
    return Help(synopsis, title_of(parts[0]), tuple(parts))


def split_docstring(first: str, command: str) -> tuple[str, str]:
    """The synopsis and the description of a docstring that begins with `name WORD..: does that`."""
    synopsis, colon, rest = first.partition(": ")
    if not colon or "\n\n" in synopsis:
        return command, first
    words = joined(synopsis).split(" ", 1)
    return " ".join([command, *words[1:]]), rest


def joined(text: str) -> str:
    """A text in one line."""
    return " ".join(text.split())


def title_of(paragraph: str) -> str:
    """The first sentence, for the head of a page and for whatis(1)."""
    match = SENTENCE.match(joined(paragraph))
    title = match[1].rstrip(" ,:") if match else ""
    return title[:1].lower() + title[1:] if title[1:2].islower() else title


def filled(lines: list[str]) -> Iterator[str]:
    """Text that roff breaks into lines by itself, and what is indented in it as it is."""
    is_indented = False
    for line in lines:
        if line.startswith("  ") != is_indented:
            is_indented = not is_indented
            yield from ((".RS 4", ".nf") if is_indented else (".fi", ".RE"))
        yield escaped(line.strip())
    if is_indented:
        yield from (".fi", ".RE")


def is_list(lines: list[str]) -> bool:
    """Whether lines are a list of words with descriptions."""
    first = lines[0]
    return bool(OPTION.match(first) or first.startswith("  ") and ITEM.match(first))


def listed(lines: list[str]) -> Iterator[str]:
    """A list of words, each with its description."""
    indent = len(lines[0]) - len(lines[0].lstrip())
    for line in lines:
        item, depth = ITEM.match(line), len(line) - len(line.lstrip())
        is_head = depth <= indent + 4 and (item or OPTION.match(line))
        if item and is_head:
            yield from (".TP", f".B {escaped(item[2])}", escaped(item[3]))
        elif is_head or depth == indent:
            yield from (".TP", f".B {escaped(line.strip())}")
        else:
            yield escaped(line.strip())


def rendered(lines: list[str]) -> Iterator[str]:
    """A paragraph in roff."""
    yield ".PP"
    yield from listed(lines) if is_list(lines) else filled(lines)


def sections(paragraphs: tuple[str, ...]) -> Iterator[str]:
    """The paragraphs, each below the heading that it belongs to."""
    now = "DESCRIPTION"
    yield f".SH {now}"
    for paragraph in paragraphs:
        lines = paragraph.split("\n")
        heading, lines = heading_of(lines, now)
        if heading != now:
            now = heading
            yield f".SH {now}"
        yield from rendered(lines) if lines else ()


def heading_of(lines: list[str], now: str) -> tuple[str, list[str]]:
    """The heading of a paragraph, and its lines without it."""
    if match := HEADING.match(lines[0]):
        name = match[1].lower()
        return NAMES.get(name, name.upper()), lines[1:]
    if lines[0].startswith("Status: "):
        return "EXIT STATUS", [lines[0].removeprefix("Status: "), *lines[1:]]
    if lines[0].startswith("Example: "):
        return "EXAMPLES", [lines[0].removeprefix("Example: ") + ":", *lines[1:]]
    if lines[0].startswith("-"):
        return "OPTIONS", lines
    return ("NOTES" if now in ("OPTIONS", "ARGUMENTS", "COMMANDS") else now), lines


def page(command: str, text: str, edition: Edition, also: list[str]) -> str:
    """The man page of a command, from what its --help printed."""
    name, said = command.replace(" ", "-"), read(text, command)
    head = f'.TH {escaped(name.upper())} 1 "{edition.day()}" "bozintar {edition.version}" Bozintar'
    lines = [head, ".SH NAME", escaped(f"{name} - {said.title}")]
    lines += [".SH SYNOPSIS", escaped(said.synopsis), *sections(said.paragraphs)]
    pages = ", ".join(f"\\fB{escaped(name)}\\fP(1)" for name in also)
    lines += [".SH SEE ALSO", *([f"{pages},"] if pages else [])]
    return "\n".join([*lines, "/usr/share/doc/bozintar/README.Debian"]) + "\n"
