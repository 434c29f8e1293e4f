"""The order in which functions of lnsd's threads make the calls that matter to other threads.

In wakeups.pml and not_modelled.txt the order of a function follows its name: its calls of the words
of all orders, and of SHARED, with the loops and branches around them. A call has its constants as
arguments. `let` stands before a lock whose guard has a name, so that it is held on.
"""

import re
from pathlib import Path

from ..running import ROOT

FOLDER = Path(__file__).parent
# the calls of parkers, locks and atomics; these stand with their field
SHARED = set("let lock drop park park_timeout unpark load store swap".split())
SHARED |= {"fetch_add", "fetch_sub", "fetch_max"}
BRANCH = r"(?:if|else|match|for|while|loop|&&|\|\|)"
# a call: `!`, the names before the function, the function, its arguments; or what is around calls
PARTS = re.compile(
    r"(!?)((?:\b\w+\s*\.\s*)*)\b(\w+)\((?=([^()]*))"
    rf"|\b(?:{BRANCH}|return|break|continue)\b|&&|\|\||[{{}}]"
)
# A lock whose guard has a name; a block in which nothing is left.
HELD = re.compile(r"\blet\s+(?:mut\s+)?(?!_\b)\w+\s*=(?=[^;=]*\.lock\([\w.]+\);)")
EMPTY = re.compile(rf"(?:{BRANCH} )+\{{ \}} |(?:(?<=[{{}}] )|^)\{{ \}} ")


def written() -> dict[tuple[str, str], str]:
    """The functions that are named, each by `crate/file` and `Type::function`, and their orders."""
    text = "".join((FOLDER / name).read_text() for name in ("wakeups.pml", "not_modelled.txt"))
    found: dict[tuple[str, str], str] = {}
    for file, name, order in re.findall(r"\* (\w+/\w+): ([\w:]*\w)(.*(?:\n *\*  .*)*)", text):
        order = " ".join(re.sub(r"\n *\*|\*/", "", order).lstrip(":").split())
        assert order in ("", found.setdefault((file, name), order)), f"two orders of {name}"
    return found


def body_of(file: str, name: str) -> str:
    """The body of a function, without comments, texts and clauses."""
    text = (ROOT / f"crates/{file.replace('/', '/src/')}.rt").read_text()
    text = re.sub(r'//.*|"[^"\n]*"', "", text)
    kind, _, function = name.rpartition("::")
    indent = "    " if kind else ""
    if kind:
        blocks = re.findall(rf"^impl\b[^{{]*\b{kind}\b[^{{]*\{{$.*?^\}}$", text, re.M | re.S)
        text = "".join(blocks)
    # the body follows what has no brace, or clauses and a line with the brace alone
    head = rf"^{indent}(?:pub\S* )?fn {function}\b(?:[^{{]*|.*?\n{indent})\{{\n"
    found = re.findall(rf"{head}(.*?)^{indent}\}}$", text, re.M | re.S)
    assert len(found) == 1, f"{file} has {len(found)} functions {name}"
    # clauses of closures; the fields of values are no block
    body = re.sub(r"\bensures \{[^{}]*\}", "", found[0])
    return re.sub(r"([A-Z]\w* )\{([^{}]*)\}", r"\1(\2)", body)


def made(file: str, name: str, words: set[str]) -> str:
    """The order of a function in the code."""
    found = []
    for part in PARTS.finditer(HELD.sub("let()", body_of(file, name))):
        denied, path, function, values = part.groups()
        if not function:
            found.append(part[0])
            continue
        word = ".".join([*re.findall(r"\w+", path)[1:][-1:], function])
        if function not in SHARED and word not in words:
            word = function
        if function in SHARED or word in words:
            values = ",".join(re.findall(r"(?<=::)[A-Z]\w*|\btrue|\bfalse|\b\d+", values))
            found.append(denied + word + (f"({values})" if values else ""))
    text, longer = " ".join([*found, ""]), ""
    while text != longer:
        longer, text = text, EMPTY.sub("", text)
    return text.strip()


def test_orders() -> None:
    """Each function that is named makes these calls in its order."""
    orders = written()
    assert orders, "no function is named"
    words = {re.sub(r"!|\(.*", "", word) for order in orders.values() for word in order.split()}
    wrong = {name: made(*name, words) for name in orders}
    wrong = {name: order for name, order in wrong.items() if order != orders[name]}
    assert not wrong, wrong
