"""What the package takes from a clone, into a folder of the trial's own: files that git knows
alone, with modes that don't depend on the clone's."""

import shutil
import stat
import subprocess
from pathlib import Path

import pytest
from bozintar.processes import Failed
from making import tree
from making.manual import Edition
from making.tree import DOC, LIB, UNITS_TO, Tree

from .parts import PILOT

TOP = PILOT.parent
FOLDERS = ("docs", "packaging", "pilot", "python")
FILES = ("CHANGELOG.md", "README.md", "SECURITY.md")
SECRET = "8F3A90C1D2E4B5A697887766554433E1"
# what an operator or a developer may leave in the clone, and with which mode
STRAYS = {
    "pilot/devices.csv": 0o644,
    "pilot/stray.conf": 0o644,
    "pilot/authority/ca.key": 0o600,
    "pilot/secure/ca.key": 0o600,
    "pilot/bridges/keys.py": 0o644,
    "packaging/systemd/stray.service": 0o644,
    "packaging/systemd/stunnel@bozintar.service.d/stray.conf": 0o600,
    "packaging/files/stray.conf": 0o600,
    "python/keys.py": 0o644,
    "python/bozintar/keys.py": 0o600,
    "docs/stray.md": 0o644,
}
LINKS = [
    *("pilot/shadow", "pilot/secure/shadow", "pilot/bridges/shadow.py"),
    *("packaging/systemd/shadow.service", "python/bozintar/shadow.py"),
]
# what is for a clone alone
OF_THE_CLONE = {Path("pilot/install"), Path("pilot/speed")}


class Clone:
    """A clone with an umask, in which somebody has left files and links, and what is packed of
    it."""

    def __init__(self, folder: Path, umask: int) -> None:
        self.top, self.to = folder / "clone", folder / "to"
        for name in FOLDERS:
            ignored = shutil.ignore_patterns("__pycache__")
            shutil.copytree(TOP / name, self.top / name, ignore=ignored)
        for name in FILES:
            shutil.copy(TOP / name, self.top)
        self.own = self.files()
        for own in self.own:
            (self.top / own).chmod((0o777 if is_program(self.top / own) else 0o666) & ~umask)
        for words in (("init", "-q"), ("add", "-A")):
            subprocess.run(["git", "-C", str(self.top), *words], check=True)
        self.leave(folder / "secret")

    def leave(self, secret: Path) -> None:
        """Leaves what git doesn't know."""
        secret.write_text(SECRET, encoding="utf-8")
        for name, mode in STRAYS.items():
            stray = self.top / name
            stray.parent.mkdir(exist_ok=True)
            stray.write_text(SECRET, encoding="utf-8")
            stray.chmod(mode)
        for name in LINKS:
            (self.top / name).symlink_to(secret)
        (self.top / "pilot/linked").symlink_to(self.top / "pilot/authority")

    def files(self) -> set[Path]:
        """The files of the clone."""
        return {file.relative_to(self.top) for file in self.top.rglob("*") if file.is_file()}

    def pack(self) -> None:
        """Puts what the package takes from the clone, except the programs of the server."""
        made = Tree(self.top, self.to, Edition("0.1.0", 0))
        tree.put_python(made)
        tree.put_units(made)
        tree.put_documents(made)

    def came(self, below: str) -> set[Path]:
        """The files that came below a folder."""
        folder = self.to / below
        return {file.relative_to(folder) for file in folder.rglob("*") if not file.is_dir()}


def is_program(file: Path) -> bool:
    """Whether the system can run a file."""
    return file.read_bytes().startswith(b"#!")


@pytest.fixture(params=(0o022, 0o077), ids=("umask 022", "umask 077"))
def clone(request: pytest.FixtureRequest, folder: Path) -> Clone:
    """A clone, made under an umask."""
    return Clone(folder, request.param)


@pytest.fixture
def packed(clone: Clone) -> Clone:
    """A clone of which the package has taken its files."""
    clone.pack()
    return clone


def is_packed(top: Path, name: Path) -> bool:
    """Whether a file of the clone is one of the programs and modules of the package, or one that
    the console's site is made of."""
    if name.is_relative_to("pilot/console/pages") or name.is_relative_to("pilot/console/static"):
        return True
    is_python = name.suffix == ".py" or b"python3" in (top / name).read_bytes().split(b"\n")[0]
    return name.parts[0] in ("pilot", "python") and is_python and name not in OF_THE_CLONE


@pytest.mark.pages
def test_what_is_packed(packed: Clone) -> None:
    """The programs, their modules, units and documents come; what lies beside them doesn't."""
    assert packed.came(LIB) == {name for name in packed.own if is_packed(packed.top, name)}
    units = Path("packaging/systemd")
    due = {name.relative_to(units) for name in packed.own if name.is_relative_to(units)}
    assert packed.came(UNITS_TO) == due
    confs = {f"{name}.conf" for name in ("lnsd", "bridges", "stores", "console", "door")}
    assert packed.came("etc/bozintar") == set(
        map(Path, confs | {"gateways", "names", "adr-except"})
    )
    assert {str(name) for name in packed.came(DOC)} >= {"README.Debian", "examples/mosquitto.acl"}


@pytest.mark.pages
def test_nothing_private(packed: Clone) -> None:
    """No file that came is a link, or has what somebody left in the clone."""
    assert packed.came("")
    for name in sorted(packed.came("")):
        file = packed.to / name
        assert not file.is_symlink(), name
        assert SECRET not in file.read_text(encoding="utf-8"), name


@pytest.mark.pages
def test_modes(packed: Clone) -> None:
    """Programs can be run, and all users can read all files; postinst closes /etc/bozintar."""
    assert packed.came("")
    for name in sorted(packed.came("")):
        file = packed.to / name
        due = 0o755 if is_program(file) else 0o644
        assert oct(stat.S_IMODE(file.stat().st_mode)) == oct(due), name
    script = (TOP / "packaging/debian/bozintar.postinst").read_text(encoding="utf-8")
    assert "chmod 0750 /etc/bozintar\n" in script


@pytest.mark.parametrize("name", ("pilot/alerts.yml", "pilot/bridges", "python/bozintar"))
def test_link_in_place(clone: Clone, name: str) -> None:
    """A link in the place of a file, or of a folder, isn't followed: no package is made."""
    place, aside = clone.top / name, clone.top.parent / "aside"
    place.rename(aside)
    place.symlink_to(aside)
    with pytest.raises(Failed, match="symbolic link"):
        clone.pack()
