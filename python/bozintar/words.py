"""The words of a command: its options and its help, and how it ends."""

import argparse
import os
import re
import signal
import sys
from collections.abc import Callable, Iterable
from dataclasses import dataclass
from types import FrameType
from typing import Any, NoReturn

from .logs import ERROR, complain

EUI = re.compile(r"[0-9A-Fa-f]{16}")


class Layout(argparse.RawDescriptionHelpFormatter):
    """The layout of --help: the text as it is written, and 100 columns on any terminal."""

    def __init__(self, prog: str):
        super().__init__(prog, max_help_position=24, width=100)


class Words(argparse.ArgumentParser):
    """The words of a command. --help prints the usage, the text, the help of each option, and the
    paragraph of the text that begins with "Status:". A wrong word is one line, and status 2."""

    def __init__(self, text: str | None):
        above, _, status = (text or "").strip().partition("\n\nStatus:")
        below = f"Status:{status}" if status else None
        super().__init__(
            prog=name(),
            description=above,
            epilog=below,
            formatter_class=Layout,
            allow_abbrev=False,
        )

    def error(self, message: str) -> NoReturn:
        stop(f"{message}; see {self.prog} --help", 2)


def name() -> str:
    """The name of the command."""
    return os.path.basename(sys.argv[0])


def is_program(path: str) -> bool:
    """Whether a file is there and can be run."""
    return os.path.isfile(path) and os.access(path, os.X_OK)


@dataclass(frozen=True)
class Address:
    """A host and a port."""

    host: str
    port: int

    @classmethod
    def read(cls, text: str) -> "Address":
        """HOST:PORT, an IPv6 host in brackets."""
        host, _, port = text.rpartition(":")
        host = host.strip("[]")
        is_port = port.isascii() and port.isdigit() and 0 < int(port) < 65536
        if not (host and is_port and is_name(host)):
            raise argparse.ArgumentTypeError(f"{text} is no HOST:PORT")
        return cls(host, int(port))

    def __str__(self) -> str:
        return f"[{self.host}]:{self.port}" if ":" in self.host else f"{self.host}:{self.port}"


def is_name(host: str) -> bool:
    """Whether a host can be looked up: Python has an error of its own, which isn't one of the
    system, for a name with an empty part or one of more than 63 letters."""
    try:
        host.encode("idna")
    except UnicodeError:
        return False
    return True


def eui(text: str) -> str:
    """An EUI of 16 hex digits, in upper case."""
    if not EUI.fullmatch(text):
        raise argparse.ArgumentTypeError(f"{text} is no EUI of 16 hex digits")
    return text.upper()


def between(least: int, most: int) -> Callable[[str], int]:
    """The reader of a number from `least` to `most`."""

    def read(text: str) -> int:
        if re.fullmatch(r"-?[0-9]{1,12}", text) and least <= int(text) <= most:
            return int(text)
        raise argparse.ArgumentTypeError(f"{text} is no number from {least} to {most}")

    return read


def seconds(least: float, most: float) -> Callable[[str], float]:
    """The reader of a number of seconds, with a fraction or without."""

    def read(text: str) -> float:
        if re.fullmatch(r"[0-9]{1,9}(\.[0-9]{1,9})?", text) and least <= float(text) <= most:
            return float(text)
        raise argparse.ArgumentTypeError(f"{text} is no number of seconds from {least} to {most}")

    return read


def folder(text: str) -> str:
    """A folder that is there."""
    if not os.path.isdir(text):
        raise argparse.ArgumentTypeError(f"there is no folder {text}")
    return os.path.abspath(text)


def stop(why: str, status: int = 1) -> NoReturn:
    """Ends with a line on standard error."""
    complain(f"{name()}: {why}", ERROR)
    sys.exit(status)


def end_on(numbers: Iterable[int]) -> None:
    """Lets these signals end the program like an error, so that it tidies up."""

    def end(number: int, _frame: FrameType | None) -> NoReturn:
        sys.exit(128 + number)

    for number in numbers:
        signal.signal(number, end)


def end_with(
    main: Callable[[], int], signals: Iterable[int] = (signal.SIGTERM, signal.SIGHUP)
) -> NoReturn:
    """Ends with the status of `main`, without a traceback of an interrupt, a missing file, or
    output that can't be written. These signals end the program, and it tidies up."""
    end_on(signals)
    try:
        status = status_of(main)
        if sys.stdout:
            sys.stdout.flush()
        sys.exit(status)
    except KeyboardInterrupt:
        forget_unwritten()
        stop("interrupted", 130)
    except BrokenPipeError:
        forget_unwritten()
        sys.exit(141)
    except OSError as error:
        forget_unwritten()
        stop(f"{error.filename or 'the system'}: {error.strerror or error}")


def status_of(main: Callable[[], int]) -> Any:
    """The status of `main`, also if it ends by itself, for example after --help, whose text isn't
    written yet."""
    try:
        return main()
    except SystemExit as end:
        return end.code


def forget_unwritten() -> None:
    """Writes what waits for standard output, and drops what can't be written: else Python tries it
    at the very end, and prints half a traceback and ends with a status of its own."""
    try:
        if sys.stdout:
            sys.stdout.flush()
    except OSError:
        os.dup2(os.open(os.devnull, os.O_WRONLY), sys.stdout.fileno())
