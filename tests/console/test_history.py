"""What the console keeps on its disk."""

import sqlite3
import threading
from pathlib import Path

import pytest
from console.history import NAME, History, Row


def test_end_while_a_row_is_written(tmp_path: Path, monkeypatch: pytest.MonkeyPatch) -> None:
    """The file is closed after the thread has written what it was about to write, and the rest is
    written first."""
    history, begun, may_end = History(str(tmp_path / "db")), threading.Event(), threading.Event()
    write = history.write

    def slow(rows: list[Row]) -> None:
        if not begun.is_set():
            begun.set()
            assert may_end.wait(60)
        write(rows)

    monkeypatch.setattr(history, "write", slow)
    history.add(NAME, "70B3D57ED0000001", "roof")
    writer = threading.Thread(target=history.write_waiting)
    writer.start()
    assert begun.wait(60)
    history.add(NAME, "70B3D57ED0000002", "cellar")
    # what ends the program, a little later
    threading.Timer(0.1, may_end.set).start()
    history.close()
    writer.join(60)
    found = sqlite3.connect(tmp_path / "db").execute("SELECT name FROM names ORDER BY eui")
    assert found.fetchall() == [("roof",), ("cellar",)]
    history.write_waiting()  # a thread that comes too late does nothing
