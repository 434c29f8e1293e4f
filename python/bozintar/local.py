"""Unix sockets on which programs of this machine are served."""

import os
import socket
import stat

from .words import stop


def listener(path: str) -> socket.socket:
    """A socket that its owner and its group may write to. One that a program left when it was
    killed is removed; one that a program still serves stays, and this program ends."""
    made = socket.socket(socket.AF_UNIX)
    try:
        made.connect(path)
    except OSError:
        made.close()
    else:
        stop(f"{path} is served by another program already")
    try:
        if os.path.lexists(path):
            if not stat.S_ISSOCK(os.lstat(path).st_mode):
                stop(f"{path} is there already, and is no socket")
            os.unlink(path)
        made = socket.socket(socket.AF_UNIX)
        before = os.umask(0o117)
        try:
            made.bind(path)
        finally:
            os.umask(before)
        return made
    except OSError as why:
        stop(f"{path} can't be made: {why.strerror or why}")
