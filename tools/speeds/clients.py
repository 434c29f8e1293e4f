"""Clients that ask for something durable, each a process of its own, of lnsd and of PostgreSQL: one
loop for both, which sends bytes that were made before and takes bytes of a known length."""
import gc
import multiprocessing
import socket
import struct
import time
from array import array

import bozintar.load
from bozintar import wire
from bozintar.links import Application
from bozintar.processes import Failed

# tags of one length, so that all answers have one
FIRST_TAG = 1_000_000
ITEM = "000102030405060708090A0B"
# what a device's queue takes, except one
ITEMS = 15
INSERT = b"INSERT INTO uplinks VALUES ($1, 1, $2, 7, '\\x%s', 177, 868100000, 5, -20, -95)"
# PostgreSQL's oid of a BIGINT
BIGINT = 20


def message(kind, *parts):
    """A message of PostgreSQL's protocol."""
    body = b"".join(parts)
    return kind + struct.pack("!i", len(body) + 4) + body


# the row is bound, it is there, and the transaction is done
DONE = message(b"2") + message(b"C", b"INSERT 0 1\0") + message(b"Z", b"I")


class OfLnsd:
    """A client of lnsd: its items are for devices that are its own."""

    def __init__(self, address, number, clients, devices):
        names = [bozintar.load.dev_eui(device) for device in range(number, devices, clients)]
        asked = [(name, FIRST_TAG + tag) for tag in range(ITEMS) for name in names]
        self.requests = [wire.request(f"queue {name} {tag} 7 u {ITEM}") for name, tag in asked]
        answers = (f"\x13queued {name} {tag}".encode() for name, tag in asked)
        self.answers = b"".join(map(wire.framed, answers))
        self.length = len(self.answers) // len(asked)
        self.link = Application(address, number)
        self.socket = self.link.socket
        self.link.asks("hello")
        if self.link.hears() != "refused 51":
            raise Failed("a line that is no request was answered otherwise")

    def close(self):
        self.link.close()


class OfPostgres:
    """A client of PostgreSQL. Each request is a transaction of its own, one prepared INSERT."""

    def __init__(self, address, number, clients, devices):
        count = ITEMS * devices // clients
        rows = ((sent % devices, sent) for sent in range(number * count, number * count + count))
        self.requests = [self.bound(str(device), str(counter)) for device, counter in rows]
        self.answers, self.length = DONE * count, len(DONE)
        self.socket = socket.create_connection(address)
        self.socket.setsockopt(socket.IPPROTO_TCP, socket.TCP_NODELAY, 1)
        words = b"user\0lnsd\0database\0postgres\0\0"
        self.say(struct.pack("!ii", len(words) + 8, 3 << 16) + words)
        types = struct.pack("!hii", 2, BIGINT, BIGINT)
        insert = INSERT % ITEM.encode()
        self.say(message(b"P", b"s\0", insert, b"\0", types) + message(b"S"))

    def say(self, said):
        """Says something, and takes all up to the server's word that it is ready."""
        self.socket.sendall(said)
        came = b""
        while not came.endswith(message(b"Z", b"I")):
            piece = self.socket.recv(65536)
            came += piece
            if not piece or b"FATAL" in came or b"ERROR" in came:
                raise Failed(f"PostgreSQL says {came[-200:]!r}")

    @staticmethod
    def bound(*values):
        """The message by which these values become a row."""
        texts = b"".join(struct.pack("!i", len(value)) + value.encode() for value in values)
        bind = message(b"B", b"\0s\0", struct.pack("!hh", 0, 2), texts, struct.pack("!h", 0))
        return bind + message(b"E", b"\0", struct.pack("!i", 0)) + message(b"S")

    def close(self):
        self.socket.sendall(message(b"X"))
        self.socket.close()


def asked(client, window, seconds):
    """Asks for so long, with at most this many unanswered requests; the ns that each answer took,
    and when the first was asked and the last one answered."""
    begun, waits, came = array("q"), array("q"), []
    sent = done = received = 0
    first = now = time.monotonic_ns()
    end = first + int(1e9 * seconds)
    while True:
        few = min(window - (sent - done), len(client.requests) - sent) if now < end else 0
        if few:
            client.socket.sendall(b"".join(client.requests[sent : sent + few]))
            begun.extend([now] * few)
            sent += few
        if done == sent:
            break
        came.append(client.socket.recv(65536))
        now = time.monotonic_ns()
        received += len(came[-1])
        if not came[-1]:
            raise Failed("the server has closed the connection")
        answered = received // client.length
        waits.extend(now - start for start in begun[done:answered])
        done = answered
    if b"".join(came) != client.answers[: done * client.length]:
        raise Failed("another answer came")
    return waits, first, now


def one(kind, words, window, seconds, barrier, result):
    """A client's process."""
    try:
        client = kind(*words)
        client.socket.settimeout(30)
        gc.disable()
        barrier.wait(60)
        result.send(asked(client, window, seconds))
        client.close()
    except Exception as why:  # the process that started it gets it
        barrier.abort()
        result.send(f"{type(why).__name__}: {why}")


def side_by_side(kind, address, clients, window, seconds, devices):
    """This many clients ask; how long each answer took, and how long all of it, in ns."""
    context = multiprocessing.get_context("fork")
    barrier, ends, processes = context.Barrier(clients), [], []
    for number in range(clients):
        result, end = context.Pipe(duplex=False)
        words = (address, number, clients, devices)
        how = (kind, words, window, seconds, barrier, end)
        processes.append(context.Process(target=one, args=how, daemon=True))
        processes[-1].start()
        ends.append(result)
    found = [end.recv() if end.poll(120) else "a client is silent" for end in ends]
    for process in processes:
        process.join(10)
        process.kill()
    for outcome in found:
        if isinstance(outcome, str):
            raise Failed(outcome)
    waits = array("q")
    for outcome in found:
        waits.extend(outcome[0])
    return waits, max(outcome[2] for outcome in found) - min(outcome[1] for outcome in found)
