"""Readings of one device, session and counter that differ: the network's store is an older one, or
somebody else publishes."""

import json
import os
import random
from typing import Any

import pytest
from bozintar.processes import HOST, PATIENCE, await_that

from .field import counts_in
from .parts import Parts
from .whole import Dashboard

FIRST, SECOND = ({"devEui": f"70b3d57ed000000{number}"} for number in (1, 2))
READING: dict = {"time": "today", "joinNonce": 1, "fPort": 7, "data": "AA==", "deviceInfo": FIRST}
MANY, OFTEN = 1000, "from bozintar import counts; counts.EVERY = 0.2"
# how a stored reading comes once more: one that is the same, some that differ, some that are new
SAME: tuple[dict, ...] = ({"time": "later", "delayed": True}, {"data": "AQ==", "recovered": True})
DIFFERENT: tuple[dict, ...] = ({"data": "AQ=="}, {"data": "AQ=="}, {"fPort": 8})
NEW: tuple[dict, ...] = ({"joinNonce": 2}, {"deviceInfo": SECOND, "data": "AQ=="})


@pytest.mark.parametrize("killed", ["", "readings", "mosquitto"])
def test_readings_that_differ(parts: Parts, killed: str) -> None:
    """A thousand readings that come late, in any order, are the same as before. One that differs is
    counted, also if a part was killed meanwhile."""
    file, at = parts.file("readings.prom"), f"{HOST}:{parts.broker_port}"
    words = ("--db", parts.file("db"), "--broker", at, "--counts", file, "--application", "3")
    started = {"mosquitto": parts.broker().start("running")}
    started["readings"] = parts.own("readings", *words, after=OFTEN).start("connected")

    def say(*counters: int, **more: Any) -> None:
        bodies = [json.dumps({**READING, "fCnt": counter, **more}) for counter in counters]
        topic = "application/3/device/70b3d57ed0000001/event/up"
        sent = [dashboard.client.publish(topic, body, qos=1) for body in bodies]
        sent[-1].wait_for_publish(PATIENCE)

    def is_stored(last: int, count: int) -> bool:
        say(last)  # again, since a broker that was killed may have lost it
        return os.path.exists(file) and counts_in(file)["readings_stored"] == count

    with Dashboard(parts.broker_port) as dashboard:
        say(*range(MANY))
        await_that("all are stored", lambda: is_stored(MANY, MANY + 1))
    if killed:
        started[killed].kill()
        os.remove(file)
        started[killed].start({"readings": "connected", "mosquitto": "running"}[killed])
    stored = 1 if killed == "readings" else MANY + 2
    with Dashboard(parts.broker_port) as dashboard:
        await_that("it hears", lambda: is_stored(MANY + 1, stored))
        say(*random.Random(102).sample(range(MANY), MANY))
        for more in (*SAME, *DIFFERENT, *NEW):
            say(5, **more)
        await_that("counted", lambda: is_stored(MANY + 1, stored + len(NEW)))
    counts = counts_in(file)
    assert counts["readings_repeated"] >= MANY + len(SAME) + len(DIFFERENT)
    assert counts["readings_differing"] == len(DIFFERENT)
