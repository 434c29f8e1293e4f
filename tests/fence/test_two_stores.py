"""Two stores on one machine, as docs/SCALING.md has them set up: by the units of the package and
their settings. A reading of a device of each comes on MQTT."""

import os
import subprocess
import sys
from typing import Any

from bozintar.processes import HOST, Process, await_all, await_that, free_port

from tests.pilot.parts import Parts
from tests.pilot.whole import Dashboard

from .clusters import LONG, PILOT, Cluster, answers, await_said
from .units import Unit, read, settings_of, started

STORES = ("d00", "d01")
GATEWAY, APPLICATION = "00000000000000B1", 3


class City:
    """The machine: its settings, its folders, and what runs."""

    def __init__(self, parts: Parts, program: str):
        self.parts, self.program = parts, program
        self.ours, self.state, self.run = (parts.file(name) for name in ("etc", "state", "run"))
        self.cluster = Cluster(parts, count=1)
        await_that("etcd answers", lambda: answers(self.cluster.client()))
        self.settings = settings_of("stores.conf") | settings_of("bridges.conf")
        self.settings |= {"ETCD": self.cluster.option, "ETCD_WORDS": "", "KEEP_WORDS": ""}
        self.settings["BROKER"] = f"{HOST}:{parts.broker_port}"
        self.settings["UDP"] = f"{HOST}:{parts.udp_port}"
        self.settings["NETWORK"] = f"{HOST}:{free_port()}"
        words = self.settings["STORES_WORDS"].replace("/var/lib/", f"{self.state}/")
        self.settings |= {"STORES_WORDS": words, "GATEWAYS_WORDS": "--names 28"}
        os.mkdir(self.ours)
        parts.file("etc/gateways", f"{GATEWAY}\n")
        rows = [self.printed("play", "--device", "--meter", meter) for meter in (1, 2)]
        parts.file(f"etc/devices-{APPLICATION}.csv", "".join(rows))
        for row, name in zip(rows, STORES):
            parts.file(f"etc/{name}.csv", row)

    def printed(self, program: str, *words: Any) -> str:
        """What a program of the package prints, which ends well."""
        said = [sys.executable, str(PILOT / program), *map(str, words)]
        return subprocess.run(said, check=True, capture_output=True, text=True).stdout

    def stores(self, *words: Any) -> str:
        """A command of `stores`."""
        return self.printed("stores", *words, "--etcd", self.settings["ETCD"])

    def start(self, name: str, instance: str) -> Process:
        """Starts a unit."""
        names = [name.replace("@", f"-{instance}" if "@" in name else "").partition(".")[0]]
        names += ["bozintar-lists", f"bozintar-ask-{instance}"]
        for folder in [f"{top}/{one}" for top in (self.state, self.run) for one in names]:
            os.makedirs(folder, exist_ok=True)
        own = {"%i": instance, "%S": self.state, "%t": self.run, "%d": self.ours}
        own |= {"/var/lib/": f"{self.state}/", "/etc/bozintar": self.ours}
        own |= {"/usr/bin/lnsd": self.program, "/devices.csv": f"/devices-{APPLICATION}.csv"}
        own |= {
            "-g bozintar ": "",
            "-o bozintar ": "",
            "-o lnsd ": "",
            "chgrp bozintar-ask": "test -d",
        }
        settings = self.settings | {"LISTEN": f"{HOST}:{free_port()}"}
        return started(self.parts, Unit(name, own, settings))

    def make_store(self, name: str) -> None:
        """Makes a store, and claims its device."""
        net_id = f"0000{name[1:]}"
        file = f"{self.state}/bozintar-store-{name}/store"
        os.makedirs(os.path.dirname(file))
        self.stores("add", name, net_id)
        words = [self.program, "format", file, "--netid", net_id, "--slots", "8"]
        subprocess.run(words, check=True)
        self.stores("adopt", name, file)
        assert self.stores("claim", name, f"{self.ours}/{name}.csv") == (
            "claimed 1, before 0, refused 0\n"
        )


def test_two_stores(program: str) -> None:
    """From nothing to a reading of each device."""
    with Parts() as parts:
        city = City(parts, program)
        for name in STORES:
            city.make_store(name)
        city.start("bozintar-follow.service", "")
        keepers = [city.start("bozintar-store@.service", name) for name in STORES]
        lines = f"{city.state}/bozintar-follow/stores"
        are_served = lambda: len(read(lines).split()) == 6 and " -\n" not in read(lines)
        await_that("both stores are shown", are_served, LONG)
        parts.broker().start("running")
        with Dashboard(parts.broker_port) as dashboard:
            bridges(city)
            for meter in (1, 2):
                city.printed("play", "--udp", city.settings["UDP"], "--meter", meter, "--count", 1)
            found = lambda: {name: body for name, kind, body in dashboard.events if kind == "up"}
            await_all("a reading of each", lambda: len(found()) == 2, LONG)
            stores = [body["deviceInfo"]["store"] for _, body in sorted(found().items())]
            assert stores == list(STORES)
        for keeper in keepers:
            assert keeper.end(seconds=LONG) == 0


def bridges(city: City) -> None:
    """Starts the bridges, which have the devices added to their stores."""
    name = "bozintar-applications-mqtt@.service"
    instance = str(APPLICATION)
    applications = city.start(name, instance)
    for store in STORES:
        await_said(applications, f"{store}: 1 devices are there")
    gateways = city.start("bozintar-gateways-udp.service", "")
    await_said(gateways, "listens on")
    router = city.start("bozintar-router.service", "")
    await_said(router, f"listens on {city.settings['NETWORK']} for 2 stores")
