"""Brokers that are lost: a front of two, and a node of RabbitMQ."""

import base64
import json
import os
import time
from pathlib import Path
from typing import Any

from bozintar import load, mqtt
from bozintar.processes import HOST, Process, Processes, await_that, command, free_port
from bozintar.words import Address

from . import loads
from .city import LONG, PILOT
from .fleet import Heard
from .loads import APPLICATION, Notes, Other, paced
from .trials import BEFORE, Load, Trial

# how long all may be silent after a front is killed, in seconds; uplinks a second of all stores,
# and for how long after the loss
FRONT_SILENCE, RATE, AFTER = 1.0, 100, 15.0
# the numbers of the gateways that come by fronts: no other link has their names
BASE = 1000
RABBIT = "/usr/lib/rabbitmq/bin/rabbitmq-server"
NODES, STARTING = 3, 240.0
COOKIE = "WHOLESYSTEM"
# one scheduler each, which doesn't spin
ERLANG = "+S 1:1 +sbwt none +sbwtdcpu none +sbwtdio none"
WITHOUT_RABBIT = "left out: Debian's rabbitmq-server isn't installed"


class Client:
    """A client of several brokers, or of the nodes of one."""

    def __init__(self, name: str, ports: list[int], is_kept: bool = False):
        self.client = mqtt.client(name, is_kept)
        self.client.max_inflight_messages_set(1000)
        self.nodes = mqtt.Nodes(self.client, [Address(HOST, port) for port in ports])
        self.client.on_disconnect = lambda *_: self.nodes.lost()
        self.client.on_connect_fail = lambda *_: self.nodes.turn()

    def start(self) -> None:
        """Connects, in a thread of the library."""
        self.nodes.connect()
        self.client.loop_start()


# fronts


def event(heard: Heard, eui: str) -> str:
    """What ChirpStack's gateway bridge publishes of an uplink."""
    lora = {"bandwidth": 125000, "spreadingFactor": 7, "codeRate": "CR_4_5"}
    context = base64.b64encode(os.urandom(8)).decode()
    rx = {"gatewayId": eui, "rssi": -80, "snr": 7, "context": context, "crcStatus": "CRC_OK"}
    tx = {"frequency": 868_100_000, "modulation": {"lora": lora}}
    payload = base64.b64encode(heard.frame).decode()
    return json.dumps({"phyPayload": payload, "txInfo": tx, "rxInfo": rx})


def by_fronts(ports: list[int], plan: list[Heard], gateways: int, notes: Notes) -> Other:
    """What sends uplinks as gateways whose gateway bridges have all fronts."""

    def run(over: Any, count: Any) -> None:
        euis = [load.gateway_eui(BASE + number).lower() for number in range(gateways)]
        clients = [Client(f"station-{eui}", ports) for eui in euis]
        for one in clients:
            one.start()
        await_that("all are connected", lambda: all(one.client.is_connected() for one in clients))
        count.value = gateways
        for place in paced(len(plan), RATE, notes.sent):
            heard = plan[place]
            topic = f"eu868/gateway/{euis[heard.gateway]}/event/up"
            clients[heard.gateway].client.publish(topic, event(heard, euis[heard.gateway]), 1)
        count.value = -1
        over.wait()
        for one in clients:
            one.client.disconnect()

    return Other(run)


class Front:
    """A mosquitto with the settings of a front, and gateways-mqtt beside it."""

    def __init__(self, trial: Trial, at: int):
        processes, self.port = trial.city.processes, free_port()
        text = (PILOT / "front.conf").read_text(encoding="utf-8")
        text = text.replace("listener 1883 127.0.0.1", f"listener {self.port} {HOST}")
        conf = processes.file(f"front{at}.conf", "user root\n" * (os.getuid() == 0) + text)
        self.broker = processes.process(f"front{at}", command("mosquitto"), "-v", "-c", conf)
        self.broker.start("running")
        euis = [load.gateway_eui(BASE + number) for number in range(trial.given.gateways)]
        gateways = processes.file("front-gateways", "\n".join(euis) + "\n")
        words: tuple = ("--stores", trial.city.list, "--names", 28, "--gateways", gateways)
        words += ("--broker", f"{HOST}:{self.port}")
        self.bridge = trial.city.own("gateways-mqtt", *words, name=f"bridge{at}")
        self.bridge.start("connected to")

    def kill(self) -> None:
        """Kills both."""
        self.broker.kill()
        self.bridge.kill()


def front(trial: Trial) -> None:
    """A front is killed, which all gateways use."""
    city, table = trial.city, trial.table
    fronts = [Front(trial, at) for at in range(2)]
    notes, plan = trial.plan(city.stores, RATE, BEFORE + AFTER, BASE)
    with loads.listening(city.list, notes) as listener:
        listener.await_count("the application is linked to all stores", city.stores)
        ports = [one.port for one in fronts]
        with by_fronts(ports, plan, trial.given.gateways, notes) as sender:
            sender.await_count("all gateways are connected", trial.given.gateways)
            time.sleep(BEFORE)
            begun = time.monotonic_ns()
            fronts[0].kill()
            outcome = Load(notes, sender).outcome()
    silence = outcome.silence_of_all(begun)
    table.below("silence of all after their front was killed", silence, FRONT_SILENCE)
    table.add("uplinks that were lost", f"{outcome.lost()} of {len(outcome.came)}")
    table.equal("delivered twice", outcome.twice, 0)
    fronts[1].kill()


# RabbitMQ


class Node:
    """A node of RabbitMQ, with the settings of pilot/rabbitmq.conf."""

    def __init__(self, processes: Processes, at: int, names: list[str], epmd: int):
        self.port, name = free_port(), names[at]
        folder = Path(processes.file(f"rabbit{at}"))
        folder.mkdir()
        conf = (PILOT / "rabbitmq.conf").read_text(encoding="utf-8")
        conf = conf.replace("10.0.0.1:1883", f"{HOST}:{self.port}")
        conf = conf.replace("127.0.0.1:5672", f"{HOST}:{free_port()}")
        for number, of in enumerate(names, 1):
            conf = conf.replace(f"rabbit@m{number}", of)
        # the user that the file's own text has its operator make
        conf += "default_user = bozintar\ndefault_pass = PASSWORD\n"
        (folder / "rabbitmq.conf").write_text(conf, encoding="utf-8")
        (folder / "plugins").write_text("[rabbitmq_mqtt].\n", encoding="utf-8")
        self.env = {**os.environ, "HOME": os.path.dirname(folder), "RABBITMQ_NODENAME": name}
        self.env |= {"ERL_EPMD_PORT": str(epmd), "ERL_EPMD_ADDRESS": HOST}
        self.env |= {"RABBITMQ_SERVER_ADDITIONAL_ERL_ARGS": ERLANG, "PYTHONUNBUFFERED": ""}
        self.env |= {"RABBITMQ_DIST_PORT": str(free_port())}
        # so that its script becomes the node, and starts none
        self.env |= {"RUNNING_UNDER_SYSTEMD": "true"}
        files = {"CONFIG_FILE": "rabbitmq.conf", "ENABLED_PLUGINS_FILE": "plugins"}
        files |= {"MNESIA_BASE": "data", "LOG_BASE": "logs", "PID_FILE": "pid"}
        self.env |= {f"RABBITMQ_{what}": str(folder / file) for what, file in files.items()}
        self.process: Process = processes.process(f"rabbit{at}-node", RABBIT)

    def start(self) -> None:
        """Starts it, and waits until it serves."""
        self.process.start(env=self.env)
        await_that("a node serves", lambda: self.process.has_said("completed with"), STARTING)


def nodes_of(processes: Processes) -> list[Node]:
    """Three nodes, which serve. Erlang's own registry of names is one of this tool's."""
    epmd = free_port()
    words = (command("epmd"), "-port", epmd, "-address", HOST)
    processes.process("epmd", *words).start()
    cookie = Path(processes.file(".erlang.cookie", COOKIE))
    cookie.chmod(0o400)
    names = [f"whole{at}@localhost" for at in range(NODES)]
    made = [Node(processes, at, names, epmd) for at in range(NODES)]
    for node in made:
        node.start()
    return made


def reading(ports: list[int], notes: Notes) -> Other:
    """What reads the events of the application, in a session that is kept."""

    def take(_client: Any, _data: Any, message: Any) -> None:
        body = json.loads(message.payload)
        payload = base64.b64decode(body["data"])
        notes.note(body["deviceInfo"]["devEui"].upper(), body["fCnt"], payload)

    def run(over: Any, count: Any) -> None:
        reader = Client("whole-reader", ports, is_kept=True)
        topic = f"application/{APPLICATION}/device/+/event/up"
        reader.client.on_message = take
        reader.client.on_connect = lambda client, *_: client.subscribe(topic, 1)
        reader.client.on_subscribe = lambda *_: setattr(count, "value", 1)
        reader.start()
        over.wait()
        reader.client.disconnect()

    return Other(run)


def rabbit(trial: Trial) -> None:
    """A node of RabbitMQ is killed, at which the bridge and the reader have begun."""
    city, table = trial.city, trial.table
    if not os.path.exists(RABBIT):
        table.add("a node of RabbitMQ is killed", WITHOUT_RABBIT)
        return
    nodes = nodes_of(city.processes)
    ports = [node.port for node in nodes]
    before = city.heard()
    notes, plan = trial.plan(city.stores, RATE, BEFORE + AFTER)
    words: tuple = ("--stores", city.list, "--application", APPLICATION)
    words += ("--broker", ",".join(f"{HOST}:{port}" for port in ports))
    with reading(ports, notes) as reader:
        reader.await_count("the reader has its topic", 1)
        bridge = city.own("applications-mqtt", *words).start("connected to the broker")
        are_linked = lambda: bridge.said().count(": linked to ") >= city.stores
        await_that("the application is linked to all stores", are_linked, LONG)
        with loads.by_wire(city.address, plan, trial.given.gateways, RATE, notes) as sender:
            time.sleep(BEFORE)
            begun = time.monotonic_ns()
            nodes[0].process.kill()
            outcome = Load(notes, sender).outcome()
        accepted = city.heard() - before
        bridge.end(seconds=LONG)
    read = len(outcome.came) - outcome.lost()
    table.add("sent; accepted by the stores; read", f"{len(plan)}; {accepted}; {read}")
    table.equal("accepted readings that were lost after a node was killed", accepted - read, 0)
    table.add("read twice", outcome.twice)
    table.add("the longest silence", f"{outcome.silence_of_all(begun):.2f} s")
    for node in nodes[1:]:
        node.process.kill()
