"""Each alert on made-up numbers, by Debian's promtool: it fires on its own, and no other does."""

import json
import re
import subprocess
from pathlib import Path
from typing import Any

import pytest
from bozintar.processes import command

from .parts import PILOT

DOCS = PILOT.parent / "docs"
RULES = (PILOT / "alerts.yml").read_text(encoding="utf-8")
ALERTS = re.findall(r"- alert: (\w+)", RULES)
# samples, the time between two of them, and the moment at which alerts are looked at: an alert may
# wait for two hours
COUNT, EVERY, MOMENT = 30, "5m", "2h30m"
FILE = 'node_textfile_mtime_seconds{file="/x/%s.prom"}'
LAST_COPY = 'lnsd_last_copy_seconds{gateway="00000000000000B%d"}'
OF_GATEWAY = 'pilot_gateway_%s{bridge="udp",gateway="00000000000000B1"}'
APPLICATION = '{application="3"}'
OF_STORE = 'pilot_store_%s{bridge="udp",store="d00"}'
CANT_JOIN = 'pilot_console_cant_join{reason="%s"}'
STORE_LINKED = 'pilot_applications_mqtt_store_linked{application="3",store="d00"}'


def steady(number: float) -> str:
    """A number that stays."""
    return f"{number}+0x{COUNT}"


def growing(each: float, first: float = 0) -> str:
    """A number that grows each minute by this much."""
    return f"{first}+{5 * each}x{COUNT}"


COUNTERS = {
    "pilot_gateways_udp": (
        *("not_sent", "too_many", "unknown_gateways", "closed_soon", "ports_moved", "unlinked"),
        *("caught_up", "out_of_time", "wrong_datagrams", "wrong_addresses"),
    ),
    "pilot_gateways_mqtt": (
        *("not_sent", "too_many", "unknown_gateways", "closed_soon", "unlinked", "caught_up"),
        *("out_of_time", "wrong_events"),
    ),
    "pilot_router": ("closed_soon", "unlinked", "caught_up", "unknown_gateways", "faulted"),
    "pilot_applications_mqtt": ("events_lost", "closed_soon", "wrong_commands", "fallen"),
    "pilot_readings": ("closed_soon", "differing"),
    "pilot_adr": ("closed_soon",),
    "pilot_door": ("too_many", "refused"),
}
# a pilot on which all is well: three gateways, an application, and a program that stores readings
WELL = {
    "lnsd_up": steady(1),
    **{
        FILE % name: growing(60)
        for name in ("lnsd", "gateways-udp", "router", "readings-3", "adr-3", "door", "mark")
    },
    **{
        f"lnsd_{name}_total": steady(7)
        for name in ("dropped", "taken_over_links", "faulted_links", "unlisted_links", "slowed")
    },
    "lnsd_gateways": steady(3),
    "lnsd_applications": steady(1),
    "lnsd_devices": steady(100),
    "lnsd_slots": steady(4096),
    "lnsd_waiting": steady(0),
    "lnsd_longest_sync_seconds": steady(0.5),
    **{LAST_COPY % number: growing(60, 1) for number in (1, 2, 3)},
    **{f"{of}_{name}_total": steady(7) for of, names in COUNTERS.items() for name in names},
    "pilot_copy_seconds": steady(0),
    "pilot_copies_free_bytes": steady(9e9),
    "pilot_mark_unconfirmed": steady(0),
    "pilot_console_silent": steady(0),
    "pilot_broker_messages": steady(60),
    "pilot_broker_dropped_messages_total": steady(7),
    "pilot_gateways_mqtt_broker_connected": steady(1),
    "pilot_applications_mqtt_broker_connected" + APPLICATION: steady(1),
    "pilot_applications_mqtt_gone" + APPLICATION: steady(0),
    "pilot_readings_broker_connected" + APPLICATION: steady(1),
    "pilot_adr_broker_connected" + APPLICATION: steady(1),
    "pilot_readings_disk_free_bytes" + APPLICATION: steady(9e9),
    "pilot_readings_late_seconds" + APPLICATION: steady(0.1),
    OF_GATEWAY % "linked": steady(1),
    # a gateway that comes by the other bridge is in both lists
    'pilot_gateway_linked{bridge="mqtt",gateway="00000000000000B1"}': steady(0),
    OF_GATEWAY % "last_pull_seconds": growing(60),
    OF_STORE % "served": steady(1),
    OF_STORE % "crowded_total": steady(7),
    STORE_LINKED: steady(1),
    'pilot_certificate_end_seconds{file="server.crt"}': steady(9e9),
}
NONE = None
# an alert, and what is wrong then; None for a series that isn't there
WRONG: tuple = (
    ("LnsdDown", {"lnsd_up": steady(0)}),
    ("LnsdStatusIsOld", {FILE % "lnsd": steady(0)}),
    ("LnsdStatusIsOld", {FILE % "lnsd": NONE}),
    ("BridgeHangs", {FILE % "gateways-udp": steady(0)}),
    ("BridgeHangs", {FILE % "router": steady(0)}),
    ("BridgeHangs", {FILE % "readings-3": steady(0)}),
    ("BridgeHangs", {FILE % "adr-3": steady(0)}),
    ("BridgeHangs", {FILE % "door": steady(0)}),
    ("CopyIsOld", {"pilot_copy_seconds": steady(-2 * 86400)}),
    ("CopiesDiskIsFull", {"pilot_copies_free_bytes": steady(1e8)}),
    ("MarkIsOld", {FILE % "mark": steady(0)}),
    ("MarkWasLost", {"pilot_mark_unconfirmed": steady(1)}),
    ("BrokerQueueIsLong", {"pilot_broker_messages": steady(1500)}),
    ("BrokerDrops", {"pilot_broker_dropped_messages_total": growing(1)}),
    ("DoorIsFull", {"pilot_door_too_many_total": growing(1)}),
    ("DoorRefuses", {"pilot_door_refused_total": growing(1)}),
    ("BrokerAway", {"pilot_gateways_mqtt_broker_connected": steady(0)}),
    ("BrokerAway", {"pilot_applications_mqtt_broker_connected" + APPLICATION: steady(0)}),
    ("BrokerAway", {"pilot_readings_broker_connected" + APPLICATION: steady(0)}),
    ("BrokerAway", {"pilot_adr_broker_connected" + APPLICATION: steady(0)}),
    ("ReadingsMissing", {"pilot_readings_broker_connected" + APPLICATION: NONE}),
    ("ReadingsDiskIsFull", {"pilot_readings_disk_free_bytes" + APPLICATION: steady(1e6)}),
    ("ReadingsAreLate", {"pilot_readings_late_seconds" + APPLICATION: steady(7200)}),
    ("EventsLost", {"pilot_applications_mqtt_events_lost_total": growing(2000)}),
    ("NameInUse", {"pilot_gateways_udp_closed_soon_total": growing(2)}),
    ("NameInUse", {"pilot_gateways_mqtt_closed_soon_total": growing(2)}),
    ("NameInUse", {"pilot_router_closed_soon_total": growing(2)}),
    ("NameInUse", {"pilot_applications_mqtt_closed_soon_total": growing(60)}),
    ("NameInUse", {"pilot_readings_closed_soon_total": growing(60)}),
    ("NameInUse", {"pilot_adr_closed_soon_total": growing(60)}),
    ("LnsdDrops", {"lnsd_dropped_total": growing(1)}),
    ("LnsdNameIsThereTwice", {"lnsd_taken_over_links_total": growing(2)}),
    ("LnsdLinkFaults", {"lnsd_faulted_links_total": growing(1)}),
    ("LnsdSlowsALink", {"lnsd_slowed_total": growing(100)}),
    ("LnsdNameIsNotListed", {"lnsd_unlisted_links_total": growing(2)}),
    ("GatewayMissing", {"lnsd_gateways": steady(2), LAST_COPY % 3: NONE}),
    ("NamedGatewayMissing", {OF_GATEWAY % "linked": steady(0)}),
    ("GatewayDoesntPull", {OF_GATEWAY % "last_pull_seconds": steady(60)}),
    ("GatewayAsksFromTwoPlaces", {"pilot_gateways_udp_ports_moved_total": growing(20)}),
    ("FramesUnlinked", {"pilot_gateways_udp_unlinked_total": growing(2)}),
    ("FramesUnlinked", {"pilot_gateways_mqtt_unlinked_total": growing(2)}),
    ("FramesUnlinked", {"pilot_router_unlinked_total": growing(2)}),
    ("StoreIsCrowded", {OF_STORE % "crowded_total": growing(1)}),
    ("StoreIsUnserved", {OF_STORE % "served": steady(0)}),
    ("StoreHasNoApplication", {STORE_LINKED: steady(0)}),
    # of several stores, one is wrong
    ("LnsdDown", {'lnsd_up{store="d01"}': steady(0)}),
    ("DownlinksOutOfTime", {"pilot_gateways_udp_out_of_time_total": growing(1)}),
    ("DownlinksOutOfTime", {"pilot_gateways_mqtt_out_of_time_total": growing(1)}),
    ("WrongMessages", {"pilot_gateways_udp_wrong_datagrams_total": growing(2)}),
    ("WrongMessages", {"pilot_gateways_udp_wrong_addresses_total": growing(2)}),
    ("WrongMessages", {"pilot_gateways_mqtt_wrong_events_total": growing(2)}),
    ("WrongMessages", {"pilot_router_faulted_total": growing(2)}),
    ("WrongMessages", {"pilot_applications_mqtt_wrong_commands_total": growing(2)}),
    ("ApplicationMissing", {"lnsd_applications": steady(0)}),
    ("StoreIsAnother", {"pilot_applications_mqtt_gone" + APPLICATION: steady(2)}),
    ("StoreIsAnother", {"pilot_applications_mqtt_fallen_total": growing(1)}),
    ("DevicesCantJoin", {CANT_JOIN % "BadMic": steady(1)}),
    ("", {CANT_JOIN % "UnknownDevEui": steady(9)}),
    ("DevicesAreSilent", {"pilot_console_silent": steady(2)}),
    ("ReadingsDiffer", {"pilot_readings_differing_total": growing(1)}),
    ("LnsdNearlyFull", {"lnsd_devices": steady(4000)}),
    ("LnsdDiskIsSlow", {"lnsd_waiting": steady(2000)}),
    ("LnsdDiskIsSlow", {"lnsd_longest_sync_seconds": growing(0.01)}),
    ("GatewayHearsNothing", {LAST_COPY % 1: steady(1)}),
    ("GatewayHasHeardNothing", {LAST_COPY % 1: NONE}),
    ("GatewaysDontSend", {"pilot_gateways_udp_not_sent_total": growing(1)}),
    ("GatewaysDontSend", {"pilot_gateways_mqtt_not_sent_total": growing(1)}),
    ("GatewaySendsTooMuch", {"pilot_gateways_udp_too_many_total": growing(9)}),
    ("GatewaySendsTooMuch", {"pilot_gateways_mqtt_too_many_total": growing(9)}),
    ("UnknownGateways", {"pilot_gateways_udp_unknown_gateways_total": growing(1)}),
    ("UnknownGateways", {"pilot_gateways_mqtt_unknown_gateways_total": growing(1)}),
    ("UnknownGateways", {"pilot_router_unknown_gateways_total": growing(1)}),
    ("CertificateEnds", {'pilot_certificate_end_seconds{file="server.crt"}': steady(0)}),
    # what was unlinked and handed in soon after that isn't lost
    (
        "",
        {f"pilot_gateways_udp_{name}_total": growing(9) for name in ("unlinked", "caught_up")},
    ),
    ("", {}),
)


def unit_test(changes: dict, due: str) -> dict:
    """A unit test of promtool. What fires is compared by the metric ALERTS, since labels differ."""
    series = {name: values for name, values in {**WELL, **changes}.items() if values is not None}
    fires = [{"labels": f'{{alertname="{due}"}}', "value": 1}] if due else []
    # the comment says in promtool's lines which one failed
    expr = f'group by (alertname) (ALERTS{{alertstate="firing"}}) # {due} on {list(changes)}'
    test: dict[str, Any] = {"expr": expr, "eval_time": MOMENT, "exp_samples": fires}
    given = [{"series": name, "values": values} for name, values in series.items()]
    return {"interval": EVERY, "input_series": given, "promql_expr_test": [test]}


def test_alerts(folder: Path) -> None:
    """Each alert fires on what it is for, and none on anything else."""
    rules, file = folder / "alerts.yml", folder / "test.yml"
    rules.write_text(RULES, encoding="utf-8")
    text = {
        "rule_files": ["alerts.yml"],
        "evaluation_interval": EVERY,
        "tests": [unit_test(changes, due) for due, changes in WRONG],
    }
    file.write_text(json.dumps(text), encoding="utf-8")  # JSON is YAML, too
    words = [command("promtool"), "test", "rules", "test.yml"]
    ended = subprocess.run(words, cwd=folder, capture_output=True, text=True, check=False)
    assert ended.returncode == 0, ended.stdout + ended.stderr


def test_each_alert() -> None:
    """No alert is left out above."""
    assert {name for name, _ in WRONG if name} == set(ALERTS)


@pytest.mark.pages
def test_what_an_alert_means() -> None:
    """The operator's page names each alert."""
    page = (DOCS / "OPERATING.md").read_text(encoding="utf-8")
    assert [name for name in ALERTS if f"`{name}`" not in page] == []


def test_rules() -> None:
    """promtool accepts the rules."""
    words = [command("promtool"), "check", "rules", str(PILOT / "alerts.yml")]
    assert subprocess.run(words, capture_output=True, check=False).returncode == 0
