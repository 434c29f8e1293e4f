"""Gateways by MQTT: each data rate, RX2, events that come twice or are wrong."""

import base64
import json

import pytest
from bozintar.frames import CHANNELS

from .field import counts_in
from .stations import ByStations

DATA_RATES = range(6)


def test_each_data_rate(by_stations: ByStations) -> None:
    """A reading in each data rate, which comes twice and is stored once."""
    for place, meter in enumerate(by_stations.meters):
        frame, mark = meter.reads(), meter.awaited
        for station in by_stations.air.gateways:
            station.hears(frame, CHANNELS[place], place, times=2)
        is_so = by_stations.air.go_on(60, lambda: mark in meter.acknowledged)
        assert is_so, f"data rate {place} is acknowledged"
    assert by_stations.await_stored(by_stations.acknowledged()), "all are stored"
    assert len(by_stations.stored()) == len(DATA_RATES)


@pytest.mark.parametrize("meters", [1])
def test_second_window(by_stations: ByStations) -> None:
    """What is sent to a gateway for RX1, and then for RX2."""
    first, meter = by_stations.air.gateways[0], by_stations.meters[0]
    first.errors.append("TOO_LATE")
    frame, mark = meter.reads(), meter.awaited
    first.hears(frame, CHANNELS[3], 5, snr=2)
    assert by_stations.air.go_on(60, lambda: mark in meter.acknowledged), "RX2"
    assert by_stations.await_stored(by_stations.acknowledged()), "it is stored"
    came = []
    for told in first.told[-2:]:
        lora = told["modulation"]["lora"]
        how = (told["frequency"], lora["spreadingFactor"], told["timing"]["delay"]["delay"])
        came.append((*how, lora["polarizationInversion"], told["power"]))
    assert came == [(CHANNELS[3], 7, "1s", True, 16), (869_525_000, 12, "2s", True, 16)]


@pytest.mark.parametrize("meters", [1])
def test_wrong_events(by_stations: ByStations) -> None:
    """What isn't in the format is passed over and counted, and a reading comes all the same."""
    first = by_stations.air.gateways[0]
    good = first.up(bytes(12), CHANNELS[0], 5, 1, -90)
    rx, tx = good["rxInfo"], good["txInfo"]
    other = {**tx, "modulation": {"fsk": {"datarate": 50000}}}
    for wrong in (
        b"",
        b"\x00\xff",
        b"[" * 60000,
        b"7",
        {**good, "rxInfo": None},
        {**good, "phyPayload": "%"},
        {**good, "phyPayload": base64.b64encode(bytes(256)).decode()},
        {**good, "rxInfo": {**rx, "gatewayId": "00000000000000b9"}},
        {**good, "rxInfo": {**rx, "crcStatus": "BAD_CRC"}},
        {**good, "txInfo": other},
    ):
        first.publish("up", wrong)
    for topic in ("eu868/gateway/00000000000000b9/event/up", "eu868/gateway/b9/event/up"):
        first.client.publish(topic, json.dumps(good), qos=1)
    first.client.publish("eu868/gateway/00000000000000b8/event/stats", b"{}", qos=1)
    assert by_stations.reading(by_stations.meters[0]), "a reading"
    by_stations.gateways.end()
    counts = counts_in(by_stations.pilot.file("gateways.prom"))
    named = ("wrong_events", "unknown_gateways", "without_crc", "other_modulations")
    assert [counts[f"gateways_mqtt_{name}"] for name in named] == [9, 2, 1, 1], named
