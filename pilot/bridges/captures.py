"""Frames in a file for Wireshark: pcap, with a LoRaTap header before each (link type 270)."""

import os
import struct
import time

from bozintar.logs import Seldom
from bozintar.wire import Downlink, Heard, Window

# of the file: the format's number and version, the zone, the accuracy, the longest record, LoRaTap
HEAD = struct.pack("<IHHiIII", 0xA1B2C3D4, 2, 4, 0, 0, 65535, 270)
RECORD = struct.Struct("<IIII")
# version 0: version, padding, length, Hz, bandwidth in steps of 125 kHz, spreading factor, RSSI of
# the packet, at most and now, SNR in quarter dB, and the sync word of LoRaWAN. It has no place for
# the gateway
LORATAP = struct.Struct(">BBHIBBBBBbB")
SYNC_WORD = 0x34
# what is added to an RSSI in dBm
RSSI = 139
MEGABYTE = 10**6


class Capture:
    """Two files of at most some megabytes in turn: the newest frames are in the first one, and
    those before them in the one with ".old" after its name."""

    def __init__(self, file: str, megabytes: int):
        self.file, self.most = file, megabytes * MEGABYTE
        self.seldom, self.size, self.number = Seldom(), 0, -1
        self.turn()

    def up(self, heard: Heard) -> None:
        """A frame that a gateway heard."""
        copy = heard.copy
        self.write(heard.frame, copy.frequency, copy.data_rate, copy.rssi, copy.snr)

    def down(self, downlink: Downlink, window: Window) -> None:
        """A frame that a gateway is to send."""
        self.write(downlink.frame, window.frequency, window.data_rate, -RSSI, 0)

    def write(self, frame: bytes, hz: int, data_rate: int, rssi: int, snr: int) -> None:
        """Writes a frame. If that fails, the bridge goes on, and so does the file with later
        ones."""
        seconds = time.time()
        # Wireshark reads it so, also for a frame below the noise
        level = max(0, min(255, rssi + RSSI))
        sound = max(-128, min(127, snr))
        how = (hz, 1, 12 - data_rate, level, level, level, sound, SYNC_WORD)
        said = LORATAP.pack(0, 0, LORATAP.size, *how) + frame
        moment = int(seconds), int(seconds % 1 * 1e6)
        record = RECORD.pack(*moment, len(said), len(said)) + said
        try:
            if self.size + len(record) > self.most:
                self.turn()
            # a record that is cut short, by a full disk, would spoil those after it
            if os.write(self.number, record) < len(record):
                os.ftruncate(self.number, self.size)
                os.lseek(self.number, self.size, os.SEEK_SET)
                raise OSError(0, "there is no room", self.file)
            self.size += len(record)
        except OSError as why:
            self.seldom.warn("capture", f"{self.file}: {why.strerror}")

    def turn(self) -> None:
        """Begins the first file anew."""
        if self.number >= 0:
            os.close(self.number)
            self.number = -1
        if os.path.isfile(self.file):  # and no device
            os.replace(self.file, f"{self.file}.old")
        self.number = os.open(self.file, os.O_WRONLY | os.O_CREAT | os.O_EXCL, 0o600)
        os.write(self.number, HEAD)
        self.size = len(HEAD)
