"""Which store has a device of an application: by the device's last line, or by its claim."""

import re

from bozintar.logs import Seldom

from .routes import Routes

DEV_EUI = re.compile(r"[0-9A-F]{16}")


class Homes:
    """The stores of devices. Without routes there is one store, which has no name."""

    def __init__(self, routes: Routes | None):
        self.routes, self.seldom = routes, Seldom()
        # by their last lines, if no claim names this store
        self.noted: dict[str, str] = {}

    def claimed(self, device: str) -> str | None:
        """The name of the store that a device is claimed for."""
        if not self.routes or not DEV_EUI.fullmatch(device):
            return None
        return self.routes.devices.get(bytes.fromhex(device))

    def differ(self, claims: dict[str, str | None]) -> bool:
        """Whether one of these devices is claimed for another store by now."""
        return any(self.claimed(device) != name for device, name in claims.items())

    def of(self, device: str) -> str | None:
        """The name of the store that has a device, if it is known."""
        return self.noted.get(device) or self.claimed(device)

    def note(self, device: str, store: str) -> None:
        """A line about a device came from this store."""
        claimed = self.claimed(device)
        if claimed == store:
            self.noted.pop(device, None)
        elif DEV_EUI.fullmatch(device):
            self.noted[device] = store
            if claimed:
                text = f"{device} is claimed for {claimed}, and {store} has it"
                self.seldom.warn((device, "claimed"), text)
