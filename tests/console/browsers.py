"""Debian's Chromium, driven by selenium, as a browser of the console's pages."""

import json
import os
import subprocess
import time
from collections.abc import Callable, Sequence
from importlib.util import find_spec
from pathlib import Path
from typing import Any, TypeVar

from bozintar import debian
from bozintar.processes import await_that

PACKAGES = ("chromium", "chromium-driver", "python3-selenium", "fonts-dejavu-core")
# certutil and pk12util, which change a user's database of certificates
WITH_CERTIFICATES = (*PACKAGES, "libnss3-tools")
OPTIONS = (
    "--headless=new",
    "--no-sandbox",
    "--disable-gpu",
    "--disable-dev-shm-usage",
    "--disable-background-networking",
    "--hide-scrollbars",
    "--force-color-profile=srgb",
    "--lang=en-GB",
)
WIDTHS, SCHEMES = (390, 1400), ("light", "dark")
HEIGHTS = {390: 844, 1400: 1000}
# below this width a phone is played
PHONE = 600
T = TypeVar("T")
# texts whose contrast with what is below them is less than WCAG 2.1 AA requires (1.4.3)
CONTRAST = """
const parse = (colour) => { const [r, g, b, a] = colour.match(/[\\d.]+/g).map(Number); return [r, g, b, a ?? 1]; };
const channel = (value) => value <= .04045 ? value / 12.92 : ((value + .055) / 1.055) ** 2.4;
const luminance = ([r, g, b]) => .2126 * channel(r / 255) + .7152 * channel(g / 255) + .0722 * channel(b / 255);
const below = (node) => { for (; node; node = node.parentElement) { const colour = parse(getComputedStyle(node).backgroundColor); if (colour[3] > .5) return colour; } return [255, 255, 255, 1]; };
const found = [];
for (const node of document.querySelectorAll('body *')) {
  const hasText = [...node.childNodes].some((child) => child.nodeType === 3 && child.data.trim());
  if (!hasText || !node.getClientRects().length) continue;
  const style = getComputedStyle(node), isDrawn = node instanceof SVGElement;
  const [a, b] = [luminance(parse(isDrawn ? style.fill : style.color)), luminance(below(node))].sort((x, y) => y - x);
  const ratio = (a + .05) / (b + .05), size = parseFloat(style.fontSize);
  const isLarge = size >= 24 || size >= 18.66 && style.fontWeight >= 700;
  if (ratio < (isLarge ? 3 : 4.5)) found.push(`${node.tagName} ${node.className} "${node.textContent.trim().slice(0, 30)}" ${ratio.toFixed(2)}`);
}
return [...new Set(found)];
"""
# fields and buttons without a name for a screen reader
UNNAMED = """
return [...document.querySelectorAll('input:not([type=hidden]), select, textarea, button, svg[role=img]')]
  .filter((node) => !node.labels?.length && !node.getAttribute('aria-label') && !node.textContent.trim())
  .map((node) => node.outerHTML.slice(0, 100));
"""
# what sticks out of the page at the right, unless a part of the page scrolls by itself
WIDE = """
const wide = document.documentElement.clientWidth, found = [];
const scrolls = (node) => { for (; node; node = node.parentElement) if (['auto', 'scroll', 'hidden', 'clip'].includes(getComputedStyle(node).overflowX)) return true; return false; };
if (document.documentElement.scrollWidth > wide) found.push(`the page is ${document.documentElement.scrollWidth} px wide`);
for (const node of document.querySelectorAll('main *, header *')) {
  const box = node.getBoundingClientRect();
  if (box.width && box.right > wide + 1 && !scrolls(node.parentElement)) found.push(`${node.tagName}.${node.className} "${node.textContent.trim().slice(0, 30)}" ends at ${Math.round(box.right)}`);
}
return found.slice(0, 6);
"""
# targets of a finger that are smaller than 24 px (WCAG 2.5.8)
SMALL = """
return [...document.querySelectorAll('header a, button, .chips a, a.button, select, input:not([type=hidden]):not([type=checkbox])')]
  .map((node) => [node, node.getBoundingClientRect()])
  .filter(([, box]) => box.width && (box.height < 24 || box.width < 24))
  .map(([node, box]) => `${node.tagName} "${node.textContent.trim()}" ${Math.round(box.width)} x ${Math.round(box.height)}`);
"""
FOREIGN = """
return performance.getEntriesByType('resource').map((entry) => entry.name).filter((name) => !name.startsWith(location.origin));
"""
HEADINGS = "return [...document.querySelectorAll('h1, h2, h3')].map((node) => +node.tagName[1]);"


def missing(packages: Sequence[str] = PACKAGES) -> str:
    """Why there is no browser; nothing if there is one. What is missing is installed if it can
    be."""
    if debian.missing(packages):
        try:
            debian.need(packages)
        except SystemExit:
            return f"can't be installed: {' '.join(debian.missing(packages))}"
    if not find_spec("selenium"):
        return "this Python doesn't have Debian's selenium: use /usr/bin/python3"
    return ""


def environment(home: Path | None) -> dict[str, str]:
    """The environment of a user's programs."""
    own = {name: value for name, value in os.environ.items() if not name.startswith("XDG_")}
    return {**own, "HOME": str(home)} if home else dict(os.environ)


def take_certificate(home: Path, authority: str, packed: str = "", password: str = "") -> None:
    """Has the browsers of a user trust an authority, and take a certificate with its key, by the
    programs of libnss3-tools."""
    folder = home / ".pki/nssdb"
    folder.mkdir(parents=True)
    database = ("-d", f"sql:{folder}")
    commands = [
        ("certutil", *database, "-N", "--empty-password"),
        ("certutil", *database, "-A", "-t", "C,,", "-n", "authority", "-i", authority),
    ]
    if packed:
        commands.append(("pk12util", *database, "-i", packed, "-W", password))
    for command in commands:
        subprocess.run(command, check=True, capture_output=True)


class Browser:
    """A browser that shows the pages of one address. By TLS it shows the user's certificate without
    a question, which a user would be asked once."""

    def __init__(self, folder: Path, address: str = "", home: Path | None = None) -> None:
        from selenium import webdriver
        from selenium.webdriver.chrome.service import Service

        options = webdriver.ChromeOptions()
        for option in (*OPTIONS, f"--user-data-dir={folder / 'profile'}"):
            options.add_argument(option)
        options.set_capability("goog:loggingPrefs", {"browser": "ALL"})
        chosen = json.dumps({"pattern": address, "filter": {}})
        if home:
            preferences = {"profile.managed_auto_select_certificate_for_urls": [chosen]}
            options.add_experimental_option("prefs", preferences)
        service = Service("/usr/bin/chromedriver", env=environment(home))
        self.driver = webdriver.Chrome(service=service, options=options)
        self.driver.set_page_load_timeout(120)
        self.driver.set_script_timeout(60)
        self.address = address

    def end(self) -> None:
        """Ends the browser."""
        self.driver.quit()

    def size(self, width: int, scheme: str = "light", height: int = 0) -> None:
        """From now on pages have this width, and are light or dark."""
        how = {
            "width": width,
            "height": height or HEIGHTS[width],
            "deviceScaleFactor": 1,
            "mobile": width < PHONE,
        }
        self.driver.execute_cdp_cmd("Emulation.setDeviceMetricsOverride", how)
        features = [{"name": "prefers-color-scheme", "value": scheme}]
        self.driver.execute_cdp_cmd("Emulation.setEmulatedMedia", {"features": features})

    def scripts(self, are_on: bool) -> None:
        """Whether pages may run scripts."""
        value = {"value": not are_on}
        self.driver.execute_cdp_cmd("Emulation.setScriptExecutionDisabled", value)

    def show(self, path: str) -> None:
        """Loads a page."""
        self.driver.get(self.address + path)

    def asks(self, script: str) -> Any:
        """What a script returns."""
        return self.driver.execute_script(script)

    @property
    def text(self) -> str:
        """What can be read on the page."""
        return " ".join(str(self.asks("return document.body.innerText")).split())

    def waits(self, what: str, is_so: Callable[[], T]) -> T:
        """Waits until something is so."""
        return await_that(what, is_so, 60, 0.1)

    def reads(self, text: str) -> None:
        """Waits until the page has a text."""
        self.waits(f"the page has {text!r}", lambda: text in self.text)

    def element(self, selector: str) -> Any:
        """The first element of a selector."""
        return self.driver.find_element("css selector", selector)

    def types(self, *keys: str) -> None:
        """Types on the keyboard: texts and names of keys, to what has the focus."""
        from selenium.webdriver import ActionChains

        chain = ActionChains(self.driver)
        for key in keys:
            chain = chain.send_keys(key)
        chain.perform()

    def tabs_to(self, selector: str) -> None:
        """Presses Tab until an element has the focus."""
        from selenium.webdriver.common.keys import Keys

        for _ in range(120):
            if self.asks(f"return document.activeElement.matches({selector!r})"):
                return
            self.types(Keys.TAB)
        raise AssertionError(f"no Tab leads to {selector}")

    def faults(self) -> list[str]:
        """What the browser itself has logged since the last call, except notes."""
        lines = self.driver.get_log("browser")
        return [line["message"] for line in lines if line["level"] in ("SEVERE", "WARNING")]

    def picture(self, file: Path, width: int, scheme: str, most: int = 2600) -> None:
        """A picture of the page, as far as it goes down."""
        height = int(self.asks("return document.documentElement.scrollHeight"))
        self.size(width, scheme, min(max(height, HEIGHTS[width]), most))
        time.sleep(0.3)
        self.driver.save_screenshot(str(file))
        self.size(width, scheme)
