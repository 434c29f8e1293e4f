"""The console's web site: its pages, and its forms."""

import re
import secrets
import time
import traceback
from collections.abc import Awaitable, Callable
from dataclasses import dataclass, field
from hashlib import sha256
from pathlib import Path
from typing import Any

from adapting.rule import power_dbm
from aiohttp import web
from bozintar.logs import log
from bridges.devices import Row
from jinja2 import Environment, FileSystemLoader, StrictUndefined

from . import attention, device_list, device_plots, forms, overview, plots, text
from .access import HEADERS, Access, Refused, User
from .devices import HIDDEN, RETIRED, Device
from .network import EVENTS, Event, Network
from .refusals import refusal
from .requests import UNANSWERED, Answer, Bridges, answer_of

HERE = Path(__file__).resolve().parent
KINDS = {"css": "text/css", "js": "text/javascript", "svg": "image/svg+xml"}
# a page's version is in the address, so that a browser may keep these
STATIC = "/static/{name:(?:console\\.css|console\\.js|icon\\.svg)}"
EUI = re.compile(r"\b[0-9A-F]{16}\b")
DEVICE = "/devices/{eui:[0-9A-Fa-f]{16}}"
MOST_OUTCOMES, MOST_SHOWN = 100, 30
OF_DEVICE = EVENTS.replace("FROM events", "FROM events WHERE of = ?")
SERVER_KINDS = ("server", "link", "dropped", "sync", "write")
# what the buttons of a form do to alarms, and how the events of that read
HIDES = {"hide": HIDDEN, "retire": RETIRED, "unhide": ""}
SAYS = {HIDDEN: "Hidden from alarms", RETIRED: "Retired: hidden from alarms", "": "Alarms again"}
STILL_THERE = "Not forgotten: it has a link, or a bridge still has it in its list of gateways."
Handler = Callable[[web.Request], Awaitable[web.StreamResponse]]


@dataclass
class Outcome:
    """What became of a form, for the page that is shown after it."""

    user: str
    answers: list[tuple[str, Answer]]
    # what was typed, without keys
    typed: dict[str, str] = field(default_factory=dict)


class Site:
    """The pages of a network."""

    def __init__(
        self,
        network: Network,
        access: Access,
        bridges: Bridges,
        refresh: Callable[[], Awaitable[None]],
    ):
        self.network, self.access, self.bridges = network, access, bridges
        # has the list of devices read again, after some were added
        self.refresh = refresh
        self.outcomes: dict[str, Outcome] = {}
        self.version = secrets.token_hex(4)
        self.found: list[attention.Problem] = []
        self.found_at = 0.0
        self.templates = self.environment()

    def environment(self) -> Environment:
        """The templates, and what they may use."""
        made = Environment(
            loader=FileSystemLoader(HERE / "pages"),
            autoescape=True,
            undefined=StrictUndefined,
            trim_blocks=True,
            lstrip_blocks=True,
        )
        made.filters |= {
            "ago": text.ago,
            "seen": text.seen,
            "clock": text.clock,
            "duration": text.duration,
            "named": self.named,
        }
        made.globals |= {
            "plural": text.plural,
            "refusal": refusal,
            "power_dbm": power_dbm,
            "share": plots.share,
            "spark": plots.spark,
            "filters": device_list.FILTERS,
            "device_spans": device_plots.SPANS,
            "spans": overview.NAMES,
            "network": self.network,
        }
        return made

    def named(self, words: str) -> str:
        """A text with names in place of EUIs."""
        return EUI.sub(lambda found: self.network.name(found[0]), words)

    def application(self) -> web.Application:
        """All addresses."""
        made = web.Application(middlewares=[self.guard], client_max_size=forms.MOST_BODY)
        pages: dict[str, Handler] = {
            "/": self.overview,
            "/devices": self.devices,
            DEVICE: self.device,
            "/gateways": self.gateways,
            "/refused": self.refused,
            "/add": self.add,
            "/server": self.server,
            "/health": self.health,
            STATIC: self.static,
        }
        for path, handler in pages.items():
            made.router.add_get(path, handler)
        made.router.add_post(DEVICE, self.command)
        made.router.add_post("/", self.confirm)
        made.router.add_post("/gateways", self.change_gateway)
        made.router.add_post("/add", self.provision)
        return made

    # who asks

    @web.middleware
    async def guard(self, request: web.Request, handler: Handler) -> web.StreamResponse:
        """Lets clients do what they may, and says to browsers what pages may do."""
        try:
            self.access.check_host(request.host)
            assert request.transport
            user = self.access.user(request.transport.get_extra_info("peercert"))
            request["user"], request["form"] = user, {}
            if request.method == "POST":
                self.access.check_origin(user, request.host, request.headers)
                request["form"] = await forms.read(request)
                self.access.check_token(user, request["form"].get("token", ""))
            response = await handler(request)
        except Refused as why:
            response = self.message(request, why.status, why.why)
        except web.HTTPSeeOther as other:
            response = web.Response(status=303, headers={"Location": str(other.location)})
        except web.HTTPException as why:
            response = self.message(request, why.status, f"{why.reason}.")
        except Exception:  # the reason is for the log, and not for the client
            traceback.print_exc()
            response = self.message(request, 500, "The console has a fault. See its log.")
        for name, value in HEADERS.items():
            response.headers.setdefault(name, value)
        if response.status >= 400 and request.method == "POST":
            response.force_close()  # the rest of a form that is refused isn't read
        return response

    def message(self, request: web.Request, status: int, words: str) -> web.Response:
        """An answer without content: a page for those that may read, else a line."""
        if "user" not in request or request.method == "HEAD":
            return web.Response(text=f"{words}\n", status=status)
        response = self.page(request, "message.html", words=words, status=status)
        response.set_status(status)
        return response

    def may_send(self, user: User) -> bool:
        """Whether pages have forms that go to a bridge."""
        return user.may_write and bool(self.bridges.sockets)

    def done(self, request: web.Request, outcome: Outcome) -> web.HTTPSeeOther:
        """A form was read: its page comes again, so that loading it again sends nothing twice."""
        key = secrets.token_hex(8)
        self.outcomes[key] = outcome
        while len(self.outcomes) > MOST_OUTCOMES:
            del self.outcomes[next(iter(self.outcomes))]
        return web.HTTPSeeOther(f"{request.path}?done={key}")

    # pages

    def page(self, request: web.Request, name: str, **values: Any) -> web.Response:
        """A page, or its middle alone if the query has `part`, as the script asks. The script also
        says which one it has, and gets 304 if that is still right."""
        user: User = request["user"]
        outcome = self.outcomes.get(request.query.get("done", ""))
        values |= {
            "now": time.time(),
            "path": request.path,
            "query": request.query,
            "user": user,
            "may_send": self.may_send(user),
            "token": self.access.token(user),
            "version": self.version,
            "outcome": outcome if outcome and outcome.user == user.name else None,
        }
        template = self.templates.get_template(name)
        if "part" not in request.query:
            return web.Response(text=template.render(values), content_type="text/html")
        part = "".join(template.blocks["main"](template.new_context(values)))
        tag = f'"{sha256(part.encode()).hexdigest()[:32]}"'
        if request.headers.get("If-None-Match") == tag:
            return web.Response(status=304, headers={"ETag": tag})
        return web.Response(text=part, content_type="text/html", headers={"ETag": tag})

    def problems(self) -> list[attention.Problem]:
        """What needs attention, looked for at most once a second."""
        if time.monotonic() - self.found_at > 1:
            self.found, self.found_at = attention.problems(self.network), time.monotonic()
        return self.found

    async def overview(self, request: web.Request) -> web.Response:
        """The first page."""
        span = overview.span_of(request.query.get("span", ""))
        return self.page(
            request,
            "overview.html",
            problems=self.problems(),
            span=span,
            minutes=overview.SPANS[span],
            traffic=overview.traffic(self.network, span),
            syncs=overview.syncs(self.network, span),
            gateways=overview.gateway_rows(self.network),
            silent=len(self.network.silent(time.time())),
        )

    async def devices(self, request: web.Request) -> web.Response:
        """All devices."""
        query = device_list.Query.read(request.query)
        found = device_list.listed(self.network, query, time.time())
        return self.page(request, "devices.html", found=found, wanted=found.query)

    def one(self, request: web.Request) -> Device:
        """The device of the address."""
        eui = request.match_info["eui"].upper()
        if eui not in self.network.devices:
            raise Refused(404, f"No device {eui} is known.")
        return self.network.devices[eui]

    async def device(self, request: web.Request) -> web.Response:
        """A device."""
        device, span = self.one(request), request.query.get("span", "")
        drawn = device_plots.plots_of(self.network.kept, device.eui, span, time.time())
        events = self.network.kept.rows(OF_DEVICE, device.eui, MOST_SHOWN)
        refused = [of for of in self.network.refused_of(device.eui) if not of.is_over]
        return self.page(
            request,
            "device.html",
            device=device,
            drawn=drawn,
            span=span,
            events=[Event(*row) for row in events],
            refused=[of for of in refused if refusal(of.number).needs_attention],
        )

    async def gateways(self, request: web.Request) -> web.Response:
        """All gateways."""
        return self.page(request, "gateways.html", rows=overview.gateway_rows(self.network))

    async def refused(self, request: web.Request) -> web.Response:
        """What was refused, the newest first; joins that were accepted since come last."""
        found = sorted(self.network.refused.values(), key=lambda of: -of.last)
        joins = sorted((of for of in found if of.kind == "join"), key=lambda of: of.is_over)
        others: dict[int, list] = {}
        for of in found:
            if of.kind != "join":
                others.setdefault(of.number, []).append(of)
        return self.page(request, "refused.html", joins=joins, others=sorted(others.items()))

    async def server(self, request: web.Request) -> web.Response:
        """The server."""
        events = [event for event in self.network.events if event.kind in SERVER_KINDS]
        slowest = [
            max(of for _, of in self.network.series("sync_us", count)) for count in (60, 1440)
        ]
        span = overview.syncs(self.network, "24h")
        return self.page(
            request, "server.html", events=events[:MOST_SHOWN], slowest=slowest, syncs=span
        )

    async def add(self, request: web.Request) -> web.Response:
        """Forms that add devices."""
        return self.page(request, "add.html", applications=self.bridges.applications)

    async def health(self, _request: web.Request) -> web.Response:
        """For a monitor: 503 if a person should look at once."""
        grave = [of.what for of in self.problems() if of.level <= attention.GRAVE]
        return web.json_response({"problems": grave}, status=503 if grave else 200)

    async def static(self, request: web.Request) -> web.Response:
        """The style sheet, the script, the icon."""
        name = request.match_info["name"]
        content = (HERE / "static" / name).read_text(encoding="utf-8")
        kind = KINDS[name.rpartition(".")[2]]
        headers = {"Cache-Control": "max-age=86400"}
        return web.Response(text=content, content_type=kind, headers=headers)

    # forms

    def note(self, request: web.Request, eui: str, words: str) -> None:
        """Logs who wrote what, and notes it as an event."""
        user: User = request["user"]
        log(f"{user.name} at {request.remote}: {eui} {words}")
        self.network.note("write", eui, f"{words}, by {user.name}")

    def change(self, request: web.Request, eui: str) -> web.HTTPSeeOther:
        """A form has a name of a device or a gateway, hides it from alarms, or shows it again."""
        what, user = request["form"].get("what", ""), request["user"]
        if what in HIDES:
            self.network.hide(eui, HIDES[what])
            self.note(request, eui, SAYS[HIDES[what]])
            self.found_at = 0.0
            return self.done(request, Outcome(user.name, [("", Answer(True, "Saved."))]))
        name = " ".join(request["form"].get("name", "").split())
        self.network.rename(eui, name)
        self.note(request, eui, f"Name set to {self.network.names[eui]!r}")
        return self.done(request, Outcome(user.name, [("", Answer(True, "Saved."))]))

    async def confirm(self, request: web.Request) -> web.StreamResponse:
        """An operator has seen what came twice, and how often."""
        form, user = request["form"], request["user"]
        kind, seen = form.get("kind", ""), form.get("seen", "")
        answer = Answer(False, "It isn't as you saw it any more: look again.")
        if self.network.repeats.confirm(kind, seen):
            self.note(request, "", f"Confirmed: {attention.REPEATS[kind][1]}, {seen} times")
            answer = Answer(True, "Confirmed.")
        self.found_at = 0.0
        raise self.done(request, Outcome(user.name, [("", answer)]))

    async def change_gateway(self, request: web.Request) -> web.StreamResponse:
        """Names, hides or forgets a gateway."""
        eui, user = request["form"].get("eui", ""), request["user"]
        if eui not in self.network.gateways:
            raise Refused(404, "No such gateway is known.")
        if request["form"].get("what") != "forget":
            raise self.change(request, eui)
        is_gone = eui not in self.network.listed and not self.network.gateways[eui].is_linked
        answer = Answer(is_gone, "Forgotten." if is_gone else STILL_THERE)
        if is_gone:
            self.network.forget_gateway(eui)
            self.note(request, eui, "Forgotten")
        self.found_at = 0.0
        raise self.done(request, Outcome(user.name, [("", answer)]))

    async def command(self, request: web.Request) -> web.StreamResponse:
        """Names or hides a device, or sends a command to it."""
        device, form, user = self.one(request), request["form"], request["user"]
        if form.get("what") in ("name", *HIDES):
            raise self.change(request, device.eui)
        try:
            wanted = forms.command(device.eui, form)
        except ValueError as why:
            answer = Answer(False, str(why))
            raise self.done(request, Outcome(user.name, [("", answer)])) from None
        line = await self.bridges.ask_for(device.application, wanted.line)
        answer = answer_of(line)
        failure = "" if answer.is_done else f" (not done: {answer.text})"
        self.note(request, device.eui, f"{wanted.text}{failure}")
        raise self.done(request, Outcome(user.name, [("", answer)]))

    async def provision(self, request: web.Request) -> web.StreamResponse:
        """Adds devices."""
        form, user = request["form"], request["user"]
        application = form.get("application", "")
        try:
            found = forms.devices(form)
        except ValueError as why:
            answer = Answer(False, str(why))
            raise self.done(request, Outcome(user.name, [("", answer)])) from None
        lines = await self.bridges.ask(application, [row.line() for row in found.rows])
        said = dict(zip((row.place for row in found.rows), map(answer_of, lines)))
        by_place = {
            fault.place: (f"Line {fault.place}", Answer(False, f"{fault.why}."))
            for fault in found.faults
        }
        for row in found.rows:
            answer = said.get(row.place, Answer(False, UNANSWERED))
            by_place[row.place] = (row.dev_eui, answer)
            if answer.is_done:
                self.added(request, row, application)
        answers = [by_place[place] for place in sorted(by_place)]
        await self.refresh()
        if not answers:
            answers = [("", Answer(False, "There was no device in the form."))]
        is_well = all(answer.is_done for _, answer in answers)
        typed = {} if is_well else {name: form.get(name, "") for name in forms.SHOWN}
        raise self.done(request, Outcome(user.name, answers, typed))

    def added(self, request: web.Request, row: Row, application: str) -> None:
        """A device was added."""
        self.network.device(row.dev_eui).application = application
        if row.name:
            self.network.rename(row.dev_eui, row.name)
        self.note(request, row.dev_eui, f"Added to application {application}")
