// Renews the content of a page while it is visible, and shows the numbers of a plot under the
// pointer. It keeps what is typed or chosen. All pages work without it.
"use strict";

const EVERY = 2000;
// how long an answer may take, and from which age on a page says that it is old: two tries have failed
const LATE = 8000;
const OLD = EVERY * 1.75;
const content = document.getElementById("main");
const root = document.documentElement;

// Light or dark: the system's choice, until the button was pressed.
function stored() {
  try { return localStorage.getItem("theme"); } catch (_) { return null; }
}

function isDark() {
  if (root.dataset.theme) return root.dataset.theme === "dark";
  return matchMedia("(prefers-color-scheme: dark)").matches;
}

if (stored()) root.dataset.theme = stored();
document.getElementById("theme").addEventListener("click", () => {
  root.dataset.theme = isDark() ? "light" : "dark";
  try { localStorage.setItem("theme", root.dataset.theme); } catch (_) { /* it isn't kept */ }
});

// Makes a node like a newer one, and touches only what differs. Parts marked data-still stay.
function renew(node, newer) {
  const isElement = node.nodeType === Node.ELEMENT_NODE;
  if (isElement && node.hasAttribute("data-still")) return;
  if (node.nodeType !== newer.nodeType || node.nodeName !== newer.nodeName) {
    node.replaceWith(newer);
  } else if (isElement) {
    renewAttributes(node, newer);
    renewChildren(node, newer);
  } else if (node.data !== newer.data) {
    node.data = newer.data;
  }
}

function renewAttributes(node, newer) {
  for (const { name } of [...node.attributes]) {
    if (!newer.hasAttribute(name)) node.removeAttribute(name);
  }
  for (const { name, value } of newer.attributes) {
    if (node.getAttribute(name) !== value) node.setAttribute(name, value);
  }
}

function renewChildren(node, newer) {
  const old = [...node.childNodes].filter((child) => !child.dataset?.pointed);
  const young = [...newer.childNodes];
  young.forEach((child, place) => {
    if (old[place]) renew(old[place], child);
    else node.append(child);
  });
  old.slice(young.length).forEach((child) => child.remove());
}

// Asks for the content again. The tag of the last one saves sending the same again.
let last = Date.now();
let tag = "";
let isAsking = false;

async function ask() {
  const field = document.activeElement?.closest("input, select, textarea");
  if (document.hidden || isAsking || (field && content.contains(field))) {
    last = Math.max(last, Date.now() - EVERY);
    return;
  }
  isAsking = true;
  try {
    const address = new URL(location.href);
    address.searchParams.set("part", "1");
    const headers = tag ? { "If-None-Match": tag } : {};
    const answer = await fetch(address, { headers, signal: AbortSignal.timeout(LATE) });
    if (answer.ok) {
      const newer = content.cloneNode(false);
      newer.innerHTML = await answer.text();
      renew(content, newer);
      tag = answer.headers.get("ETag") ?? "";
    }
    if (answer.ok || answer.status === 304) last = Date.now();
  } catch (_) { /* the line below the page says so */ }
  isAsking = false;
}

function showAge() {
  const band = document.getElementById("stale");
  const age = Date.now() - last;
  band.hidden = age < OLD;
  band.querySelector("span").textContent = `${Math.round(age / 1000)} s`;
}

setInterval(() => { ask().then(showAge); showAge(); }, EVERY);
document.addEventListener("visibilitychange", ask);

// The numbers of a plot where the pointer is.
function clear() {
  document.querySelectorAll("[data-pointed]").forEach((part) => part.remove());
}

function part(kind, area) {
  const made = document.createElement("div");
  made.className = kind;
  made.dataset.pointed = "1";
  area.append(made);
  return made;
}

function nearest(points, moment) {
  return points.reduce((best, point) =>
    best && Math.abs(best[0] - moment) <= Math.abs(point[0] - moment) ? best : point, null);
}

function point(event) {
  clear();
  const area = event.target.closest?.("[data-plot]");
  if (!area) return;
  const plot = JSON.parse(area.dataset.plot);
  const box = area.getBoundingClientRect();
  const moment = plot.from + ((event.clientX - box.left) / box.width) * (plot.to - plot.from);
  const found = plot.series
    .map(({ name, points }) => ({ name, at: nearest(points, moment) }))
    .filter(({ at }) => at);
  if (!found.length) return;
  const shown = found[0].at[0];
  const left = ((shown - plot.from) / (plot.to - plot.from)) * box.width;
  const cursor = part("cursor", area);
  cursor.style.left = `${left}px`;
  cursor.style.height = `${area.querySelector(".shapes").getBoundingClientRect().height}px`;
  const label = part("tip", area);
  const values = found.map(({ name, at }) => `${name} ${at[1]} ${plot.unit}`.trim());
  label.textContent = `${new Date(shown * 1000).toLocaleString()}: ${values.join(", ")}`;
  const half = label.offsetWidth / 2;
  label.style.left = `${Math.min(Math.max(left, half), Math.max(half, box.width - half))}px`;
}

content.addEventListener("pointermove", point);
content.addEventListener("pointerdown", point);
content.addEventListener("pointerleave", clear);
