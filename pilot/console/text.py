"""Moments, lengths of time and numbers in words."""

import time

UNITS = ((90, 1, "s"), (5400, 60, "min"), (129_600, 3600, "h"))


def duration(seconds: float) -> str:
    """A length of time."""
    for most, unit, name in UNITS:
        if seconds < most:
            return f"{max(0, seconds) / unit:.0f} {name}"
    return f"{seconds / 86_400:.0f} days"


def ago(moment: float, now: float | None = None) -> str:
    """How long ago a moment is; 0 is none."""
    if not moment:
        return "never"
    return f"{duration((time.time() if now is None else now) - moment)} ago"


def seen(moment: float, now: float | None = None) -> str:
    """How long ago the console saw something; 0 is not yet."""
    return ago(moment, now) if moment else "not seen yet"


def clock(moment: float) -> str:
    """A moment as a clock shows it, with its day unless that is today."""
    there, today = time.localtime(moment), time.localtime()
    is_today = there[:3] == today[:3]
    return time.strftime("%H:%M:%S" if is_today else "%d %b %H:%M", there)


def plural(count: int, thing: str) -> str:
    """A number of things."""
    return f"{count} {thing}{'' if count == 1 else 's'}"


def short(value: float) -> str:
    """A number in few digits."""
    if abs(value) >= 10_000:
        return f"{value / 1000:g}k"
    text = f"{value:g}" if value == int(value) else f"{value:.1f}"
    return text.replace("-", "−")
