"""What stands in a cell: names in a list, numbers, costs, times and zones."""

from __future__ import annotations

import datetime
import re
from dataclasses import dataclass
from fractions import Fraction

from ..problem import Trouble

_ISO = re.compile(r"(\d{4})-(\d{1,2})-(\d{1,2})")
_DOTS = re.compile(r"(\d{1,2})\.(\d{1,2})\.(\d{4}|\d{2})")
_SLASHES = re.compile(r"(\d{1,2})/(\d{1,2})/(\d{4})")
_CLOCK = re.compile(r"(\d{1,2})[:.](\d{2})(?::(\d{2})(?:\.0+)?)?\s*([AaPp])?(?(4)\.?[Mm]\.?)")
_OFFSET = re.compile(r"\s*(Z|[+-]\d{2}:?\d{2})$")
_ZONE = re.compile(r"\s+(UTC|[A-Z][A-Za-z_]+(?:/[A-Za-z0-9_+-]+)+)$")
EXAMPLE = "2026-03-02 09:00 or 02.03.2026 9:00"


@dataclass(frozen=True)
class When:
    """A time as it is written: with its own zone where it names one, and whether it is a date alone."""

    time: datetime.datetime
    date_alone: bool = False

    @property
    def zoned(self) -> bool:
        return self.time.tzinfo is not None


def parts(cells: list[str]) -> list[str]:
    """The names of a list, which stand between semicolons or commas, each once."""
    return list(dict.fromkeys(part.strip() for cell in cells for part in re.split("[;,]", cell) if part.strip()))


def whole(word: str, what: str, least: int = 1, most: int = 10**6 - 1) -> int:
    if not re.fullmatch(r"[0-9]{1,6}", word) or not least <= int(word) <= most:
        told = f", not {word}" if word else ""
        raise Trouble(f"the number of {what} must be a whole number from {least} {'up' if most == 10**6 - 1 else f'to {most}'}{told}")
    return int(word)


def is_price(word: str) -> bool:
    return re.fullmatch(r"-?[0-9]{1,15}([.,][0-9]{1,6})?", word) is not None


def price(word: str) -> Fraction:
    """A cost as 2, 0.5 or, as some spreadsheets write it, 0,5."""
    if re.fullmatch(r"-[0-9.,]+", word):
        raise Trouble(f"the cost {word} is negative, but a cost must be 0 or more: `dislike` puts it on the named slots, `like` on all others")
    if not is_price(word):
        raise Trouble(f"the last cell must be the cost, a number such as 2 or 0.5, not `{word}`")
    return Fraction(word.replace(",", "."))


def when(word: str) -> When:
    """A time, as people and spreadsheets write it."""
    rest, zone = zone_behind(word)
    day, rest = day_before(rest, word)
    if not rest:
        return When(datetime.datetime.combine(day, datetime.time(), zone), date_alone=True)
    clock = _CLOCK.fullmatch(rest)
    if not clock:
        raise no_time(word)
    hour, minute, second = int(clock[1]), int(clock[2]), int(clock[3] or 0)
    if clock[4]:
        if not 1 <= hour <= 12:
            raise no_time(word)
        hour = hour % 12 + (12 if clock[4] in "Pp" else 0)
    try:
        return When(datetime.datetime.combine(day, datetime.time(hour, minute, second), zone))
    except ValueError:
        raise no_time(word) from None


def no_time(word: str) -> Trouble:
    return Trouble(f"{word} is not a time such as {EXAMPLE}")


def day_before(text: str, word: str) -> tuple[datetime.date, str]:
    """The date at the beginning of a time, and what stands behind it."""
    for pattern, order in ((_ISO, (0, 1, 2)), (_DOTS, (2, 1, 0)), (_SLASHES, None)):
        told = pattern.match(text)
        if told is None:
            continue
        numbers = [int(part) for part in told.groups()]
        year, month, day = by_slashes(numbers, word) if order is None else [numbers[place] for place in order]
        rest = text[told.end() :]
        if rest and not re.match(r"[T\s]", rest):
            break
        try:
            return datetime.date(year + 2000 if year < 100 else year, month, day), rest.lstrip("T ,")
        except ValueError:
            raise Trouble(f"{word} is not a day of the calendar") from None
    raise no_time(word)


def by_slashes(numbers: list[int], word: str) -> list[int]:
    first, second, year = numbers
    if first > 12 or second > 12 or first == second:
        return [year, second, first] if first > 12 else [year, first, second]
    raise Trouble(f"{word} can be two days: write it as {year}-{second:02}-{first:02} or {year}-{first:02}-{second:02}")


def zone_behind(word: str) -> tuple[str, datetime.tzinfo | None]:
    """A time without what stands behind it for its zone, and that zone."""
    offset = _OFFSET.search(word) if ":" in word else None
    if offset:
        sign = offset[1].replace(":", "")
        if sign == "Z":
            return word[: offset.start()], datetime.timezone.utc
        minutes = int(sign[1:3]) * 60 + int(sign[3:5])
        if minutes >= 24 * 60:
            raise no_time(word)
        return word[: offset.start()], datetime.timezone(datetime.timedelta(minutes=minutes if sign[0] == "+" else -minutes))
    named = _ZONE.search(word)
    return (word[: named.start()], zone_of(named[1])) if named else (word, None)


def zone_of(name: str) -> datetime.tzinfo:
    """A zone by its name, as Europe/Berlin."""
    import zoneinfo

    try:
        return zoneinfo.ZoneInfo(name)
    except (zoneinfo.ZoneInfoNotFoundError, ValueError, OSError):
        pass
    try:
        zoneinfo.ZoneInfo("Europe/Berlin")
    except (zoneinfo.ZoneInfoNotFoundError, OSError):
        raise Trouble("this machine has no list of time zones: install Debian's package tzdata") from None
    raise Trouble(f"{name} is not a time zone such as Europe/Berlin or UTC")


def instant(time: datetime.datetime) -> datetime.datetime:
    """A moment that others are compared with: where the time has a zone, in UTC."""
    return time if time.tzinfo is None else time.astimezone(datetime.timezone.utc).replace(tzinfo=None)


def in_zone(told: When, zone: datetime.tzinfo | None) -> datetime.datetime:
    """A time in the zone of a timetable."""
    if zone is None:
        if told.zoned:
            raise Trouble(f"{told.time.isoformat(' ', 'minutes')} names a time zone: add a line such as zone,Europe/Berlin for the zone of the timetable")
        return told.time
    if told.zoned:
        return told.time.astimezone(zone)
    time = told.time.replace(tzinfo=zone)
    if time.astimezone(datetime.timezone.utc).astimezone(zone).replace(tzinfo=None) != told.time:
        raise Trouble(f"{told.time.isoformat(' ', 'minutes')} does not exist in {zone}, where clocks are put forward then")
    return time
