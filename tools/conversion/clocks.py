"""Schedules and dates: time zones from the footers of the machine's zone files, and dates of tags."""

import pathlib
import re
from datetime import datetime, timedelta, timezone

import zoneinfo

UTC_NAMES = ("", "UTC", "GMT")
FORM = "%Y/%m/%d %H:%M:%S"
LAST_DAY = datetime(9999, 12, 30)


def footer(name):
    """The POSIX rule by which the machine's file of this zone goes on, None where there is none."""
    if not re.fullmatch(r"[A-Za-z0-9_+-]+(/[A-Za-z0-9_+-]+)*", name):
        return None
    for folder in zoneinfo.TZPATH:
        try:
            data = pathlib.Path(folder, name).read_bytes()
        except OSError:
            continue
        if data[:4] == b"TZif" and data[4:5] >= b"2" and data.endswith(b"\n"):
            return data.rsplit(b"\n", 2)[1].decode("ascii", "replace") or None
    return None


def local_time(text):
    """None where it is no date with a time of day."""
    if not re.fullmatch(r"[0-9]{4}/[0-9]{2}/[0-9]{2} [0-9]{2}:[0-9]{2}:[0-9]{2}", text):
        return None
    try:
        return datetime.strptime(text, FORM)
    except ValueError:
        return None


class Clocks:
    """The time zones that schedules name, with their rules, and the one of schedules that name none."""

    def __init__(self, own=None):
        self.rules, self.own = {}, own

    def rows(self):
        return [{"name": name, "rule": rule} for name, rule in sorted(self.rules.items())]

    def schedule_fault(self, schedule):
        """Why the schedule can't be said, None where it can; the rule of its zone is kept then."""
        if schedule.get("recurrences"):
            return "V12 (a schedule recurs)"
        if not schedule.get("timeZone") and self.own:
            schedule["timeZone"] = self.own
        name, ends = schedule.get("timeZone", ""), [schedule.get(key, "") for key in ("startTime", "endTime")]
        rule = None if name in UTC_NAMES else footer(name)
        if name not in UTC_NAMES and rule is None:
            return "V12 (this machine has no rule for the time zone %s)" % name
        times = [local_time(text) for text in ends]
        for text, time in zip(ends, times):
            if text and time is None:
                return "V12 (%s is no time)" % text
            if rule and time and time >= LAST_DAY:
                return "V12 (%s is no instant)" % text
        if all(times) and instant(times[0], name) > instant(times[1], name):
            return "V12 (it ends before it starts)"
        if rule:
            self.rules[name] = rule
        return None


def instant(time, name):
    zone = timezone.utc if name in UTC_NAMES else zoneinfo.ZoneInfo(name)
    return time.replace(tzinfo=zone).astimezone(timezone.utc) if time.year > 1 else time.replace(tzinfo=timezone.utc)


def expiry_date(text):
    """As it is written here, None where it doesn't read. Atlas writes dates with their offset."""
    if re.fullmatch(r"[0-9]{4}/[0-9]{2}/[0-9]{2}", text) and local_time(text + " 00:00:00") or local_time(text):
        return text
    found = re.fullmatch(r"([0-9]{4})-([0-9]{2})-([0-9]{2})T([0-9]{2}:[0-9]{2}:[0-9]{2})(?:\.[0-9]{1,9})?(Z|([+-])([0-9]{2}):?([0-9]{2}))", text)
    time = found and local_time("%s/%s/%s %s" % found.group(1, 2, 3, 4))
    if not time:
        return None
    away = timedelta() if found[5] == "Z" else timedelta(hours=int(found[7]), minutes=int(found[8])) * (-1 if found[6] == "-" else 1)
    try:
        return (time - away).strftime(FORM).rjust(19, "0")
    except OverflowError:
        return None
