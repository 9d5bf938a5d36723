"""The times of packets, by docs/json.md: comments on lines of their own, between packets."""

import re

MOST = 40  # bytes of a time
LINE = re.compile(rb"^# (?:([-+]?[0-9.]+) s|([0-9.:+TZ-]+))\r?\n", re.MULTILINE)
DATE = re.compile(rb"[0-9]{4}-[0-9]{2}-[0-9]{2}T[0-9]{2}")  # what ISO 8601 begins with


def is_seconds(text):
    return re.search(rb"[0-9]", text) is not None and text.count(b".") <= 1


def time_on(line):
    """The time of a line's match, or None."""
    seconds, date = line.groups()
    is_time = is_seconds(seconds) if seconds is not None else DATE.match(date) is not None
    time = seconds if date is None else date
    return time if is_time and len(time) <= MOST else None


def last_time(text, begin, end):
    """The time of the last time line that lies between two places, or None."""
    times = [time_on(line) for line in LINE.finditer(text, begin, end)]
    return next((time for time in reversed(times) if time is not None), None)
