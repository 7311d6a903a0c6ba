"""The sums that crates/calendar_sums prints, computed with Python's datetime instead of the calendar crate."""
from datetime import date, datetime, timedelta

START = datetime(2000, 1, 1)


def on(yyyymmdd):
    return date(yyyymmdd // 10000, yyyymmdd // 100 % 100, yyyymmdd % 100)


def around(first, last, x):
    return first <= x <= last if first <= last else x >= first or x <= last


def week(first, last, start, end):
    """"A shift belongs to the day it begins": the moment less the start's time of day is on that day."""
    def holds(moment):
        minute = moment.strftime("%H%M")
        inside = start <= minute < end if start < end else minute >= start or minute < end
        begun = moment - timedelta(hours=int(start[:2]), minutes=int(start[2:]))
        return around(first, last, begun.isoweekday()) and inside
    return holds


def nth(ordinal, weekday):
    def holds(moment):
        same = [d for d in range(1, moment.day + 1) if date(moment.year, moment.month, d).isoweekday() == weekday]
        return moment.isoweekday() == weekday and len(same) == ordinal
    return holds


def every(interval, first):
    def holds(moment):
        days = (moment.date() - on(first)).days
        return days >= 0 and days % interval == 0
    return holds


ROWS = [
    ("weekday", lambda m: m.isoweekday()),
    ("year", lambda m: m.year),
    ("month", lambda m: m.month),
    ("day", lambda m: m.day),
    ("there and back", lambda m: (m - START).days),
    ("dates 20040229 20961231", lambda m: on(20040229) <= m.date() <= on(20961231)),
    ("week 1 5 0700 1900", week(1, 5, "0700", "1900")),
    ("week 6 2 0000 2400", week(6, 2, "0000", "2400")),
    ("week 5 5 2200 0600", week(5, 5, "2200", "0600")),
    ("week 6 1 2200 0600", week(6, 1, "2200", "0600")),
    ("months 4 9", lambda m: around(4, 9, m.month)),
    ("months 11 2", lambda m: around(11, 2, m.month)),
    ("nth 2 1", nth(2, 1)),
    ("nth 5 7", nth(5, 7)),
    ("every 14 20000229", every(14, 20000229)),
    ("every 1000 20991231", every(1000, 20991231)),
    ("dates 20010229 20991231", lambda m: 0),
    ("months 0 12", lambda m: 0),
]

for label, value in ROWS:
    total = 0
    for day in range(36525):
        moment = START + timedelta(days=day, minutes=day * 61 % 1440, seconds=day % 60)
        total += int(value(moment)) * (day % 997 + 1)
    print(label, total)
