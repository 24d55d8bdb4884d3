"""What a checker of types makes of calls: it takes all of these but the marked ones. Nothing runs this file."""

import datetime
from typing import List, Optional, Tuple

from fotsevindre import *

day: Date = Date.from_calendar_date(2024, Month.February, 29)
same: Date = Date.from_calendar_date(2024, 2, 29)
last: Date = Date.MAX
made: Tuple[Date, Time, UtcOffset, SignedDuration] = (Date(2024, 2, 29), Time(10, 30), UtcOffset(-5, 30), SignedDuration(days=1, hours=2))
is_one_day: bool = (last - day).days == 1 and day.year == 2024 and day.weekday() in {5, 6} and day.month == 2
parsed: Tuple[Time, UtcOffset, PlainDateTime, OffsetDateTime] = (
    Time.parse("9:05"), UtcOffset.parse("Z"), PlainDateTime.parse("2024-02-29T9:05"), OffsetDateTime.fromisoformat("2024-02-29T09:05Z"))
next_month: Date = day.add_months(1)
work: Workdays = Workdays(holidays={day})
working: Tuple[Tuple[Weekday, ...], Date, int] = (work.weekdays, work.add_workdays(day, 3), work.workdays_between(day, last))
no_time: SignedDuration = SignedDuration.ZERO
later: Date = day + SignedDuration.days(366) + datetime.timedelta(days=1)
by_delta: Tuple[Date, Date, PlainDateTime, OffsetDateTime] = (
    datetime.timedelta(1) + day, day - datetime.timedelta(1), PlainDateTime.MIN + datetime.timedelta(hours=1), datetime.timedelta(1) + OffsetDateTime.UNIX_EPOCH)
between: SignedDuration = last - day
next_day: Optional[Date] = day.next_day()
parts: Tuple[int, Month, int] = day.to_calendar_date()
days: Days = day.iter_to(last)
first: Date = days[0]
count: int = len(days[1:]) + day.year + day.month
is_less: bool = day < last and day.weekday() == Weekday.Friday and UtcOffset.UTC >= UtcOffset.UTC
pair: Optional[Tuple[Date, Time]] = add_to_pair(day, Time.MIDNIGHT, no_time * 2 / 3)
text: Optional[str] = rfc3339_text(day, Time.MAX, UtcOffset.UTC)
date: datetime.date = day.replace(year=2025, day=1).to_date()
local: PlainDateTime = PlainDateTime.new(day, Time.MIDNIGHT).replace(day=1, hour=23) + no_time
moment: OffsetDateTime = local.assume_utc().replace_date(last).replace(minute=30) - no_time
shown: Optional[OffsetDateTime] = moment.checked_to_utc()
since: SignedDuration = moment - OffsetDateTime.UNIX_EPOCH
is_later: bool = local > PlainDateTime.MIN and moment >= OffsetDateTime.from_datetime(moment.to_datetime())
rule: Rule = Rule(day, Frequency.Monthly, months=[Month.June, 7], weekdays=[Weekday.Monday, (-1, Weekday.Friday)], until=last)
of_rule: List[Date] = [date for date in rule] + rule.first_days(3) + list(rule.days_after(day))
next_of_rule: Optional[Date] = rule.next_after(day)
by_text: List[Date] = list(Recurrence.parse("FREQ=DAILY;COUNT=2").days(day)) + list(Recurrence("FREQ=DAILY;COUNT=2").days_from(day, last))
recurrence: Recurrence = Recurrence.parse("FREQ=DAILY;COUNT=2")
of_text: Tuple[str, Rule, Optional[int], Optional[Date]] = (recurrence.text, recurrence.rule(day), recurrence.count, recurrence.until)
lists: Tuple[Tuple[Month, ...], Tuple[int, ...]] = (recurrence.months, recurrence.month_days)
printed: Tuple[str, Date, Time] = (day.strftime(Format("%d")), Date.strptime("2024-02-29", "%F"), Time.strptime("9:05", "%-H:%M"))
zone: Zone = Zone.from_posix("CET-1CEST,M3.5.0,M10.5.0/3")
zoned: Tuple[OffsetDateTime, Local, int] = (moment.in_zone(zone), zone.resolve(local), zone.instants([0], Policy.Reject).error_count)
of_zone: List[OffsetDateTime] = list(recurrence.moments(local, zone)) + list(recurrence.moments(local, zone=zone, since=moment))
in_zone: ZonedDateTime = ZonedDateTime.from_local(local, zone, Policy.Later).with_time(Time.MAX) + Period(months=1) - datetime.timedelta(1)
of_moment: Tuple[ZonedDateTime, Optional[ZonedDateTime], SignedDuration, int] = (
    ZonedDateTime(moment, zone).in_zone(zone).start_of_day(), in_zone.checked_add_period(Period(days=1)), in_zone - in_zone, in_zone.year)
starts: Tuple[ZonedDateTime, SignedDuration, datetime.datetime] = (zone.start_of_day(day), zone.day_length(day), in_zone.to_datetime())
moved: Tuple[Date, PlainDateTime, Optional[Date], Date] = (
    day + Period(months=1), local + Period(duration=no_time), day.checked_add_period(Period(days=-1)), day.nth_period(Period(weeks=2), 3))
period: Period = day.period_until(last)
rounded: Tuple[Time, PlainDateTime, OffsetDateTime, ZonedDateTime, SignedDuration] = (
    Time.MAX.round(SignedDuration.HOUR), local.round(SignedDuration.HOUR, RoundingMode.Floor), moment.round(SignedDuration.HOUR), in_zone.round(SignedDuration.HOUR, RoundingMode.Ceil), no_time.round(SignedDuration.HOUR))
by_iso: Tuple[SignedDuration, Period, str] = (SignedDuration.parse("PT1H"), Period.fromisoformat("P1D"), period.isoformat())
steps: List[Date] = [date for date in Steps(day, period)]
of_steps: Tuple[PlainDateTime, Optional[int], Period] = (local.nth_period(period, 2), local.step_of(period, local), local.period_until_by(local, CalendarUnit.Day))
of_zoned: Tuple[ZonedDateTime, Period, ZonedDateTime, ZonedDateTime] = (
    in_zone.nth_period(period, 2), in_zone.period_until(in_zone, CalendarUnit.Day), in_zone.moved_to(day), in_zone.end_of(CalendarUnit.Month))
back: Tuple[Date, PlainDateTime, ZonedDateTime, Period] = (day - Period(days=1), local - Period(months=1), in_zone - Period(years=1), -period)
months_later: Tuple[PlainDateTime, OffsetDateTime, ZonedDateTime, Optional[PlainDateTime]] = (
    local.add_months(1), moment.add_years(1), in_zone.add_months(1, Policy.Later), local.checked_add_months(1))
current: Tuple[Date, PlainDateTime, PlainDateTime, OffsetDateTime, OffsetDateTime, ZonedDateTime] = (
    Date.today(zone), PlainDateTime.now(), PlainDateTime.now(zone), OffsetDateTime.now(), OffsetDateTime.now(UtcOffset(1)), ZonedDateTime.now(zone))
by_components: Tuple[PlainDateTime, OffsetDateTime, OffsetDateTime] = (
    PlainDateTime(2024, 2, 29, 9, nanosecond=1), OffsetDateTime(2024, 2, 29, offset=UtcOffset()), moment.replace(offset=UtcOffset(1)))
of_datetime: Tuple[int, IsoCalendarDate, int, PlainDateTime] = (day.isoweekday(), day.isocalendar(), in_zone.isocalendar().week, PlainDateTime.combine(day, Time.MAX))
numbers: Tuple[float, float, int, SignedDuration, float] = (no_time.total_seconds(), no_time / no_time, no_time // no_time, no_time % no_time, in_zone.timestamp())
of_timestamp: Tuple[OffsetDateTime, ZonedDateTime, str] = (OffsetDateTime.fromtimestamp(1.5), ZonedDateTime.fromtimestamp(1, zone), in_zone.isoformat())
span: DateRange = DateRange(day, last)
of_days: Tuple[bool, int, List[Date], Optional[DateRange], Tuple[int, int], bool] = (
    day in span, len(span), list(span), span.intersection(span), span.share(span), span.overlaps(span))
of_period: Tuple[int, SignedDuration] = (period.years + period.months + period.weeks + period.days, period.duration)
weekly: Recurrence = Recurrence.from_parts(Frequency.Weekly, bymonth=Month.June, byweekday=[Weekday.Monday], wkst=Weekday.Sunday, until=moment)
last_of_zone: Optional[OffsetDateTime] = weekly.until_moment
fault: Tuple[int, Optional[str]] = (ParseRuleError(1, ParseRuleErrorKind.Missing).position, ParseRuleError(1, ParseRuleErrorKind.Missing).part)

Date.from_calendar_date("2024", 2, 29)  # refused
Date.from_calendar_date(2024.0, 2, 29)  # refused
Date.from_calendar_date(2024, 2)  # refused
Date.from_iso_week_date(2024, 9, 4)  # refused
day + 1  # refused
day < Time.MIDNIGHT  # refused
day.year() == 2024  # refused
may: Month = 5  # refused
monday: Weekday = 0  # refused
(last - day).hours  # refused
day.next_day().year  # refused
day.next_occurrence(1)  # refused
SignedDuration.days(1.5)  # refused
Time.MIDNIGHT + datetime.timedelta(hours=1)  # refused
datetime.timedelta(1) - day  # refused
SignedDuration.DAY + datetime.timedelta(1)  # refused
same.to_calendar_date()[0].upper()  # refused
local < moment  # refused
moment - local  # refused
moment + 1  # refused
moment.replace(hour="1")  # refused
moment.to_offset(3600)  # refused
Rule(day, 3)  # refused
Rule(day, Frequency.Monthly, weekdays=[5])  # refused
rule.next_after(day).year  # refused
Recurrence.parse(b"FREQ=DAILY")  # refused
recurrence.rule(1)  # refused
recurrence.count + 1  # refused
recurrence.moments(day, zone)  # refused
recurrence.moments(local, "Europe/Berlin")  # refused
recurrence.moments(local)  # refused
weekly.until_moment.local()  # refused
shown.unix_timestamp()  # refused
day.add_months(number=1)  # refused
day.strftime(29)  # refused
zone.instants([0], 3)  # refused
moment.in_zone("Europe/Berlin")  # refused
moment - Period(days=1)  # refused
local.round(1)  # refused
local.round(no_time, 0)  # refused
in_zone.round(3600)  # refused
Steps(moment, period)  # refused
Time(1, 2, 3, 4)  # refused
PlainDateTime(2024, 2)  # refused
OffsetDateTime(2024, 2, 29)  # refused
OffsetDateTime.now(zone)  # refused
moment + Period(days=1)  # refused
in_zone + 1  # refused
in_zone < moment  # refused
Period(days="1")  # refused
Period(1)  # refused
span.share(day)  # refused
period < period  # refused
ZonedDateTime(local, zone)  # refused
ZonedDateTime.from_local(local, "Europe/Berlin")  # refused
in_zone.checked_add(no_time).year  # refused
in_zone.add_period(no_time)  # refused
zone.add_days([0], 1, 0)  # refused
