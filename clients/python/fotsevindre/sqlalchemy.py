"""Types of SQLAlchemy, which store values as the database's own dates, times and intervals."""

from __future__ import annotations

import datetime
import importlib
from typing import Any

from ._core import Date, OffsetDateTime, PlainDateTime, SignedDuration, Time
from .errors import check

__all__ = ["DateType", "DurationType", "OffsetDateTimeType", "PlainDateTimeType", "TimeType"]

# It is imported by name, so that a type checker doesn't need it.
_types: Any = importlib.import_module("sqlalchemy.types")
_Decorator: Any = _types.TypeDecorator


class _Stored(_Decorator):  # type: ignore[misc]
    """A type whose values `datetime` has, too. A value that it doesn't have, such as the year 10000
    or nanoseconds, raises an error before the database sees it."""

    # The type of the values, and the names of its conversions.
    kind: Any
    other: str

    @property
    def python_type(self) -> Any:
        """The type of the values."""
        return self.kind

    def coerce_compared_value(self, op: Any, value: Any) -> Any:
        """Returns the type of the other operand, such as a duration that is added to a date-time."""
        return _TYPES.get(type(value), type(self))()

    def process_bind_param(self, value: Any, dialect: Any) -> Any:
        """Converts a value for the database."""
        return None if value is None else getattr(check(value, self.kind), f"to_{self.other}")()

    def process_result_value(self, value: Any, dialect: Any) -> Any:
        """Converts a value from the database."""
        return None if value is None else getattr(self.kind, f"from_{self.other}")(value)


class DateType(_Stored):
    """A column of `Date`, stored as `DATE`."""

    impl, kind, other, cache_ok = _types.Date, Date, "date", True


class TimeType(_Stored):
    """A column of `Time`, stored as `TIME`, in whole microseconds."""

    impl, kind, other, cache_ok = _types.Time, Time, "time", True


class PlainDateTimeType(_Stored):
    """A column of `PlainDateTime`, stored as `TIMESTAMP` or `DATETIME`, in whole microseconds."""

    impl, kind, other, cache_ok = _types.DateTime, PlainDateTime, "datetime", True


class OffsetDateTimeType(_Stored):
    """A column of `OffsetDateTime`, stored by its instant: as `TIMESTAMP WITH TIME ZONE`, or at UTC if
    the database has no such type. What it reads is at UTC."""

    impl, kind, other, cache_ok = _types.DateTime(timezone=True), OffsetDateTime, "datetime", True

    def process_bind_param(self, value: Any, dialect: Any) -> Any:
        """Converts a value for the database."""
        return super().process_bind_param(value and check(value, OffsetDateTime).to_utc(), dialect)

    def process_result_value(self, value: Any, dialect: Any) -> Any:
        """Converts a value from the database, which has no offset if its type has none."""
        if value is not None and value.tzinfo is None:
            value = value.replace(tzinfo=datetime.timezone.utc)
        return value and OffsetDateTime.from_datetime(value).to_utc()


class DurationType(_Stored):
    """A column of `SignedDuration`, in whole microseconds. It is stored as `INTERVAL`, or as
    `sqlalchemy.Interval` does if the database has no such type."""

    impl, kind, other, cache_ok = _types.Interval, SignedDuration, "timedelta", True


_TYPES = {kind.kind: kind for kind in (DateType, TimeType, PlainDateTimeType, OffsetDateTimeType, DurationType)}
