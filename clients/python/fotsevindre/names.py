"""Names of languages."""

from __future__ import annotations

import dataclasses
import locale
import time
from typing import Iterable

from . import _core

# The tables in the order of C, and the number of names of each.
TABLES = {"months": 12, "months_alone": 12, "short_months": 12, "weekdays": 7, "short_weekdays": 7, "periods": 2, "lower_periods": 2}


@dataclasses.dataclass(frozen=True)
class Names:
    """The names of a language: months from January on, weekdays from Monday on, and AM before PM.

    Some languages have two forms of months: `months` has the form beside a day, for %B, and `months_alone`
    the form without a day, for %OB. By default both are the same, there are no names of halves of the day, and
    `lower_periods` are `periods` in lower case. A name has at most 127 bytes of UTF-8.

    >>> Names.of("fr").months[1]
    'f\xe9vrier'
    """

    months: tuple[str, ...]
    short_months: tuple[str, ...]
    weekdays: tuple[str, ...]
    short_weekdays: tuple[str, ...]
    periods: tuple[str, ...] = ("", "")
    months_alone: tuple[str, ...] = ()
    lower_periods: tuple[str, ...] = ()

    def __post_init__(self) -> None:
        own = vars(self)
        own["months_alone"] = own["months_alone"] or own["months"]
        own["lower_periods"] = own["lower_periods"] or tuple(name.lower() for name in own["periods"])
        for table, count in TABLES.items():
            own[table] = tuple(own[table])
            if len(own[table]) != count:
                raise ValueError(f"expected {count} {table}, not {len(own[table])}")

    @classmethod
    def of(cls, code: str) -> Names:
        """Returns the names of a language by its code of ISO 639-1, from a locale of glibc: ar, de, en,
        es, fr, it, ja, pl, pt, ru, tr or zh. Raises ValueError for another code."""
        names = iter(_core.names_of_language(code).decode().split("\0"))
        return cls(**{table: tuple(next(names) for _ in range(count)) for table, count in TABLES.items()})

    @classmethod
    def from_locale(cls) -> Names:
        """Returns the names of the current locale of LC_TIME, without spaces around them. Use
        `locale.setlocale` before."""
        def of(prefix: str, indices: Iterable[int]) -> tuple[str, ...]:
            return tuple(locale.nl_langinfo(getattr(locale, f"{prefix}_{index}")).strip() for index in indices)

        months, from_monday = range(1, 13), (2, 3, 4, 5, 6, 7, 1)
        # The form without a day. Where strftime doesn't know the item, it keeps it.
        alone = tuple(time.strftime("%OB", (2024, month, 1, 0, 0, 0, 0, 1, 0)).strip() for month in months)
        periods = tuple(locale.nl_langinfo(item).strip() for item in (locale.AM_STR, locale.PM_STR))
        return cls(of("MON", months), of("ABMON", months), of("DAY", from_monday), of("ABDAY", from_monday), periods,
            () if "OB" in alone[0] else alone)

    def _bytes(self) -> bytes:
        """Returns the names with a zero byte after each."""
        names = [name for table in TABLES for name in getattr(self, table)]
        if any("\0" in name for name in names):
            raise ValueError("a name has a zero character")
        return "".join(f"{name}\0" for name in names).encode()
