"""Tests of models of Pydantic 2, and of Pydantic 1, which the package of Pydantic 2 has as well."""

import unittest

import pydantic

from fotsevindre import Date, Month, OffsetDateTime, Period, PlainDateTime, SignedDuration, Time, UtcOffset, Weekday

try:
    import pydantic.v1 as first
except ImportError:
    first = pydantic

MOMENT = OffsetDateTime(2024, 2, 29, 9, 30, nanosecond=250_000_001, offset=UtcOffset(1))
VALUES = {"day": MOMENT.date(), "at": MOMENT.time(), "local": MOMENT.local(), "moment": MOMENT, "offset": MOMENT.offset,
    "duration": SignedDuration(hours=26), "period": Period(months=1, days=1), "month": Month.May, "weekday": Weekday.Monday}
TEXTS = {name: str(value) for name, value in VALUES.items()} | {"month": 5, "weekday": 0}
WRONG = [("day", "2023-02-29"), ("day", "29/02/2024"), ("day", 20240229), ("day", None), ("at", "24:00"), ("moment", "2024-02-29T09:30"), ("offset", "1"), ("duration", "P1D"), ("period", "1 day"), ("month", 13)]


def model(base):
    """Returns a model with these types."""
    types = {"day": Date, "at": Time, "local": PlainDateTime, "moment": OffsetDateTime, "offset": UtcOffset, "duration": SignedDuration, "period": Period, "month": Month, "weekday": Weekday}
    return type("Row", (base,), {"__annotations__": types, "__module__": __name__})


@unittest.skipIf(pydantic.VERSION < "2", "needs Pydantic 2")
class PydanticTwo(unittest.TestCase):
    def test_values_and_texts(self):
        row = model(pydantic.BaseModel)
        for given in (VALUES, TEXTS):
            self.assertEqual(row(**given).model_dump(), VALUES)
        made = row(**VALUES)
        self.assertEqual((made.model_dump(mode="json"), row.model_validate_json(made.model_dump_json())), (TEXTS, made))
        self.assertEqual(row.model_json_schema()["properties"]["day"], {"title": "Day", "type": "string"})

    def test_errors(self):
        row = model(pydantic.BaseModel)
        for name, wrong in WRONG:
            with self.assertRaises(pydantic.ValidationError) as caught:
                row(**{**VALUES, name: wrong})
            self.assertEqual({error["loc"][0] for error in caught.exception.errors()}, {name})

    def test_optional_and_lists(self):
        adapter = pydantic.TypeAdapter(dict[Date, list[Time | None]])
        found = {Date(2024, 2, 29): [Time(9), None]}
        self.assertEqual(adapter.validate_json(adapter.dump_json(found)), found)


class PydanticOne(unittest.TestCase):
    def test_values_and_texts(self):
        row = model(first.BaseModel)
        for given in (VALUES, TEXTS):
            self.assertEqual(row(**given).dict(), VALUES)
        for name, wrong in WRONG:
            with self.assertRaises(first.ValidationError) as caught:
                row(**{**VALUES, name: wrong})
            self.assertEqual({error["loc"][0] for error in caught.exception.errors()}, {name})

    def test_json(self):
        class Row(first.BaseModel):
            day: Date

            class Config:
                json_encoders = {Date: str}

        self.assertEqual(Row(day="2024-02-29").json(), '{"day": "2024-02-29"}')


if __name__ == "__main__":
    unittest.main()
