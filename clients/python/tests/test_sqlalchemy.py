"""Tests of the types of SQLAlchemy, in SQLite, whose strings and whose values of datetime they are."""

import datetime
import unittest

import sqlalchemy
import sqlalchemy.orm
from sqlalchemy.dialects import mysql, postgresql

from fotsevindre import Date, OffsetDateTime, PlainDateTime, SignedDuration, Time, UtcOffset
from fotsevindre.sqlalchemy import DateType, DurationType, OffsetDateTimeType, PlainDateTimeType, TimeType

TYPES = {"day": DateType, "at": TimeType, "local": PlainDateTimeType, "moment": OffsetDateTimeType, "duration": DurationType}
PLAIN = PlainDateTime(2024, 2, 29, 23, 30, nanosecond=250_000)
VALUES = {"day": Date(2024, 2, 29), "at": Time(1, 2, 3, nanosecond=4000), "local": PLAIN, "moment": PLAIN.assume_offset(UtcOffset(-5)),
    "duration": SignedDuration(days=-2, microseconds=1)}
OTHERS = {"day": datetime.date(2024, 2, 29), "at": datetime.time(1, 2, 3, 4), "local": datetime.datetime(2024, 2, 29, 23, 30, 0, 250),
    "moment": datetime.datetime(2024, 3, 1, 4, 30, 0, 250), "duration": datetime.timedelta(days=-2, microseconds=1)}
NONE = dict.fromkeys(TYPES)


class Types(unittest.TestCase):
    def setUp(self):
        self.table = sqlalchemy.Table("rows", sqlalchemy.MetaData(), *(sqlalchemy.Column(name, kind) for name, kind in TYPES.items()))
        self.engine = sqlalchemy.create_engine("sqlite://", future=True)
        self.connection = self.engine.connect()
        self.table.create(self.connection)
        self.addCleanup(self.engine.dispose)
        self.addCleanup(self.connection.close)

    def add(self, **values):
        self.connection.execute(self.table.insert(), values)

    def rows(self, *conditions):
        return [dict(row._mapping) for row in self.connection.execute(sqlalchemy.select(self.table).where(*conditions))]

    def test_values_and_missing_ones(self):
        self.add(**VALUES)
        self.add(**NONE)
        first, second = self.rows()
        self.assertEqual((first, second), (VALUES, NONE))
        self.assertEqual(first["moment"].offset, UtcOffset())
        self.assertEqual(list(self.connection.exec_driver_sql("SELECT * FROM rows"))[0], ("2024-02-29", "01:02:03.000004",
            "2024-02-29 23:30:00.000250", "2024-03-01 04:30:00.000250", "1969-12-30 00:00:00.000001"))
        columns = [sqlalchemy.type_coerce(self.table.c[name], kind.impl) for name, kind in TYPES.items()]
        self.assertEqual(list(self.connection.execute(sqlalchemy.select(*columns)))[0], tuple(OTHERS.values()))
        self.assertEqual([column.type.python_type for column in self.table.c], [type(value) for value in VALUES.values()])

    def test_conditions(self):
        columns = self.table.c
        self.add(**VALUES)
        for condition in (columns.day == Date(2024, 2, 29), columns.day < Date(2024, 3, 1), columns.at.in_([Time(1, 2, 3, nanosecond=4000)]),
                columns.local > PlainDateTime(2024, 2, 29), columns.moment == VALUES["moment"].to_offset(UtcOffset(9)),
                columns.duration < SignedDuration.ZERO, columns.local.between(PLAIN, PLAIN)):
            self.assertEqual((len(self.rows(condition)), len(self.rows(~condition))), (1, 0))
        self.assertEqual(self.rows(columns.moment > VALUES["moment"]), [])
        later = (columns.local + SignedDuration(hours=1)).right
        self.assertIsInstance(later.type, DurationType)
        shown = sqlalchemy.select(columns.at).where(columns.day == Date(2024, 2, 29)).compile(self.engine, compile_kwargs={"literal_binds": True})
        self.assertIn("rows.day = '2024-02-29'", str(shown))

    def test_errors(self):
        for name, wrong, error in [("day", Date(10000, 1, 1), OverflowError), ("day", Date(0, 1, 1), OverflowError), ("at", Time(nanosecond=1), ValueError),
                ("local", PLAIN.replace(nanosecond=1), ValueError), ("moment", OffsetDateTime(9999, 12, 31, 23, offset=UtcOffset(-5)), OverflowError),
                ("duration", SignedDuration(nanoseconds=1), ValueError), ("duration", SignedDuration(days=10**9), OverflowError),
                *((name, other, TypeError) for name, other in OTHERS.items()), ("day", "2024-02-29", TypeError), ("moment", PLAIN, TypeError), ("moment", "", TypeError)]:
            with self.assertRaises(sqlalchemy.exc.StatementError) as caught:
                self.add(**{name: wrong})
            self.assertIsInstance(caught.exception.orig, error)
        self.assertEqual(self.rows(), [])

    def test_other_databases(self):
        aware = OTHERS["moment"].replace(tzinfo=datetime.timezone.utc).astimezone(datetime.timezone(datetime.timedelta(hours=2)))
        for dialect in (postgresql.dialect(), mysql.dialect()):
            kind = OffsetDateTimeType()
            self.assertEqual(kind.process_bind_param(VALUES["moment"], dialect), aware)
            self.assertEqual(kind.process_result_value(aware, dialect), VALUES["moment"])
            self.assertEqual(kind.process_result_value(aware, dialect).offset, UtcOffset())
        made = str(sqlalchemy.schema.CreateTable(self.table).compile(dialect=postgresql.dialect()))
        self.assertEqual([line.strip(", \t") for line in made.splitlines()[2:7]],
            ["day DATE", "at TIME WITHOUT TIME ZONE", "local TIMESTAMP WITHOUT TIME ZONE", "moment TIMESTAMP WITH TIME ZONE", "duration INTERVAL"])

    def test_a_mapped_class(self):
        base = sqlalchemy.orm.declarative_base()

        class Row(base):
            __tablename__ = "others"
            day = sqlalchemy.Column(DateType, primary_key=True)
            moment = sqlalchemy.Column(OffsetDateTimeType)

        base.metadata.create_all(self.connection)
        with sqlalchemy.orm.Session(self.connection, future=True) as session:
            session.add(Row(day=Date(2024, 2, 29), moment=VALUES["moment"]))
            session.flush()
            session.expire_all()
            self.assertEqual(session.get(Row, Date(2024, 2, 29)).moment, VALUES["moment"])
            self.assertIsNone(session.get(Row, Date(2024, 3, 1)))


if __name__ == "__main__":
    unittest.main()
