"""Tests of columns of Apache Arrow, which this file makes and reads itself by the C data interface, as
https://arrow.apache.org/docs/format/CDataInterface.html describes it."""

import ctypes
import datetime
import struct
import sys
import unittest

import numpy

from fotsevindre import Date, dates_to_strings, instants_to_strings, strings_to_dates, strings_to_instants


class Schema(ctypes.Structure):
    pass


class Array(ctypes.Structure):
    pass


class Stream(ctypes.Structure):
    pass


def release_of(kind):
    return ctypes.CFUNCTYPE(None, ctypes.POINTER(kind))


Schema._fields_ = [("format", ctypes.c_char_p), ("name", ctypes.c_char_p), ("metadata", ctypes.c_char_p), ("flags", ctypes.c_int64), ("n_children", ctypes.c_int64),
    ("children", ctypes.c_void_p), ("dictionary", ctypes.c_void_p), ("release", release_of(Schema)), ("private_data", ctypes.c_void_p)]
Array._fields_ = [("length", ctypes.c_int64), ("null_count", ctypes.c_int64), ("offset", ctypes.c_int64), ("n_buffers", ctypes.c_int64), ("n_children", ctypes.c_int64),
    ("buffers", ctypes.POINTER(ctypes.c_void_p)), ("children", ctypes.c_void_p), ("dictionary", ctypes.c_void_p), ("release", release_of(Array)), ("private_data", ctypes.c_void_p)]
GetSchema = ctypes.CFUNCTYPE(ctypes.c_int, ctypes.POINTER(Stream), ctypes.POINTER(Schema))
GetNext = ctypes.CFUNCTYPE(ctypes.c_int, ctypes.POINTER(Stream), ctypes.POINTER(Array))
LastError = ctypes.CFUNCTYPE(ctypes.c_void_p, ctypes.POINTER(Stream))
Stream._fields_ = [("get_schema", GetSchema), ("get_next", GetNext), ("get_last_error", LastError), ("release", release_of(Stream)), ("private_data", ctypes.c_void_p)]

capsule_new, capsule_pointer = ctypes.pythonapi.PyCapsule_New, ctypes.pythonapi.PyCapsule_GetPointer
capsule_new.restype, capsule_new.argtypes = ctypes.py_object, [ctypes.c_void_p, ctypes.c_char_p, ctypes.c_void_p]
capsule_pointer.restype, capsule_pointer.argtypes = ctypes.c_void_p, [ctypes.py_object, ctypes.c_char_p]
# What is released, and what capsules point to, by its address.
released, kept = [], {}
REASON = ctypes.create_string_buffer(b"no more")


@release_of(Schema)
def release_schema(schema):
    released.append("schema")
    schema.contents.release = release_of(Schema)()


@release_of(Array)
def release_array(array):
    released.append("array")
    array.contents.release = release_of(Array)()


@release_of(Stream)
def release_stream(stream):
    released.append("stream")
    stream.contents.release = release_of(Stream)()


def capsule(made, name):
    kept[ctypes.addressof(made)] = made
    return capsule_new(ctypes.addressof(made), name, None)


def fill_array(array, rows, offset, null_count, buffers):
    """Fills the struct of an array, and returns what keeps its buffers."""
    owned = [None if one is None else ctypes.create_string_buffer(bytes(one), max(len(one), 1)) for one in buffers]
    pointers = (ctypes.c_void_p * len(owned))(*(None if one is None else ctypes.addressof(one) for one in owned))
    array.length, array.null_count, array.offset, array.n_buffers = rows, null_count, offset, len(owned)
    array.buffers, array.release = pointers, release_array
    return owned, pointers


def bits_of(present):
    return bytes(sum(bit << place for place, bit in enumerate(present[start:start + 8])) for start in range(0, len(present), 8))


def strings(rows, format="u", front=0):
    """Returns the buffers of strings, after some rows of another array."""
    rows = ["before"] * front + rows
    data = [b"(no value)" if row is None and format != "vu" else (row or "").encode() for row in rows]
    present = bits_of([row is not None for row in rows])
    if format == "vu":
        long = [one for one in data if len(one) > 12]
        starts = iter(numpy.cumsum([0, *map(len, long)]).tolist())
        views = [struct.pack("<i12s", len(one), one) if len(one) <= 12 else struct.pack("<i4sii", len(one), one[:4], 0, next(starts)) for one in data]
        return [present, b"".join(views), b"".join(long), struct.pack("<q", sum(map(len, long)))]
    bounds = numpy.cumsum([0, *map(len, data)]).astype("int64" if format == "U" else "int32")
    return [present, bounds.tobytes(), b"".join(data)]


class Column:
    """A column with one array."""

    def __init__(self, format, rows, buffers, offset=0, null_count=-1, dictionary=None):
        self.schema, self.array = Schema(format.encode(), b"", None, 2, 0, None, dictionary, release_schema, None), Array()
        self.buffers = fill_array(self.array, rows, offset, null_count, buffers)

    def __arrow_c_array__(self, requested_schema=None):
        return capsule(self.schema, b"arrow_schema"), capsule(self.array, b"arrow_array")


class Chunks:
    """A column with several arrays, of rows and buffers, or a stream that fails in the end."""

    def __init__(self, format, chunks, error=0):
        def get_schema(stream, schema):
            schema.contents.format, schema.contents.release = self.format, release_schema
            return 0

        def get_next(stream, array):
            if chunks:
                self.buffers.append(fill_array(array.contents, *chunks.pop(0)))
                return 0
            array.contents.release = release_of(Array)()
            return error

        self.format, self.buffers, chunks = format.encode(), [], list(chunks)
        self.stream = Stream(GetSchema(get_schema), GetNext(get_next), LastError(lambda stream: ctypes.addressof(REASON)), release_stream, None)

    def __arrow_c_stream__(self, requested_schema=None):
        return capsule(self.stream, b"arrow_array_stream")


def rows_of(column):
    """Returns the type and the rows of a column that the package made, from its buffers."""
    schema_capsule, array_capsule = column.__arrow_c_array__()
    schema = Schema.from_address(capsule_pointer(schema_capsule, b"arrow_schema"))
    array = Array.from_address(capsule_pointer(array_capsule, b"arrow_array"))
    assert (schema.flags, schema.n_children, array.n_children, array.offset) == (2, 0, 0, 0)
    format, length = schema.format.decode(), array.length
    assert all(pointer is None or pointer % 64 == 0 for pointer in array.buffers[:array.n_buffers])
    present = [True] * length
    if array.buffers[0]:
        bits = ctypes.string_at(array.buffers[0], (length + 7) // 8)
        present = [bool(bits[row // 8] >> row % 8 & 1) for row in range(length)]
    assert present.count(False) == array.null_count == column.null_count and len(column) == length
    if format == "u":
        bounds = struct.unpack(f"<{length + 1}i", ctypes.string_at(array.buffers[1], 4 * length + 4))
        data = ctypes.string_at(array.buffers[2], bounds[-1])
        found = [data[start:end].decode() for start, end in zip(bounds, bounds[1:])]
    else:
        letter, size = ("i", 4) if format == "tdD" else ("q", 8)
        found = struct.unpack(f"<{length}{letter}", ctypes.string_at(array.buffers[1], size * length))
    found = [row if is_present else None for row, is_present in zip(found, present)]
    # A consumer moves the structs, and releases them when it likes.
    moved = Array.from_buffer_copy(array)
    array.release = release_of(Array)()
    del schema_capsule, array_capsule
    moved.release(ctypes.byref(moved))
    return format, found


def day(text):
    return (datetime.date.fromisoformat(text) - datetime.date(1970, 1, 1)).days


ROWS = ["2024-02-29", None, "1969-12-31", "2024-060", None, "0001-01-01", "9999-12-31", "2024-W09-4", "2024-03-01"]
DAYS = [day("2024-02-29"), None, -1, day("2024-02-29"), None, day("0001-01-01"), day("9999-12-31"), day("2024-02-29"), day("2024-03-01")]


class Strings(unittest.TestCase):
    def test_dates(self):
        for format in ("u", "U", "vu", "z", "Z"):
            made = strings(ROWS, format if format in ("u", "U", "vu") else {"z": "u", "Z": "U"}[format])
            self.assertEqual(rows_of(strings_to_dates(Column(format, len(ROWS), made))), ("tdD", DAYS))
            for front in (1, 7, 8, 9):
                made = strings(ROWS, {"z": "u", "Z": "U"}.get(format, format), front)
                found = strings_to_dates(Column(format, len(ROWS), made, front, ROWS.count(None)))
                self.assertEqual(rows_of(found), ("tdD", DAYS))
                self.assertEqual((found.type, found.null_count, repr(found)), ("date32", 2, "<ArrowColumn of date32, 9 rows, 2 missing>"))
        found = strings_to_dates(Column("u", 1, [None, *strings(["29 February 2024 "[:-1]])[1:]], null_count=0), "%d %B %Y")
        self.assertEqual((rows_of(found), found.null_count), (("tdD", [DAYS[0]]), 0))
        # Only the bits say what is missing, whatever the bytes of such a row are.
        made = strings(["2024-02-29", "2024-02-29"])
        self.assertEqual(rows_of(strings_to_dates(Column("u", 2, [b"\x02", *made[1:]]))), ("tdD", [None, DAYS[0]]))

    def test_empty_columns(self):
        for format in ("u", "U", "vu"):
            for buffers in (strings([], format), [None] * (4 if format == "vu" else 3)):
                self.assertEqual(rows_of(strings_to_dates(Column(format, 0, buffers, null_count=0))), ("tdD", []))
            self.assertEqual(rows_of(strings_to_instants(Chunks(format, []))), ("tsn:UTC", []))
        self.assertEqual(rows_of(dates_to_strings(Chunks("tdD", []))), ("u", []))
        self.assertEqual(rows_of(strings_to_dates(Column("u", 1, [b"\0", struct.pack("<2i", 0, 0), None]))), ("tdD", [None]))

    def test_chunks(self):
        for format in ("u", "U", "vu"):
            chunks = [(3, 0, -1, strings(ROWS[:3], format)), (0, 0, 0, [None] * 4), (4, 2, 1, strings(ROWS[3:7], format, 2)), (2, 0, 0, [None, *strings(ROWS[7:], format)[1:]])]
            self.assertEqual(rows_of(strings_to_dates(Chunks(format, chunks))), ("tdD", DAYS))
            wrong = [*chunks, (2, 0, 0, [None, *strings(["2024-02-29", "2023-02-29"], format)[1:]])]
            with self.assertRaisesRegex(ValueError, "^row 10: '2023-02-29': day"):
                strings_to_dates(Chunks(format, wrong))
        with self.assertRaisesRegex(OSError, "no more"):
            strings_to_dates(Chunks("u", chunks[:1], error=5))

    def test_errors(self):
        rows = ["2024-02-29", "2023-02-29", None, "2024-02-2x", "2024–02–29"]
        column = Column("u", len(rows), strings(rows))
        with self.assertRaisesRegex(ValueError, "^row 1: '2023-02-29': day"):
            strings_to_dates(column)
        self.assertEqual(rows_of(strings_to_dates(column, errors="missing"))[1], [DAYS[0], *[None] * 4])
        dates, errors = strings_to_dates(column, errors="column")
        _, listed = strings_to_dates(rows, errors="column")
        self.assertEqual((rows_of(dates), rows_of(errors), errors.type), (("tdD", [DAYS[0], *[None] * 4]), ("u", listed), "string"))
        self.assertEqual((listed[0], listed[2], all(listed[3:])), (None, None, True))
        for other, said in [(Column("l", 1, [None, b"\0" * 8]), "strings, not of Arrow's format 'l'$"), (Column("+s", 1, [None]), "select one$"),
                (Column("i", 1, [None, b"\0" * 4], dictionary=ctypes.addressof(Schema())), "'dictionary'; cast it to strings$"),
                (Chunks("tdD", [(1, 0, 0, [None, b"\0" * 4])]), "strings, not of Arrow's format 'tdD'$")]:
            self.assertRaisesRegex(TypeError, said, strings_to_dates, other)
        self.assertRaisesRegex(TypeError, "dates, not of Arrow's format 'u'", dates_to_strings, column)
        self.assertRaisesRegex(TypeError, "timestamps, not of Arrow's format 'u'", instants_to_strings, column)
        self.assertRaises(ValueError, strings_to_dates, Column("z", 1, [None, struct.pack("<2i", 0, 1), b"\xff"]))

    def test_instants(self):
        rows = ["2024-02-29T23:59:59.25+01:00", None, "1969-12-31T23:59:59.999999999Z", "9999-12-31T00:00:00Z"]
        numbers = [1709247599250000000, None, -1]
        self.assertEqual(rows_of(strings_to_instants(Column("u", 3, strings(rows[:3])))), ("tsn:UTC", numbers))
        found = strings_to_instants(Column("vu", 3, strings(rows[:3], "vu")), "Europe/Berlin")
        self.assertEqual((rows_of(found), found.type), (("tsn:Europe/Berlin", numbers), "timestamp[ns, Europe/Berlin]"))
        with self.assertRaisesRegex(ValueError, "^row 3: '9999-12-31T00:00:00Z': out of range"):
            strings_to_instants(Column("U", 4, strings(rows, "U")))
        self.assertEqual(rows_of(strings_to_instants(Column("U", 4, strings(rows, "U")), errors="missing"))[1], [*numbers, None])

    def test_all_formats_of_iso_8601(self):
        rows = ["20240229", None, "2024-W09", "2024-0229"]
        dates, errors = strings_to_dates(Column("u", 4, strings(rows)), iso=True, errors="column")
        self.assertEqual((rows_of(dates), rows_of(errors)), (("tdD", [DAYS[0], None, DAYS[0] - 3, None]), ("u", [None, None, None, 'expected the end at position 8, found "9"'])))
        rows = ["20240229T235959,25+01", None, "1969365 23Z"]
        self.assertEqual(rows_of(strings_to_instants(Column("vu", 3, strings(rows, "vu")), iso=True)), ("tsn:UTC", [1709247599250000000, None, -3600 * 10**9]))

    def test_strings_of_dates(self):
        wanted = [None if row is None else str(Date(1970, 1, 1) + datetime.timedelta(row)) for row in DAYS]
        present = bits_of([row is not None for row in DAYS])
        for format, letter, factor in (("tdD", "i", 1), ("tdm", "q", 86_400_000), ("tss:", "q", 86_400), ("tsm:", "q", 86_400_000), ("tsu:", "q", 86_400_000_000)):
            data = struct.pack(f"<9{letter}", *(12345 if row is None else row * factor for row in DAYS))
            self.assertEqual(rows_of(dates_to_strings(Column(format, 9, [present, data]))), ("u", wanted))
        self.assertEqual(rows_of(dates_to_strings(strings_to_dates(Column("u", 9, strings(ROWS))), "%d.%m.%Y"))[1][:3], ["29.02.2024", None, "31.12.1969"])
        with self.assertRaisesRegex(ValueError, "^expected whole days"):
            dates_to_strings(Column("tdm", 1, [None, struct.pack("<q", 1)]))
        with self.assertRaisesRegex(ValueError, "^row 1: invalid date"):
            dates_to_strings(Column("tdD", 2, [None, struct.pack("<2i", 0, 2**31 - 1)]))
        with self.assertRaisesRegex(ValueError, "without a time zone"):
            dates_to_strings(Column("tss:UTC", 1, [None, b"\0" * 8]))

    def test_strings_of_instants(self):
        for format, factor in (("tss", 1), ("tsm", 10**3), ("tsu", 10**6), ("tsn", 10**9)):
            data = struct.pack("<3q", 1709247599 * factor, 7, -1 * factor)
            for zone, first, last in (("UTC", "2024-02-29T22:59:59Z", "1969-12-31T23:59:59Z"), ("+01:00", "2024-02-29T23:59:59+01:00", "1970-01-01T00:59:59+01:00"),
                    ("-09:30", "2024-02-29T13:29:59-09:30", "1969-12-31T14:29:59-09:30"), ("Asia/Kolkata", "2024-03-01T04:29:59+05:30", "1970-01-01T05:29:59+05:30")):
                self.assertEqual(rows_of(instants_to_strings(Column(f"{format}:{zone}", 3, [b"\x05", data]))), ("u", [first, None, last]))
            with self.assertRaisesRegex(ValueError, "cast it to timestamp"):
                instants_to_strings(Column(f"{format}:", 3, [None, data]))
        self.assertRaises(LookupError, instants_to_strings, Column("tsn:Nowhere", 1, [None, b"\0" * 8]))
        with self.assertRaisesRegex(ValueError, "^row 0: "):
            instants_to_strings(Column("tss:UTC", 1, [None, struct.pack("<q", 253402300800)]))
        for far in (2**62, -2**62):
            self.assertRaises(ValueError, instants_to_strings, Column("tss:UTC", 1, [None, struct.pack("<q", far)]))

    def test_a_million_rows_and_back(self):
        draw = numpy.random.default_rng(1)
        days = draw.integers(-700_000, 2_900_000, 1_000_000, "int32")
        present = (draw.integers(0, 256, 125_000, "uint8") | draw.integers(0, 256, 125_000, "uint8")).tobytes()
        written = dates_to_strings(Column("tdD", len(days), [present, days.tobytes()]))
        capsules = strings_to_dates(written).__arrow_c_array__()
        array = Array.from_address(capsule_pointer(capsules[1], b"arrow_array"))
        self.assertEqual(ctypes.string_at(array.buffers[0], 125_000), present)
        found = numpy.frombuffer(ctypes.string_at(array.buffers[1], 4_000_000), "int32")
        known = numpy.unpackbits(numpy.frombuffer(present, "uint8"), bitorder="little").astype(bool)
        numpy.testing.assert_array_equal(found[known], days[known])
        self.assertEqual((array.length, array.null_count), (1_000_000, int((~known).sum())))

    def test_references(self):
        released.clear()
        strings_to_dates(Chunks("u", [(1, 0, 0, strings(["2024-02-29"]))] * 3))
        self.assertEqual(released, ["schema", "array", "array", "array"])
        column = Column("u", 2, strings(["2024-02-29", None]))
        before = sys.getrefcount(column)
        for _ in range(100):
            strings_to_dates(column, errors="column")
        self.assertEqual((sys.getrefcount(column), column.array.length, bool(column.array.release)), (before, 2, True))
        # The capsules of a result release it, if nobody did.
        found = strings_to_dates(column)
        for _ in range(100):
            found.__arrow_c_array__()
            found.__arrow_c_schema__()


if __name__ == "__main__":
    unittest.main()
