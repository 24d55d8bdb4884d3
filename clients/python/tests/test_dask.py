"""Tests of the columns in blocks of dask, over a cluster of two local workers: so columns can outgrow one machine."""

import pathlib
import re
import unittest

import dask.array
import distributed
import numpy

import fotsevindre


def month_later(days):
    return fotsevindre.dates_add_months(days, 1).dates


class Dask(unittest.TestCase):
    def test_blocks_on_two_workers(self):
        days = numpy.arange("1990-01-01", "2030-01-01", dtype="datetime64[D]")
        with distributed.LocalCluster(n_workers=2, threads_per_worker=1, dashboard_address=None) as cluster, distributed.Client(cluster):
            found = dask.array.from_array(days, chunks=1000).map_blocks(month_later, dtype="datetime64[D]").compute()
        self.assertEqual((len(found), found.dtype), (len(days), "datetime64[D]"))
        self.assertTrue((found == month_later(days)).all())

    def test_the_block_of_the_page(self):
        page = (pathlib.Path(__file__).resolve().parents[3] / "docs/COLUMNS.md").read_text(encoding="utf-8")
        days = numpy.array(["2024-02-29", "1969-12-31"], dtype="datetime64[D]")
        names = {"dask": dask, "days": days, "dates_add_months": fotsevindre.dates_add_months}
        exec(re.search(r"```python\n(days = dask.*?)```", page, re.DOTALL)[1], names)
        self.assertTrue((names["moved"].compute() == month_later(days)).all())


if __name__ == "__main__":
    unittest.main()
