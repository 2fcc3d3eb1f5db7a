"""What examples/python/load_rides.py does with names that aren't UTF-8."""
import contextlib
import os
import sqlite3
import tempfile
import unittest

from support import BYTES, example, run


class Loading(unittest.TestCase):
    def test_names(self):
        """Names that aren't UTF-8, of rides, of one that isn't there, and of the folder of the database, end
        nothing."""
        with tempfile.TemporaryDirectory() as folder:
            inner = os.path.join(os.fsencode(folder), b"a\xfe")
            os.mkdir(inner)
            paths = [os.path.join(inner, name) for name in (b"\xff.fit", "\u00e9.fit".encode(), b"none\xff.fit",
                b"b.fit")]
            for path in (paths[0], paths[1], paths[3]):
                with open(path, "wb") as file:
                    file.write(BYTES)
            database = os.path.join(inner, b"rides.db")
            done = run(example("load_rides.py"), database, "2", *paths)
            self.assertEqual((done.returncode, done.stderr), (0, b""))
            self.assertIn(b"4 files, 1 not good, 432 rows", done.stdout)
            with contextlib.closing(sqlite3.connect(os.fsdecode(database))) as into:
                rows = into.execute(
                    "select path, finding, (select count(*) from record where ride = id) from ride order by id"
                ).fetchall()
        self.assertEqual([(path[len(folder) :], count) for path, _, count in rows],
                         [("/a\\xfe/\\xff.fit", 144), ("/a\\xfe/\u00e9.fit", 144), ("/a\\xfe/none\\xff.fit", 0),
                             ("/a\\xfe/b.fit", 144)])
        self.assertEqual([finding for _, finding, _ in rows if finding != "ok"], [rows[2][1]])
        self.assertIn("No such file or directory", rows[2][1])


if __name__ == "__main__":
    unittest.main()
