"""The cases that the tests of several languages read, by tests/cases: nearest names, labels of fields, and what is
mended."""
import json
import os
import subprocess
import sys
import unittest

from support import in_tree, text_at

import gazhdor


def cases(name):
    return json.loads(text_at(in_tree(os.path.join("tests", "cases", name))))


class Shared(unittest.TestCase):
    def test_current(self):
        """The tables are those that tests/cases/make writes."""
        subprocess.run([sys.executable, in_tree("tests/cases/make"), "--check"], check=True)

    def test_nearest(self):
        for case in cases("nearest.json"):
            with self.subTest(case["name"]):
                error = gazhdor.UnknownName("no name is", case["name"], case["among"])
                self.assertEqual(error.nearest, case["nearest"])

    def test_labels(self):
        for case in cases("labels.json"):
            with self.subTest(case["what"]):
                *_, message = gazhdor.messages(bytes.fromhex(case["file"]), only="record")
                self.assertEqual(list(message._definition.labels), case["labels"])

    def test_mend(self):
        for case in cases("mend.json"):
            data = bytes.fromhex(case["file"])
            with self.subTest(case["what"]):
                if case["mended"] is None:
                    with self.assertRaises(gazhdor.FitError):
                        gazhdor.mend(data)
                else:
                    self.assertEqual(gazhdor.mend(data).hex(), case["mended"])


class Names(unittest.TestCase):
    def test_public(self):
        """What `dir` has is what the module promises, and nothing of its own."""
        found = {name for name in dir(gazhdor) if not name.startswith("__")}
        self.assertEqual(found, {*gazhdor.__all__, "errors"} - {"__version__"})
        for name in gazhdor.__all__:
            self.assertTrue(hasattr(gazhdor, name), name)


if __name__ == "__main__":
    unittest.main()
