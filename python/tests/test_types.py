"""Whether mypy takes the types of the module, and sees what is wrong in a program that uses it."""
import os
import shutil
import subprocess
import unittest

from support import PYTHON, folder, left_out
from typed import TYPED, WRONG


class Types(unittest.TestCase):
    def test_mypy(self):
        """The module, and a program that uses all of it, in the strict way; and each wrong use is seen."""
        if not shutil.which("mypy"):
            left_out("there is no mypy, so the types aren't checked")
        work = folder()
        program = os.path.join(work, "typed.py")
        lines = len(TYPED.splitlines())
        with open(program, "w") as file:
            file.write(TYPED + "".join(f"{wrong}\n" for wrong in WRONG))
        words = ["mypy", "--strict", "--cache-dir", os.path.join(work, "types"), os.path.join(PYTHON, "gazhdor"), program]
        done = subprocess.run(words, stdout=subprocess.PIPE)
        said = [line for line in done.stdout.decode().splitlines() if ": error:" in line]
        self.assertEqual([line.split(":")[:2] for line in said],
            [[program, str(lines + number)] for number in range(1, len(WRONG) + 1)])


if __name__ == "__main__":
    unittest.main()
