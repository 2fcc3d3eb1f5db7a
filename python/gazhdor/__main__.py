"""The command: python3 -m gazhdor, which pip also installs as gazhdor."""
import os
import sys

from ._command.running import run


def main() -> int:
    """Does what the words of the command line say, and returns the exit status."""
    name = os.path.basename(sys.argv[0])
    return run("python3 -m gazhdor" if name == "__main__.py" else "gazhdor", sys.argv[1:])


if __name__ == "__main__":
    sys.exit(main())
