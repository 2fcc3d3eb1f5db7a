"""What the tests of the module gazhdor share: where the tree is, folders of their own, recordings, and what is left
out. It comes before gazhdor among the imports of a test, as it has Python find that of the tree."""
import atexit
import functools
import os
import shutil
import subprocess
import sys
import tempfile
import traceback
import unittest

TREE = os.path.dirname(os.path.dirname(os.path.dirname(os.path.abspath(__file__))))
PYTHON = os.path.join(TREE, "python")
sys.path.insert(0, PYTHON)
os.environ["PYTHONPATH"] = PYTHON  # for the programs that tests start


def in_tree(name):
    """The path of a file of the tree."""
    return os.path.join(TREE, name)


def bytes_at(path):
    with open(path, "rb") as file:
        return file.read()


def text_at(path):
    with open(path, encoding="utf-8") as file:
        return file.read()


RIDE = in_tree("examples/ride.fit")
BYTES = bytes_at(RIDE)
VERSION = text_at(in_tree("VERSION")).strip()


def folder():
    """A new folder, which is removed in the end."""
    made = tempfile.mkdtemp(prefix="gazhdor-tests-")
    atexit.register(shutil.rmtree, made, ignore_errors=True)
    return made


def left_out(why):
    """Skips the test, and says so, which unittest itself does with -v alone."""
    print(f"left out: {why}", file=sys.stderr)
    raise unittest.SkipTest(why)


def example(name):
    """The path of an example for Python."""
    return in_tree(os.path.join("examples", "python", name))


def run(*words, **how):
    """What Python does with these words."""
    return subprocess.run([sys.executable, *words], stdout=subprocess.PIPE, stderr=subprocess.PIPE, **how)


def command(*words, input=b""):
    """What `python3 -m gazhdor` does with these words, as `run`, but in a process that is forked of this one, where Python
    is started and the module is loaded: that takes a tenth of the time."""
    if not hasattr(os, "fork"):
        return run("-m", "gazhdor", *words, input=input)
    with tempfile.TemporaryFile() as given, tempfile.TemporaryFile() as made, tempfile.TemporaryFile() as faults:
        given.write(input)
        given.seek(0)
        process = os.fork()
        if process == 0:
            _command(words, given, made, faults)
        status = os.waitstatus_to_exitcode(os.waitpid(process, 0)[1])
        made.seek(0)
        faults.seek(0)
        return subprocess.CompletedProcess(words, status, made.read(), faults.read())


def _command(words, *files):
    """Does what the words say, with these files for input, output and faults, and ends the process."""
    status = 1
    try:
        for number, file in enumerate(files):
            os.dup2(file.fileno(), number)
        sys.stdin, sys.stdout = open(0, closefd=False), open(1, "w", closefd=False)
        sys.stderr = open(2, "w", buffering=1, errors="backslashreplace", closefd=False)
        from gazhdor import __main__ as program

        sys.argv = [program.__file__, *words]
        status = program.main()
        sys.stdout.flush()
    except BaseException:
        traceback.print_exc()
    finally:
        os._exit(status)


@functools.lru_cache(maxsize=None)
def recorder():
    """The program that makes recordings, in a folder for these."""
    if not shutil.which("cc"):
        left_out("there is no cc, so no recordings are made")
    program = os.path.join(folder(), "recording")
    subprocess.run(["cc", "-O1", "-o", program, in_tree("bench/recording.c")], check=True)
    return program


@functools.lru_cache(maxsize=None)
def recording(kind, size):
    """The path of a recording of a kind, as "plain", of about a size, as "40k"."""
    path = f"{recorder()}-{kind}-{size}.fit"
    subprocess.run([recorder(), kind, size, path], check=True)
    return path


@functools.lru_cache(maxsize=None)
def known():
    """The bytes of the known files by their names."""
    made = folder()
    subprocess.run([in_tree("tests/known"), made], check=True)
    return {name[: -len(".fit")]: bytes_at(os.path.join(made, name)) for name in os.listdir(made)}
