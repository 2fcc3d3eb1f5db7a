"""What the wheel of gazhdor must have and do, how the module finds its library, and the example that dask runs."""
import base64
import csv
import hashlib
import importlib.util
import io
import json
import os
import platform
import re
import shutil
import subprocess
import sys
import time
import types
import unittest
import unittest.mock
import zipfile

from support import BYTES, PYTHON, RIDE, VERSION, bytes_at, example, folder, in_tree, left_out

MACHINE = f"{platform.machine()}-linux"
LIBRARY = f"release/{MACHINE}/libgazhdor.so"
MODULE = os.path.join(PYTHON, "gazhdor")
WORK = folder()
SONAME = ".".join(VERSION.split(".")[:2])


def variables(**more):
    """The variables of the shell, by which no other library is found than the one that a test lays down."""
    return {**{name: value for name, value in os.environ.items() if name not in ("GAZHDOR_LIBRARY", "PYTHONPATH")},
        **more}


def run(*words, python=sys.executable, **how):
    how.setdefault("env", variables())
    return subprocess.run([python, *words], stdout=subprocess.PIPE, stderr=subprocess.PIPE, **how)


def has(done, what):
    """Leaves a case out where what it needs isn't there."""
    if not done:
        left_out(f"there is no {what}")


def wheel_in(folder):
    """The wheel, as the backend makes it in a folder."""
    os.makedirs(folder, exist_ok=True)
    done = run("-c", "import backend, sys; print(backend.build_wheel(sys.argv[1]))", folder, cwd=PYTHON)
    assert done.returncode == 0, done.stderr
    return os.path.join(folder, done.stdout.decode().strip())


def imported(place, program="import gazhdor", **more):
    """What a new Python with nothing but a folder or a zip file of modules does, elsewhere."""
    return run("-W", "error", "-c", program, cwd="/", env=dict(more, PYTHONPATH=place, PYTHONDONTWRITEBYTECODE="1",
        TMPDIR=WORK))


def modules():
    """The files of the module and of the packages in it, by their names there."""
    for folder, folders, names in os.walk(MODULE):
        folders[:] = [name for name in folders if name != "__pycache__"]
        yield from (os.path.relpath(os.path.join(folder, name), MODULE) for name in names)


USE = f"import gazhdor; print(gazhdor.__version__, gazhdor.check({RIDE!r}), gazhdor.__file__)"


class Wheel(unittest.TestCase):
    @classmethod
    def setUpClass(cls):
        cls.wheel = wheel_in(os.path.join(WORK, "first"))

    def test_same_bytes_each_time(self):
        time.sleep(0.01)
        self.assertEqual(bytes_at(self.wheel), bytes_at(wheel_in(os.path.join(WORK, "second"))))

    def test_files(self):
        """The record has each file with its checksum and length, but itself without."""
        about = f"gazhdor-{VERSION}.dist-info"
        with zipfile.ZipFile(self.wheel) as wheel:
            files = {name: wheel.read(name) for name in wheel.namelist()}
        wanted = {f"gazhdor/{name}": f"python/gazhdor/{name}" for name in modules()}
        wanted.update({"gazhdor/VERSION": "VERSION", "gazhdor/libgazhdor.so": LIBRARY, f"{about}/LICENSE": "LICENSE"})
        for name, path in wanted.items():
            self.assertEqual(files[name], bytes_at(in_tree(path)))
        self.assertEqual(sorted(files), sorted([*wanted, *(f"{about}/{name}" for name in ("METADATA", "WHEEL",
            "RECORD", "entry_points.txt"))]))
        record = list(csv.reader(io.StringIO(files[f"{about}/RECORD"].decode())))
        self.assertEqual([row[0] for row in record], list(files))
        for name, told, length in record[:-1]:
            digest = hashlib.sha256(files[name]).digest()
            self.assertEqual((told, length), ("sha256=" + base64.urlsafe_b64encode(digest).decode().rstrip("="),
                str(len(files[name]))))
        self.assertEqual(record[-1], [f"{about}/RECORD", "", ""])

    def test_tag(self):
        """The tag names a C library that has every version of names which the library asks for."""
        tag = re.search(rf"-py3-none-manylinux_2_(\d+)_{platform.machine()}\.whl$", self.wheel)
        with zipfile.ZipFile(self.wheel) as wheel:
            told = wheel.read(f"gazhdor-{VERSION}.dist-info/WHEEL").decode()
        self.assertEqual(told.splitlines()[2:],
            ["Root-Is-Purelib: false", f"Tag: py3-none-manylinux_2_{tag.group(1)}_{platform.machine()}"])
        has(shutil.which("objdump"), "objdump, so the tag isn't compared with what the library needs")
        said = subprocess.run(["objdump", "-T", in_tree(LIBRARY)], stdout=subprocess.PIPE, check=True).stdout.decode()
        needed = [tuple(map(int, number.split("."))) for number in re.findall(r"\(?GLIBC_([\d.]+)\)?", said)]
        self.assertTrue(needed)
        self.assertEqual(int(tag.group(1)), max(17, max(needed)[1]))

    def test_zip(self):
        """The wheel as it is, by a name that Python and dask take for a zip file of modules. Nothing of it stays
        elsewhere."""
        there = shutil.copy(self.wheel, os.path.join(WORK, "gazhdor.zip"))
        before = os.listdir(WORK)
        done = imported(there, USE)
        self.assertEqual((done.stdout.decode(), done.stderr), (f"{VERSION} ok {there}/gazhdor/__init__.py\n", b""))
        self.assertEqual(os.listdir(WORK), before)

    def test_windows(self):
        """A wheel for Windows, which says so, and isn't taken as a zip file there."""
        os.makedirs(os.path.join(WORK, "windows"))
        dll = shutil.copy(in_tree(LIBRARY), os.path.join(WORK, "windows", "gazhdor.dll"))
        build = f"import backend; print(backend.build_wheel({WORK!r}, {{'library': {dll!r}, 'platform': 'win_amd64'}}))"
        name = run("-c", build, cwd=PYTHON).stdout.decode().strip()
        self.assertEqual(name, f"gazhdor-{VERSION}-py3-none-win_amd64.whl")
        there = shutil.copy(os.path.join(WORK, name), os.path.join(WORK, "windows.zip"))
        done = imported(there, "import sys\nsys.platform = 'win32'\nimport gazhdor")
        self.assertIn(f"LibraryUnusable: {there}/gazhdor/gazhdor.dll is in a zip file", done.stderr.decode())

    def test_platforms(self):
        """pip takes the wheel of each system for a machine of that."""
        has(run("-m", "pip", "--version").returncode == 0, "pip")
        systems = (("win_amd64", "gazhdor.dll", "win_amd64"),
            ("macosx_11_0_x86_64", "libgazhdor.dylib", "macosx_13_0_x86_64"),
            ("macosx_11_0_arm64", "libgazhdor.dylib", "macosx_14_0_arm64"),
            ("musllinux_1_1_x86_64", "libgazhdor.so", "musllinux_1_1_x86_64"),
            ("musllinux_1_1_aarch64", "libgazhdor.so", "musllinux_1_1_aarch64"))
        words = ["-m", "pip", "install", "--quiet", "--no-index", "--no-compile", "--disable-pip-version-check",
            "--only-binary", ":all:"]
        for tag, name, machine in systems:
            with self.subTest(tag):
                to = os.path.join(WORK, tag)
                os.makedirs(to)
                library = shutil.copy(in_tree(LIBRARY), os.path.join(to, name))
                settings = {"library": library, "platform": tag}
                build = f"import backend; print(backend.build_wheel({to!r}, {settings!r}))"
                wheel = os.path.join(to, run("-c", build, cwd=PYTHON).stdout.decode().strip())
                self.assertEqual(os.path.basename(wheel), f"gazhdor-{VERSION}-py3-none-{tag}.whl")
                done = run(*words, "--platform", machine, "--target", os.path.join(to, "there"), wheel)
                self.assertEqual((done.returncode, done.stdout), (0, b""), done.stderr)
                self.assertEqual(bytes_at(os.path.join(to, "there", "gazhdor", name)), bytes_at(library))

    def test_pip(self):
        """Installed of the tree, and of the wheel: the same files, which need nothing of the tree."""
        has(run("-m", "pip", "--version").returncode == 0, "pip")
        listed = []
        for source in (PYTHON, self.wheel):
            to = os.path.join(WORK, f"to {len(listed)}")
            done = run("-m", "pip", "install", "--no-index", "--no-compile", "--disable-pip-version-check", "--target",
                to, source)
            self.assertEqual(done.returncode, 0, done.stderr.decode())
            done = imported(to, USE)
            self.assertEqual((done.stdout.decode(), done.stderr), (f"{VERSION} ok {to}/gazhdor/__init__.py\n", b""))
            listed.append(sorted(os.listdir(os.path.join(to, "gazhdor"))))
            command = os.path.join(to, "bin", "gazhdor")
            done = subprocess.run([command, "check", RIDE], stdout=subprocess.PIPE, env=variables(PYTHONPATH=to))
            self.assertEqual(done.stdout.decode(), f"{RIDE}: ok, 1 file\n")
        self.assertEqual(listed[0], listed[1])
        elsewhere = ["--platform", "manylinux_2_17_riscv64", "--only-binary", ":all:", "--target", to]
        other = run("-m", "pip", "install", "--no-index", *elsewhere, self.wheel)
        self.assertNotEqual(other.returncode, 0)
        self.assertIn(b"is not a supported wheel on this platform", other.stderr)

    def test_machines(self):
        """A wheel for the processor that is named, of those that there are; and none of a library that is damaged."""
        backend = importlib.util.module_from_spec(importlib.util.spec_from_file_location("backend",
            os.path.join(PYTHON, "backend.py")))
        backend.__spec__.loader.exec_module(backend)
        self.assertEqual(backend.build_wheel(WORK, {"processor": platform.machine()}), os.path.basename(self.wheel))
        with self.assertRaisesRegex(RuntimeError,
                "libraries for x86_64 Linux and for aarch64 Linux, and none for riscv64 Linux"):
            backend.build_wheel(WORK, {"processor": "riscv64"})
        backend.TREE = os.path.join(WORK, "damaged")
        os.makedirs(os.path.join(backend.TREE, "release", MACHINE))
        for name in ("VERSION", "LICENSE", "release/SHA256SUMS", LIBRARY):
            shutil.copy(in_tree(name), os.path.join(backend.TREE, name))
        self.assertEqual(backend.build_wheel(WORK), os.path.basename(self.wheel))
        with open(os.path.join(backend.TREE, LIBRARY), "r+b") as file:
            file.seek(5000)
            byte = file.read(1)[0]
            file.seek(5000)
            file.write(bytes([byte ^ 1]))
        with self.assertRaisesRegex(RuntimeError, "libgazhdor.so is damaged: it is not what release/SHA256SUMS says"):
            backend.build_wheel(WORK)

    def test_no_library(self):
        """Where the tree isn't whole, the backend says so."""
        part = os.path.join(WORK, "part")
        shutil.copytree(PYTHON, part)
        done = run("-c", "import backend; backend.build_wheel('.')", cwd=part)
        self.assertEqual(done.returncode, 1)
        self.assertIn(
            f"{os.path.join(WORK, 'VERSION')} isn't there: the wheel is made where the whole tree is".encode(),
            done.stderr)


class Library(unittest.TestCase):
    """Each way in which a library can't be used has an error of its own."""

    SAY = """
try:
    import gazhdor
except ImportError as error:
    print(type(error).__module__, type(error).__name__, error.name, error.path, error, sep="\\n")
"""

    @classmethod
    def setUpClass(cls):
        cls.alone = os.path.join(WORK, "alone")
        shutil.copytree(MODULE, os.path.join(cls.alone, "gazhdor"))
        shutil.copy(in_tree("VERSION"), os.path.join(cls.alone, "gazhdor"))
        cls.library = shutil.copy(in_tree(LIBRARY), os.path.join(cls.alone, "gazhdor"))
        cls.bytes = bytes_at(cls.library)

    def refused(self, kind, path, what, before="", say=SAY, **more):
        done = imported(self.alone, before + say, **more)
        self.assertEqual(done.stderr, b"")
        module, name, about, found, said = done.stdout.decode().splitlines()
        self.assertEqual((module, name, about, found), ("gazhdor.errors", kind, "gazhdor", str(path)))
        self.assertIn(what, said)

    def written(self, name, data):
        path = os.path.join(WORK, name)
        with open(path, "wb") as file:
            file.write(data)
        return path

    def test_beside(self):
        self.assertEqual(imported(self.alone, USE).stdout.decode(), f"{VERSION} ok {self.alone}/gazhdor/__init__.py\n")

    def test_tree(self):
        """In the tree version and library are those above python/, unless they are beside the module."""
        tree = os.path.join(WORK, "a tree")
        python = os.path.join(tree, "python")
        shutil.copytree(MODULE, os.path.join(python, "gazhdor"))
        shutil.copy(in_tree("VERSION"), tree)
        os.makedirs(os.path.join(tree, "release", MACHINE))
        for name in ("release/SOURCES", LIBRARY):
            shutil.copy(in_tree(name), os.path.join(tree, name))
        says = "import gazhdor; print(gazhdor.__version__, gazhdor._library._name)"
        self.assertEqual(imported(python, says).stdout.decode(), f"{VERSION} {tree}/{LIBRARY}\n")
        self.assertEqual(imported(PYTHON, USE).stdout.decode(), f"{VERSION} ok {PYTHON}/gazhdor/__init__.py\n")
        for name in ("VERSION", LIBRARY):
            shutil.copy(os.path.join(tree, name), os.path.join(python, "gazhdor"))
            with open(os.path.join(tree, name), "wb") as file:
                file.write(b"another")
        self.assertEqual(imported(python, says).stdout.decode(), f"{VERSION} {python}/gazhdor/libgazhdor.so\n")

    def test_another_tree(self):
        """A folder release/ above a module that stands in no tree of its own is none of ours."""
        folder = os.path.join(WORK, "an application")
        shutil.copytree(MODULE, os.path.join(folder, "modules", "gazhdor"))
        os.makedirs(os.path.join(folder, "release", MACHINE))
        for name in ("VERSION", "release/SOURCES", LIBRARY):
            shutil.copy(in_tree(name), os.path.join(folder, name))
        done = imported(os.path.join(folder, "modules"), self.SAY)
        self.assertEqual(done.stdout.decode().splitlines()[:2], ["gazhdor.errors", "LibraryMissing"])

    def test_missing(self):
        none = os.path.join(WORK, "none.so")
        self.refused("LibraryMissing", none, f"{none} isn't there, which GAZHDOR_LIBRARY names", GAZHDOR_LIBRARY=none)
        os.rename(self.library, none + ".away")
        try:
            what = f"{self.library} isn't there, and the system has no libgazhdor.so.{SONAME}: "
            what += "install the wheel, or set GAZHDOR_LIBRARY"
            self.refused("LibraryMissing", self.library, what)
        finally:
            os.rename(none + ".away", self.library)

    def test_unusable(self):
        text = self.written("text.so", b"no library")
        self.refused("LibraryUnusable", text, f"{text} can't be loaded: {text}: file too short", GAZHDOR_LIBRARY=text)
        with open("/proc/self/maps") as maps:
            another = next(line.split()[-1] for line in maps if re.search(r"/libc[.-]", line))
        self.refused("LibraryUnusable", another, f"{another} isn't a library of gazhdor {VERSION}: ",
            GAZHDOR_LIBRARY=another)

    def test_version(self):
        """A library whose own version is that of a release that never was."""
        self.assertIn(b"\0" + VERSION.encode() + b"\0", self.bytes)
        other = "9" + VERSION[1:]
        older = self.written("older.so", self.bytes.replace(b"\0" + VERSION.encode() + b"\0",
            b"\0" + other.encode() + b"\0"))
        self.refused("WrongVersion", older, f"{older} is version {other}, and the module gazhdor is version {VERSION}",
            GAZHDOR_LIBRARY=older)

    def test_older(self):
        """A library of this version that was made before one of the calls: `import gazhdor` says which it lacks."""
        for call in (b"gazhdor_open", b"gazhdor_feed", b"gazhdor_finish", b"gazhdor_close", b"gazhdor_from_messages"):
            older = self.written(f"{call.decode()}.so", self.bytes.replace(b"\0" + call + b"\0",
                b"\0" + call[:-1] + b"0\0"))
            self.refused("LibraryUnusable", older, f"{older} isn't a library of gazhdor {VERSION}: ",
                GAZHDOR_LIBRARY=older)

    def test_machine(self):
        """A module that was unpacked on another machine than pip would allow."""
        for name, value, machine in (("machine", "riscv64", "riscv64 Linux"),
                ("system", "Darwin", f"{platform.machine()} Darwin")):
            before = f"import platform\nplatform.{name} = lambda: {value!r}\n"
            self.beside_refused(b"no library", "WrongMachine", f"this is 64-bit Python on {machine}: pip install, of the folder", before)
        # The library itself for another processor, number 243.
        other = self.written("riscv.so", self.bytes[:18] + (243).to_bytes(2, "little") + self.bytes[20:])
        self.refused("LibraryUnusable", other, f"{other} can't be loaded: ", GAZHDOR_LIBRARY=other)

    def beside_refused(self, library, kind, what, before):
        """What is said where such a library stands beside the module."""
        with open(self.library, "wb") as file:
            file.write(library)
        try:
            self.refused(kind, None, what, before)
        finally:
            with open(self.library, "wb") as file:
                file.write(self.bytes)

    def test_shell(self):
        done = run("-m", "gazhdor", "check", RIDE, env=variables(PYTHONPATH=PYTHON, GAZHDOR_LIBRARY="none.so"))
        self.assertEqual((done.returncode, done.stdout, done.stderr.count(b"\n")), (1, b"", 1))
        self.assertIn(b"(LibraryMissing: none.so isn't there, which GAZHDOR_LIBRARY names)", done.stderr)


class Dask(unittest.TestCase):
    def start(self, kind, *words):
        log = open(os.path.join(WORK, "dask.log"), "ab")
        self.addCleanup(log.close)
        # Its pages, which are asked for nothing, would else be there for all the world.
        alone = ["--host", "127.0.0.1", "--dashboard-address", "127.0.0.1:0", "--no-dashboard", "--scheduler-file",
            self.scheduler]
        words = [self.python, "-m", "dask", kind, *alone, *words]
        started = subprocess.Popen(words, cwd=WORK, env=variables(), stdout=log, stderr=log)
        self.addCleanup(self.end, started)

    @staticmethod
    def end(started):
        started.terminate()
        try:
            started.wait(timeout=20)
        except subprocess.TimeoutExpired:
            started.kill()
            started.wait()

    def address(self):
        for _ in range(300):
            try:
                with open(self.scheduler) as file:
                    return json.load(file)["address"]
            except (OSError, ValueError):
                time.sleep(0.1)
        self.fail("the scheduler of dask didn't begin within 30 s")

    def rides(self, count, minutes):
        """Rides in a folder, each with the figures that its text has, before a file is made of it."""
        folder = os.path.join(WORK, "dask rides")
        self.assertEqual(run(example("make_rides.py"), folder, str(count), str(minutes),
            env=variables(PYTHONPATH=PYTHON)).returncode, 0)
        spec = importlib.util.spec_from_file_location("rides_as_text", example("make_rides.py"))
        made = importlib.util.module_from_spec(spec)
        with unittest.mock.patch.dict(sys.modules, gazhdor=types.SimpleNamespace(from_csv=lambda text: text)):
            spec.loader.exec_module(made)
        wanted = {}
        for seed in range(count):
            text = made.ride(seed, minutes)
            hearts = [int(heart) for heart in re.findall(r"^field,heart_rate,(\d+),", text, re.M)]
            distance = re.findall(r"^field,distance,([\d.]+),", text, re.M)[-1]
            wanted[f"ride{seed:04}.fit"] = float(distance), 60 * minutes - 1, sum(hearts) / len(hearts)
        return folder, wanted

    def test_rides(self):
        """By a scheduler and two workers of its own: more rides than a task has, one that is cut, and one that can't be
        read."""
        pythons = [python for python in (sys.executable, "/usr/bin/python3") if os.path.exists(python)]
        pythons = [python for python in pythons if run("-c", "import dask.distributed", python=python).returncode == 0]
        has(pythons, "dask.distributed (Debian's python3-distributed), so examples/python/dask_rides.py isn't tried")
        self.python, self.scheduler = pythons[0], os.path.join(WORK, "scheduler.json")
        self.start("scheduler", "--port", "0")
        for _ in range(2):
            self.start("worker", "--nthreads", "1", "--no-nanny", "--local-directory", WORK)
        folder, wanted = self.rides(27, 1)
        cut, none = os.path.join(folder, "cut.fit"), os.path.join(folder, "none.fit")
        with open(cut, "wb") as file:
            file.write(BYTES[:2000])
        os.mkdir(none)
        wheel = wheel_in(os.path.join(WORK, "sent"))
        done = run(example("dask_rides.py"), self.address(), wheel, folder, python=self.python, timeout=120)
        self.assertEqual(done.returncode, 0, done.stderr.decode())
        said = done.stderr.decode().splitlines()
        self.assertEqual(said[:2], [f"{cut}: truncated at byte 2000", f"{none}: [Errno 21] Is a directory: {none!r}"])
        self.assertRegex(said[2], "^29 rides, 2 not good, in ")
        rows = list(csv.reader(io.StringIO(done.stdout.decode())))
        self.assertEqual(rows[0], ["ride", "distance", "time", "heart_rate"])
        self.assertEqual([row[0] for row in rows[1:]], sorted(wanted))
        for name, *figures in rows[1:]:
            for figure, value in zip(figures, wanted[name]):
                self.assertAlmostEqual(float(figure), value, delta=0.051)


if __name__ == "__main__":
    unittest.main()
