"""The command gazhdor: its words, folders and packed files, what it says of other files, terminals and interrupts."""
import array
import fcntl
import gzip
import io
import json
import os
import pty
import select
import shutil
import signal
import subprocess
import sys
import termios
import time
import unittest
import zipfile

from support import BYTES, RIDE, VERSION, bytes_at, folder, in_tree, left_out, text_at

import gazhdor
from gazhdor._command.archives import MOST
from gazhdor._command.faults import NotUnpacked
from gazhdor._command.inputs import Input
from gazhdor._command.kinds import kind_of
from gazhdor._command.parsing import COMMANDS, parser_of
from gazhdor._command.progress import Progress

WORK = folder()
WORDS = [sys.executable, "-m", "gazhdor"]


def command(*words, **how):
    how = how or {"stdin": subprocess.DEVNULL}
    return subprocess.run([*WORDS, *words], stdout=subprocess.PIPE, stderr=subprocess.PIPE, **how)


def written(name, data, folder=WORK):
    path = os.path.join(folder, name)
    os.makedirs(os.path.dirname(path), exist_ok=True)
    with open(path, "wb") as file:
        file.write(data)
    return path


def zipped(*files, **how):
    """A zip file of these files."""
    sink = io.BytesIO()
    with zipfile.ZipFile(sink, "w", **how) as archive:
        for name, data in files:
            archive.writestr(name, data)
    return sink.getvalue()


class Words(unittest.TestCase):
    def test_help(self):
        for words in (["--help"], ["-h"], ["help"]):
            said = command(*words).stdout.decode()
            self.assertTrue(all(f"\n  {name} " in said for name in COMMANDS), said)
        for name in COMMANDS:
            said = command(name, "--help").stdout.decode()
            self.assertIn(f"gazhdor {name} ", said)
            self.assertEqual(command(name, "a", "-h").stdout.decode(), said)
            self.assertEqual(command("help", name).stdout.decode(), said)
        for option in ("--drop", "--shift", "--from", "--to"):
            self.assertIn(option, command("edit", "--help").stdout.decode())
        self.assertEqual(command("--version").stdout.decode(), f"gazhdor {VERSION}\n")

    def test_not_understood(self):
        for words, said in (
            ([], "--help"),
            (["frob"], "no command 'frob'"),
            (["check", "--frob"], "--frob"),
            (["edit", "a"], "it takes IN and OUT"),
            (["join", "a", "b"], "two FILEs"),
            (["mend", "a", "b", "c"], "IN"),
            (["json", "--names"], "--names"),
            (["json", "--names", os.path.join(WORK, "none"), RIDE], "--names"),
            (["table", "-o"], "-o"),
            (["help", "frob"], "frob"),
        ):
            done = command(*words)
            self.assertEqual((done.returncode, done.stdout), (2, b""), words)
            self.assertIn(said, done.stderr.decode())
            self.assertNotIn("Traceback", done.stderr.decode())

    def test_shift(self):
        """A time to move by, in words: the messages are as much later as with the seconds."""
        into = os.path.join(WORK, "shifted.fit")
        first = gazhdor.lists(RIDE, "record", [".seconds"])[".seconds"][0]
        told = {"1h30m": 5400, "-45s": -45, "+2d": 172800, "3600": 3600, "-1h5s": -3605, "90m": 5400}
        for word, seconds in told.items():
            for words in (["--shift", word], [f"--shift={word}"]):
                self.assertEqual(command("edit", *words, RIDE, into).returncode, 0, words)
                self.assertEqual(gazhdor.lists(into, "record", [".seconds"])[".seconds"][0] - first, seconds)
        for word in ("1x", "", "h", "1m1h", "1h1h", "-", "1.5h", "1h 5m"):
            self.assertEqual(command("edit", f"--shift={word}", RIDE, into).returncode, 2, word)

    def test_names_of_files(self):
        """Options may stand anywhere; after -- all are files."""
        written("--json", BYTES)
        done = command("check", RIDE, "--json", "-", input=BYTES)
        self.assertEqual([json.loads(line)["file"] for line in done.stdout.splitlines()], [RIDE, "-"])
        done = command("check", "--", "--json", cwd=WORK)
        self.assertEqual(done.stdout, b"--json: ok, 1 file\n")

    def test_output(self):
        """OUT has what standard output would have; it isn't touched where nothing is written, nor where it is read."""
        into = os.path.join(WORK, "out")
        for name in ("table", "to-csv", "show", "json", "gpx"):
            self.assertEqual(command(name, "-o", into, RIDE).stdout, b"")
            self.assertEqual(bytes_at(into), command(name, RIDE).stdout, name)
        before = bytes_at(into)
        self.assertEqual(command("table", "-o", into, into).returncode, 2)
        self.assertEqual(bytes_at(into), before)
        self.assertEqual(command("from-csv", "-o", into, RIDE).returncode, 1)
        text = command("to-csv", RIDE).stdout
        self.assertEqual(command("from-csv", "-o", into, input=text).returncode, 0)
        self.assertEqual(bytes_at(into), BYTES)
        self.assertEqual(command("table", "--output", WORK, RIDE).returncode, 4)


class Pages(unittest.TestCase):
    """The page and the completions have each command and each option that the parser has."""

    def told(self, name):
        return text_at(in_tree(f"packages/python3/{name}"))

    def test_commands(self):
        page = self.told("gazhdor.1").replace("\\-", "-")
        for name in ("gazhdor.bash", "_gazhdor", "gazhdor.fish"):
            for command in (*COMMANDS, "help"):
                self.assertRegex(self.told(name), rf"\b{command}\b", (name, command))
        for command in COMMANDS:
            self.assertRegex(page, rf"(?m)^\.BR? .*\b{command}\b", command)
            parser = parser_of("gazhdor", command)
            options = [option for action in parser._actions for option in action.option_strings]
            for option in (option for option in options if option.startswith("--")):
                self.assertIn(option, page)
                self.assertIn(f"-l {option[2:]} ", self.told("gazhdor.fish"))
                for name in ("gazhdor.bash", "_gazhdor"):
                    self.assertIn(option, self.told(name), (name, option))

    def test_bash(self):
        """What bash puts after some words, where it is installed."""
        if not shutil.which("bash"):
            left_out("there is no bash, so its completion is not tried")
        for words, wanted in ((["jo"], "join"), (["edit", "--f"], "--from"), (["json", "--nu"], "--numbers"),
                (["help", "me"], "mend"), (["check", "ri"], "ride.fit"), (["frob", ""], "")):
            script = '. "$0"; COMP_WORDS=(gazhdor "$@"); COMP_CWORD=$#; _gazhdor 2>/dev/null; echo "${COMPREPLY[*]}"'
            done = subprocess.run(["bash", "-c", script, in_tree("packages/python3/gazhdor.bash"), *words],
                cwd=in_tree("examples"), stdout=subprocess.PIPE, check=True)
            self.assertEqual(done.stdout.decode().strip(), wanted, words)


class Check(unittest.TestCase):
    def test_json(self):
        bad, none = written("bad.fit", BYTES[:2000]), os.path.join(WORK, "none.fit")
        done = command("check", "--json", RIDE, bad, none, "-", input=b"text")
        told = [json.loads(line) for line in done.stdout.splitlines()]
        whole = {"good": True, "files": 1, "place": None, "reason": None, "is": None, "text": "ok"}
        self.assertEqual(told[0], {"file": RIDE, **whole})
        self.assertEqual(told[1], {"file": bad, "good": False, "files": 0, "place": 2000, "reason": None, "is": None,
            "text": "truncated at byte 2000"})
        self.assertEqual(told[2], {"file": none, "good": False, "error": "No such file or directory"})
        self.assertEqual((told[3]["reason"], told[3]["is"], done.returncode), ("Protocol", "text", 4))

    def test_kinds(self):
        """What is no FIT file is named, in the commands that read one."""
        kinds = {b"a ride\n": "text", b"<?xml?><gpx>": "GPX", b"": "empty", b"\x89PNG\r\n": "a picture"}
        kinds[b"\xef\xbb\xbf{}"] = "JSON"
        for data, kind in kinds.items():
            done = command("check", input=data)
            self.assertRegex(done.stdout.decode(), rf"-: (refused|truncated) at byte \d+.* \(this is {kind}\)\n")
            for words in (["table"], ["edit", "-", "none.fit"], ["mend"]):
                self.assertIn(f"(this is {kind})", command(*words, input=data).stderr.decode())
        self.assertIn(b"(this is a FIT file)", command("from-csv", input=BYTES).stderr)

    def test_kind_of(self):
        for case in json.loads(text_at(in_tree("tests/cases/kinds.json"))):
            self.assertEqual(kind_of(bytes.fromhex(case["front"])), case["kind"], case)
        self.assertIsNone(kind_of(BYTES))


class Packed(unittest.TestCase):
    def test_commands(self):
        """A gzip and a zip file are read as the file in them, from a path and from a pipe."""
        beside = ("a/readme.txt", b"x"), ("__MACOSX/a/._Ride.fit", b"x")
        halves = gzip.compress(BYTES[:100]) + gzip.compress(BYTES[100:])
        wanted = command("table", RIDE).stdout
        for data in (gzip.compress(BYTES), halves, zipped(("r.fit", BYTES)), zipped(*beside, ("a/Ride.FIT", BYTES))):
            path = written("packed", data)
            for words, how in ((["table", path], {}), (["table"], {"input": data})):
                done = command(*words, **how)
                self.assertEqual((done.returncode, done.stdout, done.stderr), (0, wanted, b""))
            into = os.path.join(WORK, "edited.fit")
            self.assertEqual(command("edit", path, into).returncode, 0)
            self.assertEqual(bytes_at(into), BYTES)

    def refused(self, data, *said):
        path = written("packed", data)
        named = [(words, {}) for words in (["check", path], ["mend", path], ["edit", path, "x"])]
        for words, how in (*named, (["check"], {"input": data})):
            done = command(*words, **how)
            self.assertEqual(done.returncode, 1, (words, done))
            self.assertNotIn(b"Traceback", done.stderr)
            told = (done.stdout + done.stderr).decode()
            self.assertTrue(any(part in told for part in said), (said, told))

    def test_what_cant_be_unpacked(self):
        whole = gzip.compress(BYTES)
        self.refused(whole[:-20], "the gzip file ends too soon")
        self.refused(whole[:200] + bytes(3) + whole[203:], "the gzip file is damaged", "refused at byte")
        self.refused(whole[:-8] + bytes(4) + whole[-4:], "the gzip file is damaged: CRC check failed")
        self.refused(zipped(("a.txt", b"x")), "a zip file without a FIT file")
        self.refused(zipped(("a.fit", BYTES), ("b.fit", BYTES)), "a zip file with 2 FIT files")
        self.refused(zipped(("a.fit", BYTES), compression=zipfile.ZIP_LZMA), "packed in an unusual way")
        data = bytearray(zipped(("a.fit", BYTES)))
        data[6] |= 1
        data[data.rindex(b"PK\1\2") + 8] |= 1
        self.refused(bytes(data), "a zip file with a password")
        self.refused(zipped(("a.fit", BYTES))[:-30], "the zip file is damaged")
        self.refused(b"PK", "the zip file is damaged")
        self.refused(zipped(("a.fit", b"text")), "(this is text)")
        self.refused(gzip.compress(gzip.compress(BYTES)), "(this is a gzip file)")

    def test_damaged(self):
        """Whatever byte is changed, it is the bytes that were packed, or the reason is told."""
        refused = 0
        for data in (gzip.compress(BYTES, mtime=0), zipped(("a.fit", BYTES), compression=zipfile.ZIP_DEFLATED)):
            for at in range(2, len(data), 7):
                for bits in (0x41, 0xFF):
                    changed = bytearray(data)
                    changed[at] ^= bits
                    try:
                        self.assertEqual(self.unpacked(bytes(changed)), BYTES)
                    except NotUnpacked:
                        refused += 1
        self.assertGreater(refused, 100)

    def unpacked(self, data):
        source = Input(io.BytesIO(data), Progress())
        return b"".join(iter(lambda: source.read(65536), b""))

    def test_bombs(self):
        """What unpacks to very much ends with an answer, in little memory."""
        count = MOST // len(BYTES) + 1
        bomb = written("bomb.fit.gz", gzip.compress(BYTES * count, 1))
        deflated = {"compression": zipfile.ZIP_DEFLATED, "compresslevel": 1}
        inside = written("bomb.zip", zipped(("a.fit", BYTES * count), **deflated))
        limited = ["sh", "-c", 'ulimit -v 700000; exec "$0" "$@"', *WORDS]
        for path in (bomb, inside):
            for words in (["check", path], ["mend", path]):
                done = subprocess.run([*limited, *words], stdout=subprocess.PIPE, stderr=subprocess.PIPE)
                self.assertEqual(done.returncode, 1, done.stderr)
                self.assertIn(b"has more than 268,435,456 bytes in it", done.stderr)

    def test_long_lists(self):
        """A zip file that says of itself that it has very many files is refused before they are read."""
        many = zipped(*((f"{number:0200}.txt", b"") for number in range(6000)), ("a.fit", BYTES))
        done = command("check", written("many.zip", many))
        self.assertEqual((done.returncode, done.stdout), (1, b""))
        self.assertIn(b"the list of its files is too long", done.stderr)


class Folders(unittest.TestCase):
    def test_order(self):
        """The files that are named in their order, those of folders by their names; what is no file is passed over."""
        top = os.path.join(WORK, "rides")
        for name in ("b.fit", "a/2.fit", "a/10.FIT", "notes.txt", "f/none.txt"):
            written(name, BYTES, top)
        written("c.fit.gz", gzip.compress(BYTES), top)
        written("d.zip", zipped(("x.fit", BYTES)), top)
        written("e.zip", zipped(("x.txt", BYTES)), top)
        os.mkfifo(os.path.join(top, "pipe.fit"))
        os.symlink(top, os.path.join(top, "a", "loop.fit"))
        os.symlink(os.path.join(top, "b.fit"), os.path.join(top, "link.fit"))
        done = command("check", "-r", RIDE, top, "-", input=BYTES)
        names = [line.rpartition(": ")[0] for line in done.stdout.decode().splitlines()]
        found = ["a/10.FIT", "a/2.fit", "b.fit", "c.fit.gz", "d.zip", "link.fit"]
        self.assertEqual(names, [RIDE, *(os.path.join(top, name) for name in found), "-"])
        self.assertEqual((done.returncode, done.stderr), (0, b""))
        self.assertEqual(command("check", top).stderr.decode(), f"{top}: Is a directory\n")
        done = command("table", "--recursive", os.path.join(top, "f"))
        self.assertEqual((done.returncode, done.stderr.decode()), (4, f"{top}/f: there is no FIT file in it\n"))

    def test_deep(self):
        top = os.path.join(WORK, "deep")
        self.addCleanup(subprocess.run, ["rm", "-rf", top])
        here = top
        os.mkdir(here)
        for _ in range(1200):
            here = os.path.join(here, "d")
            os.mkdir(here)
        written("a.fit", BYTES, here)
        self.assertEqual(command("check", "-r", top).stdout.decode(), f"{here}/a.fit: ok, 1 file\n")

    def test_hostile_names(self):
        """A name can't end a line, move the cursor or hide letters."""
        top = os.path.join(WORK, "names")
        for name in ("x\nride.fit: ok, 1 file\n.fit", "\x1b[2J.fit", "\u202egpj.fit", "\u2028.fit"):
            written(name, BYTES, top)
        done = command("check", "-r", top)
        self.assertEqual(len(done.stdout.splitlines()), 4)
        self.assertFalse(any(letter.encode() in done.stdout for letter in "\x1b\u202e\u2028"))
        self.assertIn(rb"x\nride.fit: ok, 1 file\n.fit: ok", done.stdout)
        self.assertIn(rb"\u202egpj.fit: ok", done.stdout)


class Terminals(unittest.TestCase):
    def started(self, *words):
        """A command on a terminal, with a pipe for its input, and the terminal's other side."""
        main, side = pty.openpty()
        self.addCleanup(os.close, main)
        process = subprocess.Popen([*WORDS, *words], stdin=subprocess.PIPE, stdout=side, stderr=side)
        os.close(side)
        return process, main

    def said(self, main, seconds=None):
        """What is on the terminal, to its end, or as much as comes in some seconds."""
        said = b""
        while seconds is None or select.select([main], [], [], seconds)[0]:
            try:
                part = os.read(main, 65536)
            except OSError:
                break
            said += part
        return said

    def on_terminal(self, *words):
        process, main = self.started(*words)
        process.stdin.close()
        said = self.said(main)
        return said, process.wait()

    def test_no_bytes(self):
        for words in (["from-csv", RIDE], ["mend", RIDE], ["edit", RIDE, "-"], ["join", RIDE, RIDE, "-"]):
            said, status = self.on_terminal(*words)
            self.assertEqual(status, 2)
            self.assertIn(b"what it writes is no text, and the output is a terminal", said)
        said, status = self.on_terminal("table", RIDE)
        self.assertEqual((status, said[:5]), (0, b"file,"))

    def fed_slowly(self, *words):
        """What a command says whose input comes in small pieces, until it has said something, and then at once."""
        process, main = self.started(*words)
        said = b""
        for at in range(0, len(BYTES), 20):
            if said:
                process.stdin.write(BYTES[at:])
                break
            process.stdin.write(BYTES[at : at + 20])
            process.stdin.flush()
            said += self.said(main, 0.2)
        process.stdin.close()
        said += self.said(main)
        self.assertEqual(process.wait(), 0)
        return said

    def test_progress(self):
        """A line after a second, which goes away; none where all is quick, where text is shown, or in a pipe."""
        self.assertRegex(self.fed_slowly("check"), rb"^(\r\x1b\[Kstandard input: 0\.0 MB)+\r\x1b\[K-: ok, 1 file\r\n$")
        self.assertEqual(self.on_terminal("check", RIDE), (f"{RIDE}: ok, 1 file\r\n".encode(), 0))
        self.assertNotIn(b"\x1b", self.fed_slowly("show"))
        slow = subprocess.run(["sh", "-c", '(head -c 99 "$1"; sleep 1.3; tail -c +100 "$1") | "$0" -m gazhdor check',
            sys.executable, RIDE], stdout=subprocess.PIPE, stderr=subprocess.PIPE)
        self.assertEqual((slow.stdout, slow.stderr), (b"-: ok, 1 file\n", b""))


class Interrupts(unittest.TestCase):
    def test_interrupt(self):
        """Ctrl-C ends it with 130 and says nothing; nothing is written of a file that isn't whole."""
        into = os.path.join(WORK, "interrupted.fit")
        for words in (["check"], ["table"], ["mend"], ["edit", "-", into], ["join", "-", RIDE, into], ["from-csv"]):
            pipes = {name: subprocess.PIPE for name in ("stdin", "stdout", "stderr")}
            process = subprocess.Popen([*WORDS, *words], **pipes)
            process.stdin.write(BYTES[:3000])
            process.stdin.flush()
            self.wait_until_reading(process)
            process.send_signal(signal.SIGINT)
            said = process.communicate()
            self.assertEqual((process.returncode, said[1]), (130, b""), words)
            self.assertFalse(os.path.exists(into))

    def wait_until_reading(self, process):
        """Until it has taken what is in its pipe, which it does after all is loaded."""
        left = array.array("i", [1])
        for _ in range(600):
            fcntl.ioctl(process.stdin.fileno(), termios.FIONREAD, left)
            if left[0] == 0:
                time.sleep(0.2)
                return
            time.sleep(0.05)
        self.fail("it reads nothing")


if __name__ == "__main__":
    unittest.main()
