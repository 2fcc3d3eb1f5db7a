"""What examples/python/upload.py must answer to uploads that come in small pieces over a connection, and what its page
draws where Chromium is installed."""
import contextlib
import html
import io
import json
import re
import shutil
import socket
import struct
import subprocess
import sys
import tempfile
import threading
import time
import unittest

from support import BYTES, example, left_out

import gazhdor

sys.path.insert(0, example(""))
import make_rides
import upload

BROWSERS = ("chromium", "chromium-browser", "google-chrome")


def asked(port, head, pieces=(), ends=False, wait=60):
    """Sends a request, and the pieces as long as no answer comes; returns the status, what JSON says, and how many
    bytes were sent."""
    sent = 0
    with socket.create_connection(("127.0.0.1", port), timeout=wait) as connection:
        connection.setsockopt(socket.IPPROTO_TCP, socket.TCP_NODELAY, 1)
        connection.sendall(head.encode() + b"\r\n\r\n")
        for piece in pieces:
            connection.setblocking(False)
            try:
                if connection.recv(1, socket.MSG_PEEK):
                    break
            except BlockingIOError:
                pass
            connection.settimeout(wait)
            connection.sendall(piece)
            sent += len(piece)
        connection.settimeout(wait)
        if ends:
            connection.shutdown(socket.SHUT_WR)
        answer = b""
        while True:
            more = connection.recv(65536)
            if not more:
                break
            answer += more
    front, _, body = answer.partition(b"\r\n\r\n")
    return int(front.split()[1]), json.loads(body.decode()), sent


def with_times(session, start, record):
    """A file of a session whose timestamp and start_time, and of a record whose timestamp, are fields of these sizes,
    base types and cells."""
    rows = ["row,a,b,c,d,e,f", "file,14,32,2065,sum,,", "def,0,0,big,18,3,", "fdef,253,%d,%d,,," % session[:2],
        "fdef,2,%d,%d,,," % start[:2]]
    rows += ["fdef,5,1,0,,,", "def,1,0,big,20,2,", "fdef,253,%d,%d,,," % record[:2], "fdef,3,1,2,,,",
        "data,0,,session,,,"]
    rows += [f"field,timestamp,{session[2]},s,,,", f"field,start_time,{start[2]},s,,,", "field,sport,2,,,,",
        "data,1,,record,,,"]
    return gazhdor.from_csv("\n".join([*rows, f"field,timestamp,{record[2]},s,,,", "field,heart_rate,60,bpm,,,",
        "end,,,,,,\n"]))


@contextlib.contextmanager
def served(handler, at_once=8):
    """A server in this process. Yields it and its port."""
    with upload.Server(("127.0.0.1", 0), 1 << 26, 60, at_once, handler) as server:
        thread = threading.Thread(target=server.serve_forever, daemon=True)
        thread.start()
        yield server, server.server_address[1]
        server.shutdown()


class Quiet(upload.Handler):
    def log_message(self, *words):
        pass


class Running:
    """The server, as a program of its own."""

    def __init__(self, *words):
        self.program = subprocess.Popen([sys.executable, example("upload.py"), "--port", "0", *words],
            stdout=subprocess.PIPE, stderr=subprocess.DEVNULL)
        self.port = int(self.program.stdout.readline().decode().split(":")[2].strip("/\n"))

    def __enter__(self):
        return self

    def __exit__(self, *error):
        self.program.kill()
        self.program.wait()
        self.program.stdout.close()

    def most_memory(self):
        with open(f"/proc/{self.program.pid}/status") as file:
            return 1024 * int(re.search(r"VmHWM:\s*(\d+) kB", file.read()).group(1))

    def connected(self):
        return socket.create_connection(("127.0.0.1", self.port), timeout=60)

    def put(self, data, size=100, length=None, **how):
        head = f"POST /rides HTTP/1.1\r\nHost: test\r\nContent-Length: {len(data) if length is None else length}"
        return asked(self.port, head, [data[at : at + size] for at in range(0, len(data), size)], **how)


class Uploads(unittest.TestCase):
    @classmethod
    def setUpClass(cls):
        cls.server = Running("--most", "4000000", "--at-once", "3")

    @classmethod
    def tearDownClass(cls):
        cls.server.__exit__()

    def test_good(self):
        lists = gazhdor.lists(BYTES, "record", [".seconds", "altitude", "speed"])
        for size in (1, 100, 5000):
            status, told, _ = self.server.put(BYTES, size)
            self.assertEqual((status, told["files"], told["counts"]["record"], told["counts"]["lap"]),
                (200, 1, len(lists["altitude"]), 1))
            drawn = told["drawn"]
            self.assertEqual((drawn["altitude"], drawn["speed"], set(drawn["heart_rate"])),
                (lists["altitude"], lists["speed"], {None}))
            self.assertEqual(drawn["time"], [seconds + 631065600 for seconds in lists[".seconds"]])
            self.assertEqual(told["laps"][0]["total_distance"], 8558.46)
        self.assertEqual(self.server.put(3 * BYTES)[1]["files"], 3)

    def test_long(self):
        """Of many records some are drawn, from the first to the last; of many laps the first are told."""
        status, told, _ = self.server.put(210 * BYTES, 20000)
        count = 210 * len(list(gazhdor.messages(BYTES, only="record")))
        self.assertEqual((status, told["files"], told["counts"]["record"], told["counts"]["lap"], len(told["laps"])),
            (200, 210, count, 210, 200))
        self.assertTrue(1000 <= len(told["drawn"]["time"]) <= 2000)
        self.assertEqual(len(set(map(len, told["drawn"].values()))), 1)

    def test_odd_times(self):
        """A time may be any number in a file: what is no whole number of seconds in 32 bits is told of nothing, and all
        else is told."""
        known = (4, 134, "1147937400")
        for size, code, cell in (
            (8, 137, "0x" + struct.pack(">d", 1e300).hex().upper()),
            (8, 137, "0x" + struct.pack(">d", float("inf")).hex().upper()),
            (4, 136, "0x" + struct.pack(">f", 1147937400).hex().upper()), (8, 143, str(2**63)), (8, 143, str(10**12)),
            (8, 142, str(-(2**63))),
            (4, 133, "-1"), (8, 134, "1|2"), (3, 7, "now"), (4, 13, "0x01020304"), (8, 143, str(2**32 - 1)),
        ):
            odd = (size, code, cell)
            for times in ((odd, known, known), (known, odd, known), (odd, odd, odd)):
                status, told, _ = self.server.put(with_times(*times))
                self.assertEqual((status, told["counts"], told["sessions"][0]["sport"]),
                    (200, {"session": 1, "lap": 0, "record": 1}, 2))
                names = [name for name, time in zip(("timestamp", "start_time"), times) if time == known]
                self.assertEqual({name: told["sessions"][0].get(name) for name in ("timestamp", "start_time")},
                                 {name: "2026-05-17 07:30:00+00:00" if name in names else None
                                     for name in ("timestamp", "start_time")})
        status, told, _ = self.server.put(with_times((4, 134, "0"), (8, 143, str(2**32 - 2)), known))
        self.assertEqual((status, told["sessions"][0]["timestamp"], told["sessions"][0]["start_time"]),
            (200, "system+0", "2126-02-06 06:28:14+00:00"))

    def test_ranges(self):
        """The ranges are those of all records with a time, of which few are drawn."""
        data = make_rides.ride(5, 100)
        lists = gazhdor.lists(data, "record", [".seconds", "altitude", "speed", "heart_rate"])
        status, told, _ = self.server.put(data, 20000)
        self.assertEqual((status, told["counts"]["record"]), (200, 6000))
        self.assertTrue(1000 <= len(told["drawn"]["time"]) <= 2000)
        for name in ("altitude", "speed", "heart_rate"):
            values = [value for value in lists[name] if value is not None]
            self.assertEqual(told["ranges"][name], [min(values), max(values)])
        self.assertEqual(told["ranges"]["time"], [lists[".seconds"][0] + 631065600, lists[".seconds"][-1] + 631065600])
        drawn = [told["drawn"][name] for name in ("altitude", "speed", "heart_rate")]
        self.assertNotEqual([told["ranges"][name] for name in ("altitude", "speed", "heart_rate")],
                            [[min(filter(None, values)), max(filter(None, values))] for values in drawn])
        status, told, _ = self.server.put(with_times(*3 * [(8, 143, str(2**63))]))
        self.assertEqual((status, told["drawn"]["heart_rate"], told["ranges"]),
            (200, [60], dict.fromkeys(upload.DRAWN)))

    def test_cut(self):
        for end in (0, 1, 14, 2000, len(BYTES) - 1):
            status, told, _ = self.server.put(BYTES[:end])
            self.assertEqual((status, told), (422, {"error": f"truncated at byte {end}", "place": end, "reason": None}))

    def test_changed(self):
        for place in range(0, len(BYTES), 97):
            data = BYTES[:place] + bytes([BYTES[place] ^ 0x55]) + BYTES[place + 1 :]
            answer = gazhdor.check(data)
            status, told, _ = self.server.put(data)
            self.assertEqual((status, told), (422, {"error": str(answer), "place": answer.place,
                "reason": answer.reason}))

    def test_before_the_rest(self):
        """The answer comes with the first byte that is refused, while more is to come; then the connection is
        closed."""
        status, told, _ = self.server.put(b"PK\3\4", length=3000000)
        self.assertEqual((status, told), (422, {"error": "refused at byte 1: Protocol", "place": 1,
            "reason": "Protocol"}))
        # A client that goes on sends no more than a part, and still reads the answer.
        status, told, sent = self.server.put(b"\x0d" + bytes(3999999), 1000)
        self.assertEqual((status, told["place"], told["reason"]), (422, 0, "HeaderSize"))
        self.assertLess(sent, 4000000)

    def test_bad_requests(self):
        post = "POST /rides HTTP/1.1\r\nHost: test"
        for head, status in (
            (post, 411), (post + "\r\nTransfer-Encoding: chunked", 411), (post + "\r\nContent-Length: -1", 400),
            (post + "\r\nContent-Length: 1e3", 400),
            (post + "\r\nContent-Length: 5\r\nContent-Length: 5", 400), (post + "\r\nContent-Length: 4000001", 413),
            (post + f"\r\nContent-Length: {'9' * 500}", 413),
            ("POST /other HTTP/1.1\r\nHost: test\r\nContent-Length: 5", 404),
            ("GET /other HTTP/1.1\r\nHost: test", 404),
            ("PUT /rides HTTP/1.1\r\nHost: test\r\nContent-Length: 5", 501),
            ("POST /rides HTTP/1.1 and more\r\nHost: test", 400),
            ("POST /rides HTTP/9.1\r\nHost: test", 505), (post + "".join(f"\r\nX-{n}: 1" for n in range(101)), 431),
        ):
            found, told, _ = asked(self.server.port, head)
            self.assertEqual((found, list(told)), (status, ["error"]))
        status, told, _ = self.server.put(BYTES[:100], length=len(BYTES), ends=True)
        self.assertEqual((status, told), (400, {"error": f"the upload ended after 100 of {len(BYTES)} bytes"}))
        self.assertEqual(self.server.put(BYTES)[0], 200)

    def test_at_once(self):
        """Those that wait don't keep others from being served, up to a number; each gets its own answer."""
        found = []
        work = lambda end: found.append(self.server.put(BYTES[:end], 10)[:2])
        many = [threading.Thread(target=work, args=(end,)) for end in range(1000, 1010)]
        for thread in many:
            thread.start()
        for thread in many:
            thread.join()
        self.assertEqual(sorted(told["place"] for status, told in found if status == 422), list(range(1000, 1010)))

    def test_time(self):
        with Running("--seconds", "0.5") as server:
            begin = time.monotonic()
            status, told, _ = server.put(BYTES[:100], length=len(BYTES))
            self.assertEqual((status, told), (408, {"error": "the upload took more than 0.5 s"}))
            self.assertTrue(0.4 < time.monotonic() - begin < 30)
            # One that sends no request, or a part of one, is closed too.
            for part in (b"", b"POST /rides HTTP/1.1\r\nHost: t"):
                with server.connected() as connection:
                    connection.sendall(part)
                    self.assertEqual(connection.recv(1), b"")

    def test_head(self):
        """The head of a request has a time of its own, so that a few connections that send nothing don't keep others
        out for long; the bytes of an upload have more."""
        with Running("--seconds", "50", "--head-seconds", "1", "--at-once", "2") as server:
            begin = time.monotonic()
            with server.connected() as one, server.connected() as two:
                two.sendall(b"POST /rides HTTP/1.1\r\nHost: t")
                self.assertEqual(server.put(BYTES, wait=30)[0], 200)
                self.assertEqual((one.recv(1), two.recv(1)), (b"", b""))
            self.assertTrue(0.9 < time.monotonic() - begin < 30)

            def slow():
                for at in range(0, len(BYTES), 1000):
                    time.sleep(0.4)
                    yield BYTES[at : at + 1000]
            self.assertEqual(asked(server.port, f"POST /rides HTTP/1.1\r\nHost: test\r\nContent-Length: {len(BYTES)}",
                slow())[0], 200)

    def test_not_foreseen(self):
        """What nobody has foreseen is an answer too, and is written down; the place is free again."""
        class Broken(Quiet):
            def upload(self):
                raise ZeroDivisionError("a secret of the server")

        head = f"POST /rides HTTP/1.1\r\nHost: test\r\nContent-Length: {len(BYTES)}"
        written = io.StringIO()
        with served(Broken, 1) as (_, port), contextlib.redirect_stderr(written):
            for _ in range(3):
                self.assertEqual(asked(port, head, [BYTES], wait=20)[:2], (500, {"error": "the server failed"}))
        self.assertEqual(written.getvalue().count("ZeroDivisionError: a secret"), 3)

    def test_no_thread(self):
        """Where no thread can be started the connection is closed, and its place is free again."""
        head = f"POST /rides HTTP/1.1\r\nHost: test\r\nContent-Length: {len(BYTES)}"
        begin = threading.Thread.start

        def refuse(thread):
            raise RuntimeError("can't start new thread")

        with served(Quiet, 2) as (_, port), contextlib.redirect_stderr(io.StringIO()):
            threading.Thread.start = refuse
            try:
                for _ in range(5):
                    with socket.create_connection(("127.0.0.1", port), timeout=20) as connection:
                        self.assertEqual(connection.recv(1), b"")
            finally:
                threading.Thread.start = begin
            self.assertEqual(asked(port, head, [BYTES], wait=20)[0], 200)

    def test_memory(self):
        """An upload of 2 MB takes less memory than its messages as values would."""
        with Running() as server:
            server.put(BYTES)
            before = server.most_memory()
            self.assertEqual(server.put(640 * BYTES, 60000)[0], 200)
            self.assertLess(server.most_memory() - before, 25000000)


class Dropping(Quiet):
    """The page with a script that drops a file on it, whose bytes come from here."""

    data = b""
    SCRIPT = b"""<script>(async () => {
        const bytes = await (await fetch("/ride.fit")).arrayBuffer(), files = new DataTransfer();
        files.items.add(new File([bytes], "a <ride>.fit"));
        at("drop").dispatchEvent(new DragEvent("drop", { dataTransfer: files, bubbles: true, cancelable: true }));
    })();</script>"""

    def do_GET(self):
        if self.path == "/drop":
            self.answer(200, upload.PAGE + self.SCRIPT, "text/html; charset=utf-8")
        elif self.path == "/ride.fit":
            self.answer(200, self.data, "application/octet-stream")
        else:
            super().do_GET()


class Page(unittest.TestCase):
    def test_page(self):
        with Running() as server, server.connected() as connection:
            connection.sendall(b"GET / HTTP/1.1\r\nHost: test\r\n\r\n")
            self.assertEqual(connection.makefile("rb").read().partition(b"\r\n\r\n")[2], upload.PAGE)
        self.assertNotRegex(upload.PAGE.decode(), r"(src|href)=|https?://(?!www.w3.org/2000/svg)")

    def dropped(self, data):
        """The page after these bytes were dropped on it."""
        browser = next(filter(None, map(shutil.which, BROWSERS)), None)
        if browser is None:
            left_out("there is no Chromium, so what the page of uploads draws isn't looked at")
        handler = type("Handler", (Dropping,), {"data": data})
        with served(handler) as (_, port), tempfile.TemporaryDirectory() as folder:
            words = ["--headless", "--no-sandbox", "--disable-gpu", f"--user-data-dir={folder}",
                "--virtual-time-budget=20000", "--dump-dom"]
            said = subprocess.run([browser, *words, f"http://127.0.0.1:{port}/drop"], stdout=subprocess.PIPE,
                stderr=subprocess.DEVNULL, timeout=120)
        return said.stdout.decode()

    def test_drawn(self):
        data = make_rides.ride(3, 5)
        page, lists = self.dropped(data), gazhdor.lists(data, "record", ["altitude", "speed", "heart_rate"])
        self.assertIn("a &lt;ride&gt;.fit: 1 file(s), 300 records, 0 laps", page)
        for name, factor, unit in (("altitude", 1, "m"), ("speed", 3.6, "km/h"), ("heart_rate", 1, "bpm")):
            drawn = re.search(rf'<svg id="{name}".*?<text[^>]*>(.*?)</text><path d="(.*?)">', page, re.S)
            values = [value * factor for value in lists[name] if value is not None]
            self.assertIn(f"{min(values):.1f} to {max(values):.1f} {unit}, 299 s", html.unescape(drawn.group(1)))
            points = [tuple(map(float, point.split())) for point in re.split("[ML]", drawn.group(2))[1:]]
            self.assertEqual((len(points), points[0][0] <= points[-1][0], points[-1][0]), (len(values), True, 780.0))
            highest = max(range(len(values)), key=values.__getitem__)
            self.assertEqual((min(y for _, y in points), points[highest][1], max(y for _, y in points)),
                (40.0, 40.0, 140.0))

    def test_range_of_all(self):
        """Of a long ride some points are drawn, and the ranges are those of all."""
        data = make_rides.ride(5, 100)
        page, lists = self.dropped(data), gazhdor.lists(data, "record", ["altitude", "speed", "heart_rate"])
        for name, factor, unit in (("altitude", 1, "m"), ("speed", 3.6, "km/h"), ("heart_rate", 1, "bpm")):
            values = [value * factor for value in lists[name] if value is not None]
            drawn = re.search(rf'<svg id="{name}".*?<text[^>]*>(.*?)</text><path d="(.*?)">', page, re.S)
            self.assertIn(f"{min(values):.1f} to {max(values):.1f} {unit}, 5999 s", html.unescape(drawn.group(1)))
            places = [float(point.split()[1]) for point in re.split("[ML]", drawn.group(2))[1:]]
            self.assertTrue(1000 <= len(places) <= 2000 and 40 <= min(places) and max(places) <= 140)

    def test_refused(self):
        """What is wrong is said, also where the browser has still to send a lot of the file."""
        for data, finding in ((BYTES[:2000], "truncated at byte 2000"),
                (b"PK" + bytes(9000000), "refused at byte 1: Protocol")):
            page = self.dropped(data)
            self.assertRegex(page, rf'<p id="finding"[^>]*class="bad"[^>]*>a &lt;ride&gt;.fit: {finding}</p>')
            self.assertNotIn("<svg", page)


if __name__ == "__main__":
    unittest.main()
