"""A server that checks an upload of a FIT file while it comes in: upload.py [--port N] [--most BYTES] [--seconds N] [--at-once N] ..

    POST /rides    the bytes of a file, or of several, one after another, with their Content-Length
    GET /          a page on which a file is dropped, and which draws altitude, speed and heart rate over time

At the first byte that cannot belong to any FIT file it answers 422, with the place and the reason as JSON, doesn't wait for the rest, and
closes the connection. Else it answers 200, with sessions, laps, what is to be drawn, and the ranges of all that could be drawn. Any other
answer is JSON too, that of a fault of the server itself included, which is 500. It keeps neither the bytes nor the messages: an upload
takes as much memory as a decoder, a piece of the bytes and an answer of at most a few thousand numbers, however long it is. Run it with
PYTHONPATH naming the folder python/; it is an example, for a network that you trust."""
import argparse
import http
import http.server
import io
import json
import math
import os
import socket
import threading
import time
import traceback

import gazhdor

PIECE = 1 << 14
POINTS = 2000  # are drawn at most
SESSIONS = 200  # are told at most, and so many laps
LINGER = 2  # seconds, in which what a client still sends is thrown away, so that it sees the answer
EPOCH = 631065600  # what a time of a file lacks to Unix time
TIMES = range(2**32 - 1)  # what a field that is a time may be
DRAWN = ("time", "altitude", "speed", "heart_rate")
HEADERS = {"Content-Type": "application/json", "Cache-Control": "no-store", "X-Content-Type-Options": "nosniff", "Connection": "close"}
with open(os.path.join(os.path.dirname(os.path.abspath(__file__)), "upload.html"), "rb") as file:
    PAGE = file.read()


def number(value):
    """A value as JSON has it, if it is one finite number."""
    return value if isinstance(value, (int, float)) and math.isfinite(value) else None


def moment(value):
    """A time as text, if it is one: a file may have any number in its place."""
    return str(gazhdor.when(value)) if isinstance(value, int) and value in TIMES else None


def as_json(told):
    return json.dumps(told, allow_nan=False, separators=(",", ":")).encode()


def first(message, *keys):
    """The first of these fields that has a number. By its number a field is none of a developer."""
    for key in keys:
        found = number(message.get(key))
        if found is not None:
            return found
    return None


class Ride:
    """What is told of an upload. Of more records than are drawn it keeps each second one, each fourth and so on; the ranges are those of
    all that have a time."""

    def __init__(self):
        self.told = {"session": [], "lap": []}
        self.count = {"session": 0, "lap": 0, "record": 0}
        self.points, self.step = [], 1
        self.ranges = dict.fromkeys(DRAWN)

    def take(self, messages):
        points = []
        for message in messages:
            self.count[message.name] += 1
            if message.name == "record":
                points.append(self.point(message))
                if self.count["record"] % self.step == 0:
                    self.draw(points[-1])
            elif self.count[message.name] <= SESSIONS:
                self.told[message.name].append(self.summary(message))
        self.widen(points)

    def point(self, message):
        seconds, height, pace = message.seconds, first(message, 78, 2), first(message, 73, 6)
        return (None if seconds is None else seconds + EPOCH, height, message.speed if pace is None else pace, first(message, 3))

    def draw(self, point):
        self.points.append(point)
        if len(self.points) > POINTS:
            del self.points[::2]
            self.step *= 2

    def widen(self, points):
        for name, values in zip(DRAWN, zip(*(point for point in points if point[0] is not None))):
            told = [value for value in values if value is not None]
            told += self.ranges[name] or ()
            self.ranges[name] = [min(told), max(told)] if told else None

    def summary(self, message):
        """The numbers of a session or a lap by the names that the profile has for them."""
        numbers = {field.name: number(field.value) for field in message.fields if field.name and field.developer is None}
        for name in ("timestamp", "start_time"):
            numbers[name] = moment(numbers.get(name))
        return {name: value for name, value in numbers.items() if value is not None}

    def answer(self, files):
        drawn = dict(zip(DRAWN, zip(*self.points))) if self.points else dict.fromkeys(DRAWN, ())
        told = {"files": files, "counts": self.count, "sessions": self.told["session"], "laps": self.told["lap"]}
        return {**told, "drawn": drawn, "ranges": self.ranges}


class Timed(io.RawIOBase):
    """The bytes of a connection, up to a time."""

    def __init__(self, connection, end):
        self.connection, self.end = connection, end

    def readable(self):
        return True

    def readinto(self, room):
        left = self.end - time.monotonic()
        if left <= 0:
            raise socket.timeout("the time is over")
        self.connection.settimeout(left)
        return self.connection.recv_into(room)


class Refused(Exception):
    """An answer that ends an upload: a status, and what JSON says of it."""

    def __init__(self, status, error, **more):
        super().__init__(status, {"error": error, **more})


class Handler(http.server.BaseHTTPRequestHandler):
    """A connection, with one request. Its head has a time of its own, so that one which sends nothing is soon gone."""

    protocol_version = "HTTP/1.1"

    def setup(self):
        super().setup()
        self.rfile.close()
        self.begun = time.monotonic()
        self.timed = Timed(self.connection, self.begun + min(self.server.head_seconds, self.server.seconds))
        self.rfile = io.BufferedReader(self.timed)

    def handle(self):
        try:
            super().handle()
        except ConnectionError:
            pass  # The client is gone.

    def answer(self, status, body, kind="application/json"):
        self.close_connection = True
        self.connection.settimeout(max(LINGER, self.timed.end - time.monotonic()))
        self.send_response(status)
        for name, value in {**HEADERS, "Content-Type": kind, "Content-Length": len(body)}.items():
            self.send_header(name, value)
        self.end_headers()
        self.wfile.write(b"" if self.command == "HEAD" else body)
        if status != 200:
            self.linger()

    def send_error(self, code, message=None, explain=None):
        """What is refused before a method is called, as a head that is none, or a method that isn't there."""
        self.request_version = self.protocol_version
        self.answer(code, as_json({"error": message or http.HTTPStatus(code).phrase}))

    def do_GET(self):
        if self.path == "/":
            self.answer(200, PAGE, "text/html; charset=utf-8")
        else:
            self.answer(404, as_json({"error": "there is only / here"}))

    def do_POST(self):
        self.timed.end = self.begun + self.server.seconds
        try:
            status, body = 200, as_json(self.upload())
        except Refused as refused:
            status, body = refused.args[0], as_json(refused.args[1])
        except socket.timeout:
            status, body = 408, as_json({"error": f"the upload took more than {self.server.seconds:g} s"})
        except MemoryError:
            status, body = 503, as_json({"error": "out of memory"})
        except ConnectionError:
            raise
        except Exception:
            traceback.print_exc()
            status, body = 500, as_json({"error": "the server failed"})
        self.answer(status, body)

    def length(self):
        """How many bytes are to come."""
        told = self.headers.get("Content-Length")
        if self.path != "/rides":
            raise Refused(404, "uploads go to /rides")
        if told is None or self.headers.get("Transfer-Encoding"):
            raise Refused(411, "an upload needs its Content-Length")
        if not told.isdecimal() or not told.isascii() or len(self.headers.get_all("Content-Length")) > 1:
            raise Refused(400, "the Content-Length is no number")
        if len(told) > 18 or int(told) > self.server.most:
            raise Refused(413, f"an upload has at most {self.server.most} bytes")
        return int(told)

    def upload(self):
        """Reads an upload as it comes, and returns what is told of it."""
        ride, length = Ride(), self.length()
        left = length
        with gazhdor.Stream("messages", only=list(ride.count)) as stream:
            try:
                while left:
                    piece = self.rfile.read1(min(left, PIECE))
                    if not piece:
                        raise Refused(400, f"the upload ended after {length - left} of {length} bytes")
                    left -= len(piece)
                    ride.take(stream.feed(piece))
                ride.take(stream.finish())
            except gazhdor.FitError as fault:
                raise Refused(422, str(fault), place=fault.place, reason=fault.reason) from None
            return ride.answer(stream.files)

    def linger(self):
        """Says that nothing more is written, and throws away what still comes, for a while: what a client hasn't read is lost where a
        connection is closed while more comes."""
        rest = Timed(self.connection, time.monotonic() + LINGER)
        try:
            self.connection.shutdown(socket.SHUT_WR)
            while rest.readinto(bytearray(PIECE)):
                pass
        except OSError:
            pass


class Server(http.server.ThreadingHTTPServer):
    """At most `at_once` connections are served at once, each for at most `seconds`, of which its head has `head_seconds`; others wait to be
    accepted."""

    def __init__(self, address, most, seconds, at_once, handler=Handler, head_seconds=5):
        self.most, self.seconds, self.head_seconds, self.room = most, seconds, head_seconds, threading.BoundedSemaphore(at_once)
        super().__init__(address, handler)

    def process_request(self, request, client_address):
        self.room.acquire()
        try:
            super().process_request(request, client_address)
        except Exception:
            self.room.release()  # There is no thread for it: the connection is closed, and its place is free again.
            raise

    def process_request_thread(self, request, client_address):
        try:
            super().process_request_thread(request, client_address)
        finally:
            self.room.release()


def main():
    parser = argparse.ArgumentParser(description="Checks uploads of FIT files while they come in.")
    parser.add_argument("--host", default="127.0.0.1", help="the address to listen at (127.0.0.1)")
    parser.add_argument("--port", default=8000, type=int, help="the port, or 0 for any (8000)")
    parser.add_argument("--most", default=64 << 20, type=int, help="the most bytes of an upload (64 MiB)")
    parser.add_argument("--seconds", default=60, type=float, help="the most seconds that an upload takes (60)")
    parser.add_argument("--head-seconds", default=5, type=float, help="the most seconds that the head of a request takes (5)")
    parser.add_argument("--at-once", default=8, type=int, help="the most uploads at once (8)")
    words = parser.parse_args()
    with Server((words.host, words.port), words.most, words.seconds, words.at_once, head_seconds=words.head_seconds) as server:
        print(f"http://{words.host}:{server.server_address[1]}/", flush=True)
        try:
            server.serve_forever()
        except KeyboardInterrupt:
            pass


if __name__ == "__main__":
    main()
