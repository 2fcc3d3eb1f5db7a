#!/usr/bin/env python3
"""Makes inputs for the WebAssembly module, and what the library for x86-64 answers of them: expected.py LIBRARY FOLDER FILE..

Into the folder come the FILEs, 1,000 files that are made of them by damage, texts and blocks of both kinds, and expected.json: for each input and each call
the numbers of the answer, and length and SHA-256 of what was made."""
import ctypes
import hashlib
import json
import os
import random
import sys

CALLS = ("table", "to_csv", "show", "messages")
DAMAGED, TEXTS, BLOCKS = 1000, 300, 600
CRC = [0x0000, 0xCC01, 0xD801, 0x1400, 0xF001, 0x3C00, 0x2800, 0xE401, 0xA001, 0x6C00, 0x7800, 0xB401, 0x5000, 0x9C01, 0x8801, 0x4400]


class Answer(ctypes.Structure):
    _fields_ = [("status", ctypes.c_uint32), ("reason", ctypes.c_uint32)] + [(name, ctypes.c_uint64) for name in ("place", "row", "column", "files")]


class Text(ctypes.Structure):
    _fields_ = [("bytes", ctypes.c_void_p), ("length", ctypes.c_size_t)]


def loaded(path):
    library = ctypes.CDLL(os.path.abspath(path))
    for name in ("check", *CALLS, "from_csv", "from_messages"):
        getattr(library, f"gazhdor_{name}").restype = Answer
    library.gazhdor_free.argtypes, library.gazhdor_free.restype = (Text,), None
    return library


def numbers(answer):
    return [getattr(answer, name) for name, _ in Answer._fields_]


def made(library, name, data):
    """The answer of a call, and what it made."""
    nothing = ctypes.create_string_buffer(1)
    text = Text(ctypes.addressof(nothing), 0)
    answer = getattr(library, f"gazhdor_{name}")(data, ctypes.c_size_t(len(data)), ctypes.byref(text))
    found = ctypes.string_at(text.bytes, text.length) if text.length else b""
    library.gazhdor_free(text)
    return numbers(answer), found


def told(library, name, data):
    answer, found = made(library, name, data)
    return {"answer": answer, "length": len(found), "sha256": hashlib.sha256(found).hexdigest()}


def summed(data):
    """A file with the checksum at its end that its bytes have, by the protocol's table; so what comes before it is judged alone."""
    crc = 0
    for byte in data[:-2]:
        for part in (byte & 15, byte >> 4):
            crc = (crc >> 4) ^ CRC[crc & 15] ^ CRC[part]
    return data[:-2] + crc.to_bytes(2, "little")


def damaged(r, data):
    """A copy of some bytes that was changed, cut, or mended after that."""
    data = bytearray(data)
    for _ in range(r.choice((1, 1, 1, 2, 5, 50))):
        at = r.randrange(len(data)) if data else 0
        way = r.randrange(6)
        if way == 0:
            del data[at:]
        elif way == 1:
            data[at:at] = r.randbytes(r.randrange(1, 9))
        elif way == 2:
            del data[at : at + r.randrange(1, 9)]
        elif data:
            data[at] = r.choice((0, 0xFF, data[at] ^ 1 << r.randrange(8), r.randrange(256)))
    return summed(bytes(data)) if len(data) > 16 and r.randrange(2) else bytes(data)


def changed(r, blocks):
    """A copy of some blocks with another byte or two, at the front of one of the first or anywhere; or cut."""
    data, begins = bytearray(blocks), [0]
    while len(begins) < 40 and begins[-1] < len(data):
        begins.append(begins[-1] + int.from_bytes(data[begins[-1] : begins[-1] + 4], "little"))
    for _ in range(r.choice((1, 1, 2))):
        at = r.choice(begins[:-1] or [0]) + r.randrange(72) if r.randrange(4) else r.randrange(len(data) + 1)
        if at < len(data):
            data[at] = r.choice((0, 1, 2, 4, 16, 0xFF, data[at] ^ 1 << r.randrange(8), r.randrange(256)))
    return bytes(data[: r.randrange(len(data) + 1)] if r.randrange(8) == 0 else data)


def main():
    library, folder, paths = loaded(sys.argv[1]), sys.argv[2], sys.argv[3:]
    r = random.Random(20261129)
    inputs = []
    for path in paths:
        with open(path, "rb") as file:
            inputs.append((os.path.basename(path), file.read()))
    small = [data for _, data in inputs if len(data) <= 50000]
    inputs += [(f"{k}.damaged", damaged(r, r.choice(small))) for k in range(DAMAGED)]
    expected = []
    for name, data in inputs:
        answer = library.gazhdor_check(data, ctypes.c_size_t(len(data)))
        calls = {call: told(library, call, data) for call in CALLS}
        expected.append({"name": name, "check": numbers(answer), "calls": calls})
    texts = [made(library, "to_csv", data)[1] for data in small]
    texts += [bytes(damaged(r, r.choice(texts))) for _ in range(TEXTS)]
    for k, text in enumerate(texts):
        expected.append({"name": f"{k}.csv", "calls": {"from_csv": told(library, "from_csv", text)}})
        inputs.append((f"{k}.csv", text))
    blocks = [made(library, "messages", data)[1] for data in small]
    short = [data for data in blocks if len(data) < 50000]
    blocks += [changed(r, r.choice(short)) for _ in range(BLOCKS)]
    for k, data in enumerate(blocks):
        expected.append({"name": f"{k}.blocks", "calls": {"from_messages": told(library, "from_messages", data)}})
        inputs.append((f"{k}.blocks", data))
    for name, data in inputs:
        with open(os.path.join(folder, name), "wb") as file:
            file.write(data)
    with open(os.path.join(folder, "expected.json"), "w", encoding="ascii") as file:
        json.dump(expected, file)


main()
