#!/usr/bin/env python3
"""Writes the bytes of the ride of c/write.c, worked out by Python's struct from the protocol and the profile alone: written.py FILE"""
import struct
import sys

START = 1779003000 - 631065600
# seconds, position in degrees, altitude, distance, heart rate
POINTS = [(0, 47.3, 8.568, 408.0, 0.0, 101), (5, 47.300719, 8.567983, 409.2, 80.04, 103), (10, 47.3014, 8.5679, 410.4, 156.1, 255), (15, 47.302071, 8.567774, 411.2, 231.3, 108)]
# Base type codes, with what struct calls them.
ENUM, UINT8, UINT16, SINT32, UINT32 = (0x00, 'B'), (0x02, 'B'), (0x84, 'H'), (0x85, 'i'), (0x86, 'I')


def checksum(data):
    register = 0
    for byte in data:
        register ^= byte
        for _ in range(8):
            register = register >> 1 ^ (0xA001 if register & 1 else 0)
    return struct.pack('<H', register)


def definition(local, message, fields):
    return bytes([0x40 | local, 0, 0]) + struct.pack('<HB', message, len(fields)) + b''.join(bytes([number, struct.calcsize(kind), code]) for number, (code, kind) in fields)


def message(local, fields, values):
    return struct.pack('<B' + ''.join(kind for _, (_, kind) in fields), local, *values)


def once(local, number, fields, values):
    return definition(local, number, fields) + message(local, fields, values)


def semicircles(degrees):
    return round(degrees * 2 ** 31 / 180)


file_id = [(0, ENUM), (1, UINT16), (4, UINT32)]
record = [(253, UINT32), (0, SINT32), (1, SINT32), (2, UINT16), (5, UINT32), (3, UINT8)]
lap = [(253, UINT32), (0, ENUM), (1, ENUM), (2, UINT32), (7, UINT32), (8, UINT32), (9, UINT32)]
session = lap + [(5, ENUM), (25, UINT16), (26, UINT16)]
activity = [(253, UINT32), (0, UINT32), (1, UINT16), (2, ENUM), (3, ENUM), (4, ENUM)]
# Each new definition gets its own local message type, as long as one is free.
data = once(0, 0, file_id, [4, 255, START]) + definition(1, 20, record)
for time, latitude, longitude, altitude, distance, heart in POINTS:
    data += message(1, record, [START + time, semicircles(latitude), semicircles(longitude), round((altitude + 500) * 5), round(distance * 100), heart])
data += once(2, 19, lap, [START + 15, 9, 1, START, 15000, 15000, 23130])
data += once(3, 18, session, [START + 15, 8, 1, START, 15000, 15000, 23130, 2, 0, 1])
data += once(4, 34, activity, [START + 15, 15000, 1, 0, 26, 1])
head = struct.pack('<BBHI4s', 14, 0x20, 0, len(data), b'.FIT')
whole = head + checksum(head) + data
with open(sys.argv[1], 'wb') as written:
    written.write(whole + checksum(whole))
