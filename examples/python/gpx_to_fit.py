#!/usr/bin/env python3
"""Makes a FIT file of a track in GPX: python3 gpx_to_fit.py TRACK.gpx RIDE.fit

All points of the GPX that have a time become records, with place, altitude, distance, speed, and what points have by Garmin's extension: heart
rate, cadence, temperature; and power, as several programs write it. Distance is that on a sphere from point to point. A lap and a session
say the whole; each pause of the track, a new segment, stops the timer.
"""
import datetime
import math
import sys
import xml.etree.ElementTree

import gazhdor

EARTH = 6371008.8  # metres, the mean radius
FIELDS = "timestamp position_lat position_long altitude distance speed heart_rate cadence temperature power"
MORE = {"hr": "heart_rate", "cad": "cadence", "atemp": "temperature", "power": "power", "PowerInWatts": "power"}
TIMER, SESSION, LAP, ACTIVITY = 0, 8, 9, 26  # events
START, STOP, STOP_ALL = 0, 1, 4  # their types


def name_of(element):
    return element.tag.rpartition("}")[2]


def time_of(text):
    when = datetime.datetime.fromisoformat(text.strip().replace("Z", "+00:00"))
    return when if when.tzinfo else when.replace(tzinfo=datetime.timezone.utc)


def point_of(element):
    """A point as the values of a record; None where it has no time."""
    found = {"position_lat": float(element.get("lat")), "position_long": float(element.get("lon"))}
    for part in element.iter():
        if name_of(part) == "ele":
            found["altitude"] = float(part.text)
        elif name_of(part) == "time":
            found["timestamp"] = time_of(part.text)
        elif name_of(part) in MORE:
            found[MORE[name_of(part)]] = round(float(part.text))
    return found if "timestamp" in found else None


def segments_of(path):
    """The segments of all tracks, each as its points."""
    for segment in xml.etree.ElementTree.parse(path).iter():
        if name_of(segment) == "trkseg":
            points = [point_of(point) for point in segment if name_of(point) == "trkpt"]
            points = [point for point in points if point]
            if points:
                yield points


def metres(one, other):
    """The distance of two points on a sphere."""
    lat, other_lat = math.radians(one["position_lat"]), math.radians(other["position_lat"])
    long = math.radians(other["position_long"] - one["position_long"])
    half = math.sin((other_lat - lat) / 2) ** 2 + math.cos(lat) * math.cos(other_lat) * math.sin(long / 2) ** 2
    return 2 * EARTH * math.asin(min(1, math.sqrt(half)))


def measure(segments):
    """Gives each point its distance from the start, and the speed from the point before it."""
    total, last = 0.0, None
    for points in segments:
        for number, point in enumerate(points):
            step = metres(last, point) if last else 0.0
            seconds = (point["timestamp"] - last["timestamp"]).total_seconds() if last else 0
            total += step
            point["distance"] = total
            if number and 0 < seconds and step / seconds < 65:
                point["speed"] = step / seconds
            last = point


def whole(segments):
    """What a lap and a session say of all points."""
    first, last = segments[0][0], segments[-1][-1]
    ran = sum((points[-1]["timestamp"] - points[0]["timestamp"]).total_seconds() for points in segments)
    found = {
        "timestamp": last["timestamp"],
        "start_time": first["timestamp"],
        "start_position_lat": first["position_lat"],
        "start_position_long": first["position_long"],
        "total_elapsed_time": (last["timestamp"] - first["timestamp"]).total_seconds(),
        "total_timer_time": ran,
        "total_distance": last["distance"],
        "avg_speed": last["distance"] / ran if ran and last["distance"] / ran < 65 else None,
    }
    for name in ("heart_rate", "cadence", "power", "speed"):
        values = [point[name] for points in segments for point in points if name in point]
        if values:
            found[f"max_{name}"] = max(values)
            found.setdefault(f"avg_{name}", sum(values) / len(values))
    return found


def write(segments, into):
    """Writes the file."""
    measure(segments)
    told = whole(segments)
    end = {"timestamp": told["timestamp"]}
    with gazhdor.Writer(into) as out:
        out.write("file_id", type=4, manufacturer=255, product=0, time_created=told["start_time"])
        record = out.define("record", FIELDS)
        for points in segments:
            out.write("event", timestamp=points[0]["timestamp"], event=TIMER, event_type=START)
            for point in points:
                record.write(point)
            out.write("event", timestamp=points[-1]["timestamp"], event=TIMER, event_type=STOP_ALL)
        out.write("lap", {**told, "event": LAP, "event_type": STOP})
        out.write("session", {**told, "event": SESSION, "event_type": STOP, "first_lap_index": 0, "num_laps": 1})
        out.write("activity", {**end, "total_timer_time": told["total_timer_time"], "num_sessions": 1, "type": 0, "event": ACTIVITY, "event_type": STOP})


def main():
    if len(sys.argv) != 3:
        sys.exit(__doc__)
    segments = list(segments_of(sys.argv[1]))
    if not segments:
        sys.exit(f"{sys.argv[1]} has no track whose points have times")
    write(segments, sys.argv[2])


if __name__ == "__main__":
    main()
