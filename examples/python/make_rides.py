"""Makes rides to try things on: make_rides.py FOLDER COUNT [MINUTES]. Each is written as CSV text, of which gazhdor.from_csv makes the
file. A ride takes 20 minutes unless MINUTES says another number. Run it with PYTHONPATH naming the folder python/. The same number
makes the same ride."""
import math
import os
import random
import sys

import gazhdor

DEFINITIONS = """row,a,b,c,d,e,f
file,14,32,2065,sum,,
def,0,0,little,0,2,
fdef,0,1,0,,,
fdef,4,4,134,,,
def,1,0,little,20,8,
fdef,253,4,134,,,
fdef,0,4,133,,,
fdef,1,4,133,,,
fdef,2,2,132,,,
fdef,5,4,134,,,
fdef,6,2,132,,,
fdef,3,1,2,,,
fdef,4,1,2,,,
"""


def ride(seed, minutes):
    r = random.Random(seed)
    start = 1139986800 + seed * 86400  # 07:00 UTC on 14 February 2026, and on the days after it
    rows = [DEFINITIONS, f"data,0,,file_id,,,\nfield,type,4,,,,\nfield,time_created,{start},s,,,\n"]
    altitude, speed, heart, distance, lat, lon, course = 400.0, 0.0, 95.0, 0.0, 47.3, 8.57, r.random() * 6
    hill = r.uniform(150, 400)
    for t in range(minutes * 60):
        grade = hill / 1e4 * math.sin(t / (minutes * 60) * 2 * math.pi * 1.5) + r.gauss(0, 0.004)
        wanted = max(2.5, 8.5 - 70 * grade) if t % 900 > 20 else 0.0
        speed += (wanted - speed) * 0.08
        altitude += speed * grade
        heart += (105 + 900 * max(grade, -0.02) + 4 * speed - heart) * 0.02 + r.gauss(0, 0.4)
        distance += speed
        course += r.gauss(0, 0.02)
        lat += speed * math.cos(course) / 111320
        lon += speed * math.sin(course) / 111320 / math.cos(math.radians(lat))
        rows.append(
            # an altitude is told in fifths of a metre
            f"data,1,,record,,,\nfield,timestamp,{start + t},s,,,\n"
            f"field,position_lat,{round(lat * 2**31 / 180)},semicircles,,,\nfield,position_long,{round(lon * 2**31 / 180)},semicircles,,,\n"
            f"field,altitude,{round(altitude * 5) / 5:.1f},m,,,\nfield,distance,{distance:.2f},m,,,\nfield,speed,{speed:.3f},m/s,,,\n"
            f"field,heart_rate,{'' if t % 977 < 6 else round(heart)},bpm,,,\nfield,cadence,{round(80 + 5 * math.sin(t / 40)) if speed > 1 else 0},rpm,,,\n")
    rows.append("end,,,,,,\n")
    return gazhdor.from_csv("".join(rows))


if __name__ == "__main__":
    if not 3 <= len(sys.argv) <= 4 or not all(word.isdigit() for word in sys.argv[2:]):
        sys.exit("usage: make_rides.py FOLDER COUNT [MINUTES]")
    folder, count, minutes = sys.argv[1], int(sys.argv[2]), int(sys.argv[3]) if len(sys.argv) > 3 else 20
    os.makedirs(folder, exist_ok=True)
    for seed in range(count):
        with open(os.path.join(folder, f"ride{seed:04}.fit"), "wb") as file:
            file.write(ride(seed, minutes))
