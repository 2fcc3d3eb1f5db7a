"""Distance, time and mean heart rate of each ride of a folder, by the workers of dask: dask_rides.py SCHEDULER WHEEL FOLDER

SCHEDULER is its address, as tcp://127.0.0.1:8786. The WHEEL of gazhdor is sent to the workers, so that they need not have it
installed; the FOLDER is read by them, so that each must see it under this name. It writes a line of CSV for each ride, in metres,
seconds and beats a minute, and says on standard error what is wrong with a file."""
import datetime
import os
import shutil
import sys
import tempfile
import time

from dask.distributed import Client

RIDES = 25  # in a task


def figures(gazhdor, path):
    """The figures of a file, or of a chain of them."""
    distance, seconds, hearts = 0.0, 0.0, []
    for _, rows in gazhdor.files(path):
        rows = list(rows)
        distances = [row.distance for row in rows if row.distance is not None]
        times = [row.timestamp for row in rows if isinstance(row.timestamp, datetime.datetime)]
        distance += distances[-1] if distances else 0
        seconds += (times[-1] - times[0]).total_seconds() if times else 0
        hearts += [row.heart_rate for row in rows if row.heart_rate is not None]
    return distance, seconds, sum(hearts) / len(hearts) if hearts else None


def task(paths):
    """What a worker does: for each file its figures, or else what is wrong with it."""
    import gazhdor  # which was sent

    found = []
    for path in paths:
        try:
            found.append((path, figures(gazhdor, path), None))
        except (gazhdor.FitError, OSError) as error:
            found.append((path, None, str(error)))
    return found


def send(client, wheel):
    """Sends the wheel to all workers, also to those that come later. They import from a file whose name ends in .zip."""
    with tempfile.TemporaryDirectory() as folder:
        client.upload_file(shutil.copy(wheel, os.path.join(folder, "gazhdor.zip")))


def main(scheduler, wheel, folder):
    paths = sorted(os.path.join(os.path.abspath(folder), name) for name in os.listdir(folder) if name.lower().endswith(".fit"))
    bad = 0
    with Client(scheduler) as client:
        send(client, wheel)
        started = time.perf_counter()
        tasks = client.map(task, [paths[at : at + RIDES] for at in range(0, len(paths), RIDES)])
        print("ride,distance,time,heart_rate")
        for done in tasks:
            for path, figure, fault in done.result():
                if fault:
                    bad += 1
                    print(f"{path}: {fault}", file=sys.stderr)
                    continue
                distance, seconds, heart = figure
                print(f"{os.path.basename(path)},{distance:.2f},{seconds:.0f},{'' if heart is None else f'{heart:.1f}'}")
    print(f"{len(paths)} rides, {bad} not good, in {time.perf_counter() - started:.2f} s", file=sys.stderr)


if __name__ == "__main__":
    if len(sys.argv) != 4:
        sys.exit("usage: dask_rides.py SCHEDULER WHEEL FOLDER")
    main(*sys.argv[1:])
