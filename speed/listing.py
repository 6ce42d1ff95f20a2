"""listing.py COMMAND CAPTURE...: for each capture the listing's megabytes of capture a second, best of three, and its peak memory."""
import os
import re
import resource
import subprocess
import sys


def seconds(command, capture):
    """Processor time of one listing."""
    before = resource.getrusage(resource.RUSAGE_CHILDREN)
    with open(capture, "rb") as file:
        subprocess.run([command, "list"], stdin=file, stdout=subprocess.DEVNULL, check=True)
    after = resource.getrusage(resource.RUSAGE_CHILDREN)
    return after.ru_utime + after.ru_stime - before.ru_utime - before.ru_stime


def peak(command, capture):
    """Kilobytes, as the system has them of the program while it waits for what follows the capture."""
    with open(capture, "rb") as file:
        child = subprocess.Popen([command, "list"], stdin=subprocess.PIPE, stdout=subprocess.DEVNULL)
        child.stdin.write(file.read())
        child.stdin.flush()
        with open(f"/proc/{child.pid}/status") as status:
            kilobytes = int(re.search(r"VmHWM:\s+(\d+) kB", status.read()).group(1))
        child.stdin.close()
        child.wait()
    return kilobytes


for path in sys.argv[2:]:
    size = os.path.getsize(path) / 1e6
    best = min(seconds(sys.argv[1], path) for _ in range(3))
    print(f"listing: {size:.0f} MB at {size / best:.0f} MB a second, peak memory {peak(sys.argv[1], path)} kB")
