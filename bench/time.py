#!/usr/bin/env python3
"""Times a command beside `cat` and `sort` of its last file: time.py VATA WORDS.. FILE.

Prints, of the command, of `cat FILE` and of `LC_ALL=C sort --parallel=1 FILE`, the processor time, the
wall time and the peak memory of the best of five runs.
"""
import os
import sys
import time


def peak_of(pid):
    """The peak of the memory that the process holds, in kilobytes, as far as it can still be read."""
    try:
        with open(f"/proc/{pid}/status") as status:
            for line in status:
                if line.startswith("VmHWM:"):
                    return int(line.split()[1])
    except OSError:
        pass
    return 0


def run(words):
    begun = time.monotonic()
    child = os.fork()
    if child == 0:
        null = os.open(os.devnull, os.O_WRONLY)
        os.dup2(null, 1)
        os.execvp(words[0], words)
    # What the system counts as the peak begins before the program is loaded, so it is read while it runs.
    peak = 0
    while os.waitid(os.P_PID, child, os.WEXITED | os.WNOWAIT | os.WNOHANG) is None:
        with open(f"/proc/{child}/comm") as comm:
            if comm.read().strip() == os.path.basename(words[0])[:15]:
                peak = max(peak, peak_of(child))
        time.sleep(0.0005)
    _, status, used = os.wait4(child, 0)
    wall = time.monotonic() - begun
    return used.ru_utime + used.ru_stime, wall, peak / 1024, os.waitstatus_to_exitcode(status)


def main():
    words = sys.argv[1:]
    os.environ["LC_ALL"] = "C"
    sort = ["sort", "--parallel=1", words[-1]]
    for name, command in [("vata", words), ("cat", ["cat", words[-1]]), ("sort", sort)]:
        cpu, wall, peak, status = min(run(command) for _ in range(5))
        print(f"{name:5} status {status}  processor {cpu:7.3f} s  wall {wall:7.3f} s  peak {peak:7.1f} MB")


main()
