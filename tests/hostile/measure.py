#!/usr/bin/env python3
"""Runs a command with so many KiB of address space and so many seconds at most, and writes to a file, in JSON, its status (that
of a signal is negative), the seconds of the processor that it took, and the peak of its memory in bytes.

    measure.py FILE KIB SECONDS COMMAND..

It is a process of its own, since a process begins with the peak of the one that starts it.
"""

import json
import pathlib
import resource
import subprocess
import sys


def main():
    answer, kib, seconds, *command = sys.argv[1:]

    def limit():
        resource.setrlimit(resource.RLIMIT_AS, (int(kib) * 1024, int(kib) * 1024))
        resource.setrlimit(resource.RLIMIT_CORE, (0, 0))

    child = subprocess.Popen(command, preexec_fn=limit)
    try:
        status = child.wait(timeout=float(seconds))
    except subprocess.TimeoutExpired:
        child.kill()
        status = child.wait()
    used = resource.getrusage(resource.RUSAGE_CHILDREN)
    told = {"status": status, "seconds": used.ru_utime + used.ru_stime, "peak": used.ru_maxrss * 1024}
    pathlib.Path(answer).write_text(json.dumps(told))


if __name__ == "__main__":
    main()
