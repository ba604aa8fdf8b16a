# SPDX-License-Identifier: Apache-2.0
"""One run of a command in a process of its own, within a limit of processor time and of memory."""
import os
import resource
import signal
import time
from dataclasses import dataclass

TIME = "/usr/bin/time"  # Debian's package time: a process starts with the memory of the one it comes from, and this is a small one
SIGNALED = 128  # above it a status of `time` is that of a signal
LATE = 8  # times the seconds, by the clock
LONGEST = 1 << 26  # characters of output that are read


@dataclass
class Run:
    """Processor seconds, megabytes, how it ended (a status, or `time` where the seconds were over), and what it wrote."""

    seconds: float
    megabytes: float
    ended: object
    output: str


def start(command, source, folder, output, seconds, megabytes):
    """The process, alone in its group, which reads the file `source`."""
    pid = os.fork()
    if pid:
        return pid
    try:
        os.setsid()
        os.chdir(folder)
        resource.setrlimit(resource.RLIMIT_CPU, (seconds, seconds + 1))
        resource.setrlimit(resource.RLIMIT_AS, (megabytes << 20, megabytes << 20))
        resource.setrlimit(resource.RLIMIT_CORE, (0, 0))
        out = os.open(output, os.O_WRONLY | os.O_CREAT | os.O_TRUNC, 0o644)
        os.dup2(os.open(source, os.O_RDONLY), 0)
        os.dup2(out, 1)
        os.dup2(out, 2)
        os.execvp(command[0], command)
    finally:
        os._exit(127)


def wait(pid, latest):
    """Waits for the process, and ends its group where it takes too long by the clock; its status, and what it used."""
    while True:
        done, status, usage = os.wait4(pid, os.WNOHANG)
        if done:
            return status, usage
        if time.monotonic() > latest:
            os.killpg(pid, signal.SIGKILL)
            _, status, usage = os.wait4(pid, 0)
            return None, usage
        time.sleep(0.01)


def limited(command, folder, seconds, megabytes, source=os.devnull):
    """Runs the command in the folder, on the file `source`."""
    output, room = os.path.join(folder, "output"), os.path.join(folder, "room")
    pid = start([TIME, "-q", "-f", "%M", "-o", room, *command], source, folder, output, seconds, megabytes)
    status, usage = wait(pid, time.monotonic() + LATE * seconds + 60)
    used = usage.ru_utime + usage.ru_stime
    ended = "time" if status is None else os.waitstatus_to_exitcode(status)
    if ended != "time" and (used >= seconds or used >= 0.9 * seconds and (ended < 0 or ended > SIGNALED)):
        ended = "time"
    with open(output, encoding="utf-8", errors="replace") as file:
        return Run(used, kilobytes(room) / 1024, ended, file.read(LONGEST))


def kilobytes(path):
    """What `time` wrote; 0 where it was ended itself."""
    words = open(path).read().split() if os.path.exists(path) else []
    return int(words[-1]) if words and words[-1].isdigit() else 0
