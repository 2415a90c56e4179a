"""Runs a solver within limits, ends all that it started, and prints what they took:

    runner.py PARENT SECONDS CLOCK MEGABYTES INPUT OUTPUT WORD..

The line is JSON: how it ended (`ended`, or the limit: `seconds`, `clock`, `memory`), its status, the seconds of the
processor and of the clock, the greatest memory in KiB, and the last line that it printed. There is none, and a status,
if the runner is stopped, as it is once PARENT, who starts it, has ended. It is small, and apart from dimacs-batch: the
system counts the memory of whoever starts a program to its peak. All that is started belongs to it, whatever sessions
that makes.
"""
import ctypes
import json
import os
import resource
import signal
import sys
import threading
import time
from contextlib import suppress

SET_DEATH_SIGNAL, SET_SUBREAPER = 1, 36
TICK, PAGE = os.sysconf("SC_CLK_TCK"), os.sysconf("SC_PAGE_SIZE")
STEPS = 0.02, 0.5  # seconds between two looks at what is used: at first, and later, as one twentieth of what elapsed
MORE = 1 << 30  # bytes beyond the limit that a process can't have, even between two looks
LONGEST = 1000  # bytes of the last line that are kept
WAITED_FOR = {signal.SIGCHLD, signal.SIGTERM, signal.SIGHUP, signal.SIGINT}

control = ctypes.CDLL(None).prctl


def family():
    """All processes that this one started, and what these started, by number and begin: the ticks of each, its own and
    those of children that it waited for; its pages; and its group."""
    children, used, found = {}, {}, {}
    for it in filter(str.isdigit, os.listdir("/proc")):
        with suppress(OSError), open(f"/proc/{it}/stat", "rb") as stat:
            fields = stat.read().rpartition(b")")[2].split()
            children.setdefault(int(fields[1]), []).append(int(it))
            own, waited = sum(map(int, fields[11:13])), sum(map(int, fields[13:15]))
            used[int(it)] = (int(it), fields[19]), (own, waited, int(fields[21]), int(fields[2]))
    todo = [os.getpid()]
    for it in todo:
        todo += children.get(it, [])
        found.update(used[one] for one in children.get(it, []))
    return found


def begin(printed, most, source, output, *words):
    """Begins the solver; its number."""
    pid = os.fork()
    if pid:
        return pid
    try:
        os.setsid()
        control(SET_DEATH_SIGNAL, signal.SIGKILL)
        os.dup2(os.open(source, os.O_RDONLY), 0)
        os.dup2(os.open(output, os.O_WRONLY | os.O_CREAT, 0o666) if output else printed, 1)
        os.dup2(printed, 2)
        for what, room in ((resource.RLIMIT_FSIZE, most), (resource.RLIMIT_DATA, most + MORE)):
            highest = resource.getrlimit(what)[1]
            room = room if highest == resource.RLIM_INFINITY else min(room, highest)
            resource.setrlimit(what, (room, room))
        for it in (signal.SIGPIPE, signal.SIGXFSZ):  # which Python ignores
            signal.signal(it, signal.SIG_DFL)
        signal.pthread_sigmask(signal.SIG_SETMASK, [])
        os.execvp(words[0], words)
    except OSError as error:
        os.write(2, f"{words[0]}: {error.strerror}\n".encode(errors="replace"))
    finally:
        os._exit(127)


class Family:
    """What those took that have ended, what all were seen to take, and the status of the first."""

    def __init__(self, first):
        self.first, self.status, self.ended, self.cpu, self.peak, self.own = first, None, 0, 0, 0, {}

    def take(self, how):
        """Takes the end of one; whether there may be more."""
        pid, status, usage = os.wait4(-1, how)
        if not pid:
            return False
        self.ended += usage.ru_utime + usage.ru_stime
        self.cpu, self.peak = max(self.cpu, self.ended), max(self.peak, usage.ru_maxrss)
        if pid == self.first:
            self.status = os.waitstatus_to_exitcode(status)
        return True

    def look(self):
        """Counts the seconds and the memory that all of them have now."""
        its = family()
        self.own.update((it, own) for it, (own, *_) in its.items())  # what nobody waits for counts as it was seen
        waited_for = self.ended + sum(own + waited for own, waited, *_ in its.values()) / TICK
        self.cpu = max(self.cpu, waited_for, sum(self.own.values()) / TICK)
        self.peak = max(self.peak, sum(pages for *_, pages, _ in its.values()) * PAGE >> 10)

    def end(self):
        """Ends all that is left, with its groups: one that always starts another has its group still."""
        while True:
            for it in {group for *_, group in family().values()}:
                with suppress(ProcessLookupError):
                    os.killpg(it, signal.SIGKILL)
            self.take(0)
            while self.take(os.WNOHANG):
                pass


def main(parent, seconds, clock, megabytes, *words):
    begun, step, over, stopped, last, (said, printed) = time.monotonic(), STEPS[0], [], False, [b""], os.pipe()
    if os.getppid() != int(parent):
        return

    def read():
        for piece in iter(lambda: os.read(said, 1 << 16), b""):
            last[0] = (last[0] + piece)[-LONGEST:]

    its, reader = Family(begin(printed, int(megabytes) << 20, *words)), threading.Thread(target=read, daemon=True)
    os.close(printed)
    reader.start()
    while its.status is None and not over and not stopped:
        came = signal.sigtimedwait(WAITED_FOR, step)
        stopped = came and came.si_signo != signal.SIGCHLD
        while its.status is None and its.take(os.WNOHANG):
            pass
        its.look()
        took = time.monotonic() - begun
        step = min(max(took / 20, STEPS[0]), STEPS[1])
        limits = {"seconds": (its.cpu, seconds), "clock": (took, clock), "memory": (its.peak / 1024, megabytes)}
        over = [it for it, (used, most) in limits.items() if used > float(most)]
    with suppress(ChildProcessError):
        its.end()
    reader.join(STEPS[1])  # what is out of reach may have the pipe still
    end = over[0] if over else "seconds" if its.cpu > float(seconds) else "ended"
    line = last[0].decode("utf-8", "replace").strip().rpartition("\n")[2]
    found = {"end": end, "status": its.status, "cpu": its.cpu, "seconds": took, "memory": its.peak, "said": line}
    if stopped:
        sys.exit(1)
    print(f"\n{json.dumps(found)}")  # in a line of its own, whatever the solver wrote there


if __name__ == "__main__":
    signal.pthread_sigmask(signal.SIG_BLOCK, WAITED_FOR)
    signal.signal(signal.SIGCHLD, signal.SIG_DFL)  # or the ends of processes aren't kept to be waited for
    control(SET_SUBREAPER, 1)
    control(SET_DEATH_SIGNAL, signal.SIGTERM)
    main(*sys.argv[1:])
