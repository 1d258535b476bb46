"""One table for several predictors, in Python by sysv_ipc: turns, waits that end, undo after a kill, permissions and what is
refused. Writes the same at each run. The table is a file of the present folder."""
import os
import signal
import sys
import time

import sysv_ipc

KEY = 0x5EA7
NOBODY = 65534


def child(work):
    """A process that does some work and ends with its status."""
    sys.stdout.flush()
    pid = os.fork()
    if pid:
        return pid
    status = 99
    try:
        status = work() or 0
    finally:
        sys.stdout.flush()
        os._exit(status)


def ended(pid):
    return os.waitstatus_to_exitcode(os.waitpid(pid, 0)[1])


def until(condition):
    while not condition():
        time.sleep(0.01)


def refused(what, call):
    try:
        call()
        print(what, "done", sep=": ")
    except (sysv_ipc.Error, OSError) as error:
        print(what, type(error).__name__, sep=": ")


def write(rounds):
    """Adds one to the number in the file so many times, each time alone."""
    table = sysv_ipc.Semaphore(KEY)
    table.undo = True
    for _ in range(rounds):
        with table:
            with open("table", "r+") as file:
                number = int(file.read()) + 1
                file.seek(0)
                file.write(str(number))


def turns(table):
    with open("table", "w") as file:
        file.write("0")
    print("ends", [ended(pid) for pid in [child(lambda: write(150)) for _ in range(5)]])
    with open("table") as file:
        print("written", file.read(), "value", table.value)


def waits(table):
    """A wait ends by the clock, and a sleeper whose wait is long enough gets the table."""
    table.acquire()
    began = time.monotonic()
    refused("a fifth of a second", lambda: table.acquire(0.2))
    print("not early", time.monotonic() - began >= 0.2, "not late", time.monotonic() - began < 2)
    refused("no time at all", lambda: table.acquire(0))
    pid = child(lambda: table.acquire(30))
    until(lambda: table.waiting_for_nonzero == 1)
    table.release()
    print("long wait", ended(pid), "by that child", table.last_pid == pid, "value", table.value)
    pid = child(lambda: table.Z(30))
    print("zero", ended(pid))
    table.release()


def killed(table):
    """What a killed process took with undo comes back, what it took without does not."""
    for undo in (True, False):
        table.undo = undo
        pid = child(lambda: (table.acquire(), time.sleep(60)))
        until(lambda: table.value == 0)
        os.kill(pid, signal.SIGKILL)
        print("undo", undo, "end", ended(pid), "value", table.value)
    table.value = 1


def interrupted(table):
    """A handler runs in the midst of the sleep, and the call ends with it."""
    def stop():
        signal.signal(signal.SIGALRM, lambda *_: print("alarm"))
        signal.setitimer(signal.ITIMER_REAL, 0.1)
        refused("interrupted", table.acquire)
    table.value = 0
    print("end", ended(child(stop)))
    table.value = 1


def strangers(mode):
    """What another user may do with a set of a mode."""
    def stranger():
        os.setgroups([])
        os.setgid(NOBODY)
        os.setuid(NOBODY)
        refused(f"open {mode:o}", lambda: sysv_ipc.Semaphore(KEY + mode))
        refused(f"take {mode:o}", lambda: sysv_ipc.Semaphore(KEY + mode, 0, 0).acquire(0))
        refused(f"remove {mode:o}", lambda: sysv_ipc.Semaphore(KEY + mode, 0, 0).remove())
    other = sysv_ipc.Semaphore(KEY + mode, sysv_ipc.IPC_CREX, mode=mode, initial_value=1)
    print(f"mode {other.mode:o}", "mine", other.uid == os.getuid(), "end", ended(child(stranger)), "value", other.value)
    other.remove()


def gone(table):
    table.value = 0
    pid = child(lambda: refused("asleep", table.acquire))
    until(lambda: table.waiting_for_nonzero == 1)
    table.remove()
    print("end", ended(pid))
    refused("gone", table.acquire)
    refused("by its key", lambda: sysv_ipc.Semaphore(KEY))


def main():
    table = sysv_ipc.Semaphore(KEY, sysv_ipc.IPC_CREX, mode=0o600, initial_value=1)
    refused("there already", lambda: sysv_ipc.Semaphore(KEY, sysv_ipc.IPC_CREX))
    turns(table)
    waits(table)
    killed(table)
    interrupted(table)
    strangers(0o600)
    strangers(0o644)
    strangers(0o666)
    gone(table)


main()
