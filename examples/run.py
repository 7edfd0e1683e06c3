#!/usr/bin/env python3
"""Plays examples/README.md on free ports of the loopback address, and compares what is printed with what stands there.

    examples/run.py PROGRAM

PROGRAM is the path of the built program. It needs `curl`. It starts an origin and a server, makes the calls of the page in order,
and then expects the server to end by itself with its report. Whatever happens, what it started has ended when it ends. The exit
status is 0 where all was as it stands there.
"""

import os
import re
import signal
import socket
import subprocess
import sys
import tempfile
import time

HERE = os.path.dirname(os.path.abspath(__file__))
PLAIN = {**os.environ, "no_proxy": "*", "NO_PROXY": "*"}
MOST = 60


def blocks():
    """The calls of the page, each with the lines that it prints, and the lines that the server prints."""
    calls, report, printed = [], [], None
    with open(os.path.join(HERE, "README.md")) as page:
        for line in page.read().splitlines():
            if line.startswith("    $ "):
                printed = []
                calls.append((line[6:], printed))
            elif line.startswith(("    session ", "    hold ")):
                report.append(line[4:])
            elif line.startswith("    ") and printed is not None:
                printed.append(line[4:])
            elif not line and printed:
                printed.append("")
            else:
                printed = None
    return [(call, "\n".join(lines).strip()) for call, lines in calls], report


def free_ports(count):
    """Ports that nobody listens on now."""
    taken = [socket.create_server(("127.0.0.1", 0)) for _ in range(count)]
    ports = [one.getsockname()[1] for one in taken]
    for one in taken:
        one.close()
    return ports


def moved(text, ports):
    """A text of the page with these ports in place of its own."""
    return re.sub(r":(8000|7999|5561)\b", lambda found: f":{ports[found[1]]}", text)


def start(started, words, **pipes):
    """Starts a process, which ends on an alarm even where this one is killed."""
    started.append(subprocess.Popen(words, preexec_fn=lambda: signal.alarm(MOST + 10), **pipes))
    return started[-1]


def call(command, server):
    """What a call prints. It is made again for a while where nobody listens yet."""
    command = command.replace("curl ", "curl --max-time 10 ", 1)
    until = time.monotonic() + 10
    while True:
        done = subprocess.run(["sh", "-c", command], env=PLAIN, stdout=subprocess.PIPE, timeout=15)
        if done.returncode != 7 or server.poll() is not None or time.monotonic() > until:
            return done.stdout.decode(errors="replace").replace("\r", "").strip()
        time.sleep(0.1)


def in_order(lines):
    """The lines of a report by the numbers of the sessions, each with the lines of its holds behind it."""
    sessions = []
    for line in lines:
        if line.startswith("hold ") and sessions:
            sessions[-1].append(line)
        else:
            sessions.append([line])
    sessions.sort(key=lambda each: int((each[0].split() + ["0", "0"])[1]))
    return "\n".join(line for each in sessions for line in each)


def is_as_told(what, wanted, got):
    if got == wanted:
        print(f"as told: {what}")
        return True
    print(f"NOT AS TOLD: {what}\n--- told\n{wanted}\n--- printed\n{got}\n---")
    return False


def play(program, started, folder):
    """Whether all is as it stands there. What it starts is added to a list."""
    calls, report = blocks()
    ports = dict(zip(("8000", "7999", "5561"), free_ports(3)))
    routes = os.path.join(folder, "routes")
    with open(os.path.join(HERE, "routes")) as told, open(routes, "w") as here:
        here.write(moved(told.read(), ports))
    origin = [sys.executable, os.path.join(HERE, "origin.py"), str(ports["8000"]), "secret"]
    start(started, origin, stderr=subprocess.DEVNULL)
    server = [program, "serve", routes, "--workers", "1", "--sessions", str(sum(line.startswith("session ") for line in report)), "--key", "secret"]
    server += ["--client", str(ports["7999"]), "--publish", str(ports["5561"])]
    until_up(ports["8000"])
    server = start(started, server, stdout=subprocess.PIPE, stderr=subprocess.PIPE, text=True)
    well = [is_as_told(command, wanted, call(moved(command, ports), server)) for command, wanted in calls]
    printed, errors = server.communicate(timeout=20)
    well.append(is_as_told("the report", "\n".join(report), in_order(printed.splitlines())))
    well.append(is_as_told("the exit status", "0", str(server.returncode)))
    well.append(is_as_told("standard error", "", errors.strip()))
    return all(well)


def until_up(port):
    """Waits until the origin listens."""
    until = time.monotonic() + 10
    while time.monotonic() < until:
        try:
            return socket.create_connection(("127.0.0.1", port), 1).close()
        except ConnectionRefusedError:
            time.sleep(0.05)


def late(_number, _frame):
    raise TimeoutError(f"not over after {MOST} seconds")


def main():
    if len(sys.argv) != 2:
        sys.exit(__doc__)
    signal.signal(signal.SIGALRM, late)
    signal.signal(signal.SIGTERM, lambda *_: sys.exit(1))
    signal.alarm(MOST)
    started = []
    try:
        with tempfile.TemporaryDirectory() as folder:
            return 0 if play(os.path.abspath(sys.argv[1]), started, folder) else 1
    except (OSError, ValueError, subprocess.TimeoutExpired) as fault:
        print(f"NOT AS TOLD: {fault}")
        return 1
    finally:
        signal.alarm(0)
        for process in started:
            if process.poll() is None:
                process.kill()
            process.wait()


sys.exit(main())
