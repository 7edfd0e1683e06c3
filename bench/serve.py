#!/usr/bin/env python3
"""Counts the requests a second that a server takes on new connections over loopback, and how soon items reach held streams, and prints both
with their conditions.

    bench/serve.py [--requests N] [--at-once N] [--clients N] [--workers N] [--rounds N] [--streams N] [--items N] PROGRAM

PROGRAM is the path of the built program. It starts a small origin of its own, which answers 100 bytes to every request, or asks for a stream. Then it
counts:

- plain requests straight to the origin, which shows how far the origin and the clients of this bench come by themselves;
- plain requests through a server;
- publish requests to a server, each with one item;
- items to streams on one channel, published one by one, each once the one before reached all: the time from the publish request to the last stream's
  chunk, the server's processor time for one delivery, and the resident memory that a held stream adds.

Each request has a connection of its own, of which so many are open at once. The clients and the origin are processes of their own, and share the
processors with the server. Of a server the processor time for one request and the peak of its memory are told too, which depend less on what else
runs. The server of each count is started anew, and ends by itself behind the last request. A count fails unless every response is the wanted one,
the server ends with status 0, and its report has a line for each request. The figures are those of the round with the most requests a second.
"""

import argparse
import os
import platform
import select
import signal
import socket
import sys
import tempfile
import time
import traceback

MOST = 900
ANSWER = b"HTTP/1.1 200 OK\r\ncontent-type: text/plain\r\ncontent-length: 100\r\nconnection: close\r\n\r\n" + b"x" * 99 + b"\n"
PLAIN = b"GET /page HTTP/1.1\r\nhost: bench\r\nuser-agent: bench\r\naccept: */*\r\n\r\n"
STREAM = b"GET /stream HTTP/1.1\r\nhost: bench\r\n\r\n"
HELD = b"HTTP/1.1 200 OK\r\ngrip-hold: stream\r\ngrip-channel: fan; prev-id=0\r\ncontent-length: 0\r\nconnection: close\r\n\r\n"
CONTENT = "x" * 100
RUNNING = []


def plain(_number):
    """A request for the page of the origin, and how its response ends."""
    return PLAIN, ANSWER[-100:]


def publish(number):
    """A request with one item, the next of one of 100 channels, and how its response ends."""
    channel, item = number % 100, number // 100 + 1
    return publication(f"c{channel}", item, f'"content":"{CONTENT}"'), b"\nPublished\n"


def publication(channel, item, part):
    """A publish request with one item, which follows the one with the number before."""
    body = f'{{"items":[{{"channel":"{channel}","id":"{item}","prev-id":"{item - 1}","formats":{{"http-stream":{{{part}}}}}}}]}}'.encode()
    return b"POST /publish HTTP/1.1\r\nhost: bench\r\ncontent-length: %d\r\n\r\n%s" % (len(body), body)


def begin(work):
    """Runs some work in a process of its own, which ends on an alarm in any case."""
    child = os.fork()
    if child == 0:
        status = 1
        try:
            signal.alarm(MOST)
            work()
            status = 0
        except BaseException:
            traceback.print_exc()
        finally:
            os._exit(status)
    RUNNING.append(child)
    return child


def wait_for(child):
    """The status of a process and what it used, once it has ended."""
    _, status, used = os.wait4(child, 0)
    RUNNING.remove(child)
    return os.waitstatus_to_exitcode(status), used


def end_all():
    """Ends the processes that still run."""
    for child in list(RUNNING):
        os.kill(child, signal.SIGKILL)
        wait_for(child)


def answer_all(door):
    """The origin: answers one request on each connection."""
    while True:
        link, _ = door.accept()
        try:
            heard = b""
            while b"\r\n\r\n" not in heard:
                part = link.recv(4096)
                if not part:
                    break
                heard += part
            link.sendall(HELD if heard.startswith(b"GET /stream ") else ANSWER)
        except OSError:
            pass
        link.close()


def free_port():
    with socket.create_server(("127.0.0.1", 0)) as door:
        return door.getsockname()[1]


def call_once(port, text):
    """One request, once somebody listens."""
    until = time.monotonic() + 10
    while True:
        try:
            link = socket.create_connection(("127.0.0.1", port), 10)
            break
        except ConnectionRefusedError:
            if time.monotonic() > until:
                raise
            time.sleep(0.02)
    with link:
        link.sendall(text)
        while link.recv(4096):
            pass


def call_all(port, text_of, numbers, at_once):
    """Makes the requests with these numbers, so many at once. Each has to be answered 200, to the end of the connection."""
    poll = select.epoll()
    talks = {}
    left = iter(numbers)

    def dial():
        number = next(left, None)
        if number is None:
            return
        link = socket.socket()
        link.setblocking(False)
        link.connect_ex(("127.0.0.1", port))
        talks[link.fileno()] = [link, *text_of(number), b""]
        poll.register(link.fileno(), select.EPOLLOUT)

    for _ in range(at_once):
        dial()
    while talks:
        ready = poll.poll(30)
        if not ready:
            raise TimeoutError("no answer for 30 seconds")
        for at, events in ready:
            talk = talks[at]
            link, text, wanted, heard = talk
            if events & select.EPOLLOUT and text:
                if link.send(text) != len(text):
                    raise OSError("a request wasn't taken whole")
                talk[1] = b""
                poll.modify(at, select.EPOLLIN)
                continue
            part = link.recv(65536)
            if part:
                talk[3] = heard + part
                continue
            if not heard.startswith(b"HTTP/1.1 200 ") or not heard.endswith(wanted):
                raise OSError(f"answered {heard[:60]!r}")
            del talks[at]
            link.close()
            dial()


def time_of(port, text_of, options):
    """The seconds that all requests take."""
    shares = [range(first, options.requests, options.clients) for first in range(options.clients)]
    at_once = max(1, options.at_once // options.clients)
    begun = time.perf_counter()
    children = [begin(lambda share=share: call_all(port, text_of, share, at_once)) for share in shares]
    statuses = [wait_for(child)[0] for child in children]
    spent = time.perf_counter() - begun
    if any(statuses):
        sys.exit("a client failed")
    return spent


def serve(options, routes, client, publish_port, report, sessions):
    """The server, in place of this process."""
    words = [options.program, "serve", routes, "--workers", str(options.workers), "--sessions", str(sessions)]
    words += ["--client", str(client), "--publish", str(publish_port)]
    os.dup2(os.open(report, os.O_WRONLY | os.O_CREAT | os.O_TRUNC), 1)
    os.execv(options.program, words)


def memory_of(process, which):
    """The memory of a process, in KB: VmHWM is its peak, and VmRSS what it has now."""
    with open(f"/proc/{process}/status") as file:
        return next(int(line.split()[1]) for line in file if line.startswith(which))


def processor_of(process):
    """The processor seconds that a process has used."""
    with open(f"/proc/{process}/stat") as file:
        fields = file.read().rsplit(")", 1)[1].split()
    return (int(fields[11]) + int(fields[12])) / os.sysconf("SC_CLK_TCK")


def start_server(options, folder, origin, sessions):
    """A server that ends behind so many sessions, its ports, and the path of its report."""
    routes, report = os.path.join(folder, "routes"), os.path.join(folder, "report")
    with open(routes, "w") as file:
        file.write(f"* 127.0.0.1:{origin}\n")
    ports = {"client": free_port(), "publish": free_port()}
    return begin(lambda: serve(options, routes, ports["client"], ports["publish"], report, sessions)), ports, report


class Streams:
    """Streams that are held at once, and how much each was sent."""

    def __init__(self, port, count):
        self.poll, self.links, self.heard = select.epoll(), {}, {}
        for _ in range(count):
            link = socket.create_connection(("127.0.0.1", port), 10)
            link.sendall(STREAM)
            link.setblocking(False)
            self.links[link.fileno()] = link
            self.heard[link.fileno()] = b""
            self.poll.register(link.fileno(), select.EPOLLIN)
        self.hear(lambda text: b"\r\n\r\n" in text)

    def hear(self, is_enough):
        """Reads until each stream was sent enough, and forgets what it was sent."""
        left = {at for at in self.links if not is_enough(self.heard[at])}
        while left:
            ready = self.poll.poll(30)
            if not ready:
                raise TimeoutError(f"{len(left)} streams were sent nothing for 30 seconds")
            for at, _ in ready:
                part = self.links[at].recv(65536)
                self.heard[at] += part
                if is_enough(self.heard[at]):
                    left.discard(at)
                elif not part:
                    raise OSError(f"a stream ended behind {self.heard[at]!r}")
        for at in self.heard:
            self.heard[at] = b""

    def close(self):
        for link in self.links.values():
            link.close()


def count_streams(options, folder, origin):
    """The seconds from each publish request to the last stream's chunk, the processor seconds of a delivery, and the bytes of a held stream."""
    server, ports, report = start_server(options, folder, origin, options.streams + options.items + 2)
    call_once(ports["client"], PLAIN)
    before = memory_of(server, "VmRSS")
    streams = Streams(ports["client"], options.streams)
    time.sleep(0.5)
    memory = (memory_of(server, "VmRSS") - before) * 1024 / options.streams
    used, times = processor_of(server), []
    chunk = b"64\r\n%s\r\n" % CONTENT.encode()
    for item in range(1, options.items + 1):
        begun = time.perf_counter()
        call_once(ports["publish"], publication("fan", item, f'"content":"{CONTENT}"'))
        streams.hear(lambda text: text == chunk)
        times.append(time.perf_counter() - begun)
    used = (processor_of(server) - used) / (options.items * options.streams)
    call_once(ports["publish"], publication("fan", options.items + 1, '"action":"close"'))
    streams.hear(lambda text: text == b"0\r\n\r\n")
    streams.close()
    status, _ = wait_for(server)
    with open(report) as file:
        closed = sum(line.endswith(" closed\n") for line in file)
    if status != 0 or closed != options.streams:
        sys.exit(f"the server ended with status {status}, and {closed} streams were closed")
    return sorted(times), used, memory


def count_served(options, folder, origin, door, text_of):
    """The seconds that all requests to one door of a server take, and its processor seconds and its memory. It serves one request
    before them, and one behind them, which ends its run."""
    server, ports, report = start_server(options, folder, origin, options.requests + 2)
    call_once(ports["client"], PLAIN)
    spent = time_of(ports[door], text_of, options)
    memory = memory_of(server, "VmHWM")
    call_once(ports["client"], PLAIN)
    status, used = wait_for(server)
    with open(report) as file:
        lines = file.read().splitlines()
    if status != 0 or len(lines) != options.requests + 2 or not all(line.endswith(" sent 200") for line in lines):
        sys.exit(f"the server ended with status {status} and {len(lines)} lines")
    return spent, used.ru_utime + used.ru_stime, memory


def count_all(options, folder):
    with socket.create_server(("127.0.0.1", 0), backlog=4096) as door:
        for _ in range(options.origins):
            begin(lambda: answer_all(door))
        origin = door.getsockname()[1]
    best = min(time_of(origin, plain, options) for _ in range(options.rounds))
    print(f"straight to the origin: {options.requests / best:,.0f} requests/s")
    for name, door, text_of in (("plain requests", "client", plain), ("publish requests", "publish", publish)):
        spent, used, memory = min(count_served(options, folder, origin, door, text_of) for _ in range(options.rounds))
        print(
            f"{name}: {options.requests / spent:,.0f} requests/s, "
            f"{used / options.requests * 1e6:.1f} us of the server's processor time each, {memory:,} KB at most"
        )


    times, used, memory = min(count_streams(options, folder, origin) for _ in range(options.rounds))
    print(
        f"{options.items} items to {options.streams:,} streams: the last chunk {times[len(times) // 2] * 1e3:.1f} ms behind the publish request in the middle "
        f"of all items, {times[0] * 1e3:.1f} to {times[-1] * 1e3:.1f} ms, {used * 1e6:.1f} us of the server's processor time a delivery, "
        f"{memory:,.0f} bytes resident a held stream"
    )


def processor():
    try:
        with open("/proc/cpuinfo") as file:
            return next(line.split(":", 1)[1].strip() for line in file if line.startswith("model name"))
    except (OSError, StopIteration):
        return platform.machine()


def main():
    parser = argparse.ArgumentParser(description=__doc__.splitlines()[0])
    parser.add_argument("--requests", type=int, default=20_000, help="of each count, at most 99,998")
    parser.add_argument("--at-once", type=int, default=64, help="open connections")
    parser.add_argument("--clients", type=int, default=2, help="processes of clients")
    parser.add_argument("--origins", type=int, default=2, help="processes of the origin")
    parser.add_argument("--workers", type=int, default=2, help="threads of the server")
    parser.add_argument("--rounds", type=int, default=3)
    parser.add_argument("--streams", type=int, default=1_000, help="held at once, at most 4,000")
    parser.add_argument("--items", type=int, default=50, help="published to them")
    parser.add_argument("program", metavar="PROGRAM")
    options = parser.parse_args()
    options.program = os.path.abspath(options.program)
    signal.signal(signal.SIGTERM, lambda *_: sys.exit(1))
    print(
        f"{options.requests:,} requests of each kind, each on a new connection, {options.at_once} at once by {options.clients} processes; "
        f"an origin of {options.origins} processes; {options.workers} workers; the best of {options.rounds} rounds; "
        f"{os.cpu_count()} processors, {processor()}, Python {platform.python_version()}, load {os.getloadavg()[0]:.1f} before"
    )
    try:
        with tempfile.TemporaryDirectory() as folder:
            count_all(options, folder)
    finally:
        end_all()


if __name__ == "__main__":
    main()
