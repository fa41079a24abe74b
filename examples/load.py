#!/usr/bin/env python3
"""A load run that anyone can repeat: many sockets on one channel, and messages of 100 bytes that a back end publishes.

    examples/load.py                          # 500 sockets, 3 rounds
    examples/load.py --sockets 100 --rounds 5
    examples/load.py --beside nchan           # and nginx with nchan in turn with it (Debian: nginx libnginx-mod-nchan)

It starts the server itself, anew in each round, on ports of its own, and ends it. What it tells, as medians of the rounds:

    connect     connections a second, each with its subscription, one after another
    memory      kB of resident memory for each socket
    idle        processor time in 5 seconds of nothing, in percent of one processor
    latency     one message at a time, from before the publisher connects to the last socket's reading: median and 99th percentile
    rate        deliveries a second, with 32 messages under way
    processor   microseconds of the server's processor time for each delivery then

This script is one Python process and takes a processor for itself, so the rate is the script's as much as the server's. Figures
of two machines, or of two hours on a busy one, can't be compared; the ratios of one run can.
"""
import argparse
import json
import os
import resource
import select
import signal
import socket
import statistics
import subprocess
import sys
import tempfile
import time

from channels import App, Failed, Socket

HERE = os.path.dirname(os.path.abspath(__file__))
TEXT = "x" * 100
WINDOW = 32  # messages under way


class Channelsd:
    """This repository's server, under a configuration of its own."""

    name = "channelsd"
    program = os.environ.get("CHANNELSD", os.path.join(HERE, "..", "channelsd"))

    def __init__(self, folder, sockets):
        config = {
            "app_id": "load", "key": "load", "secret": "load", "listen": "127.0.0.1:6101",
            # each has 256 connections, and publishers are some
            "workers": max(2, -(-(sockets + WINDOW) // 256)),
        }
        path = os.path.join(folder, "channelsd.json")
        with open(path, "w", encoding="utf-8") as file:
            json.dump(config, file)
        self.app = App(config)
        self.process = subprocess.Popen([self.program, "serve", path], stdout=subprocess.PIPE, text=True)
        said = self.process.stdout.readline().strip()
        if not said.startswith("listening"):
            raise Failed(f"{self.program} doesn't listen: it said '{said}' and ended with {self.process.wait()}")

    def subscriber(self):
        client = Socket(self.app)
        client.subscribe("load")
        return client.plain, client.came

    def request(self):
        body = json.dumps({"name": "e", "channel": "load", "data": TEXT}).encode()
        target = self.app.signed_target("POST", "/apps/load/events", body=body)
        return self.app.port, f"POST {target} HTTP/1.1\r\nHost: load\r\nContent-Length: {len(body)}\r\n\r\n".encode() + body


class Nchan:
    """nginx with the module nchan: the same fan-out, without signatures and presence."""

    name = "nchan"
    conf = """
        load_module modules/ngx_nchan_module.so;
        daemon off; pid pid; error_log stderr crit; worker_processes 1; worker_rlimit_nofile 20000;
        events { worker_connections 18000; }
        http { access_log off; server { listen 127.0.0.1:6102;
            location = /sub { nchan_subscriber websocket; nchan_channel_id load; nchan_subscriber_first_message newest; }
            location = /pub { nchan_publisher; nchan_channel_id load; } } }
    """

    def __init__(self, folder, _):
        with open(os.path.join(folder, "nginx.conf"), "w", encoding="utf-8") as file:
            file.write(self.conf)
        os.symlink("/usr/lib/nginx/modules", os.path.join(folder, "modules"))
        self.process = subprocess.Popen(["nginx", "-p", folder, "-c", "nginx.conf"])
        for _ in range(100):
            try:
                socket.create_connection(("127.0.0.1", 6102)).close()
                return
            except OSError:
                time.sleep(0.05)
        self.process.terminate()
        raise Failed("nginx doesn't listen")

    def subscriber(self):
        plain = socket.create_connection(("127.0.0.1", 6102))
        plain.sendall(
            b"GET /sub HTTP/1.1\r\nHost: load\r\nUpgrade: websocket\r\nConnection: Upgrade\r\n"
            b"Sec-WebSocket-Key: dGhlIHNhbXBsZSBub25jZQ==\r\nSec-WebSocket-Version: 13\r\n\r\n"
        )
        came = b""
        while b"\r\n\r\n" not in came:
            came += plain.recv(4096)
        return plain, came.split(b"\r\n\r\n", 1)[1]

    def request(self):
        head = f"POST /pub HTTP/1.1\r\nHost: load\r\nConnection: close\r\nContent-Length: {len(TEXT)}\r\n\r\n"
        return 6102, (head + TEXT).encode()


def family(pid):
    """A process and all below it."""
    found = [pid]
    for each in found:
        with open(f"/proc/{each}/task/{each}/children", encoding="ascii") as file:
            found += [int(word) for word in file.read().split()]
    return found


def processor_time(pid):
    """Seconds of processor time so far, of a process and all below it."""
    ticks = 0
    for each in family(pid):
        with open(f"/proc/{each}/stat", encoding="ascii", errors="replace") as file:
            fields = file.read().rsplit(")", 1)[1].split()
            ticks += int(fields[11]) + int(fields[12])
    return ticks / os.sysconf("SC_CLK_TCK")


def memory(pid):
    """Resident memory in kB, of a process and all below it."""
    pages = 0
    for each in family(pid):
        with open(f"/proc/{each}/statm", encoding="ascii") as file:
            pages += int(file.read().split()[1])
    return pages * os.sysconf("SC_PAGE_SIZE") / 1024


class Crowd:
    """The sockets of a round, and what came on them."""

    def __init__(self, peer, count):
        self.peer, self.polled = peer, select.epoll()
        self.sockets, self.came, self.publishers = {}, {}, {}
        self.delivered = self.published = self.refused = 0
        for _ in range(count):
            plain, came = peer.subscriber()
            plain.setblocking(False)
            self.sockets[plain.fileno()], self.came[plain.fileno()] = plain, bytearray(came)
            self.polled.register(plain.fileno(), select.EPOLLIN)

    def publish(self):
        """Sends one message, on a connection of its own."""
        port, request = self.peer.request()
        plain = socket.create_connection(("127.0.0.1", port))
        plain.sendall(request)
        self.publishers[plain.fileno()] = plain
        self.polled.register(plain.fileno(), select.EPOLLIN)
        self.published += 1

    def hear(self):
        """Reads what is there; gives up after 10 seconds of nothing."""
        ready = self.polled.poll(10)
        if not ready:
            raise Failed(f"{self.delivered} deliveries came of {self.published} messages, and then nothing")
        for at, _ in ready:
            if at in self.publishers:
                self._hear_publisher(at)
            else:
                self._hear_subscriber(at)

    def _hear_publisher(self, at):
        plain = self.publishers[at]
        reply = plain.recv(4096)
        if reply:
            self.refused += not reply.startswith((b"HTTP/1.1 2", b"HTTP/1.0 2"))
        else:
            self.polled.unregister(at)
            del self.publishers[at]
            plain.close()

    def _hear_subscriber(self, at):
        more = self.sockets[at].recv(262144)
        if not more:
            raise Failed("a socket was closed")
        came = self.came[at]
        came += more
        start = 0
        while len(came) - start >= 4:
            size, head = came[start + 1] & 127, 2
            if size == 126:
                size, head = came[start + 2] << 8 | came[start + 3], 4
            if len(came) - start < head + size:
                break
            self.delivered += came[start] & 15 == 1
            start += head + size
        del came[:start]

    def close(self):
        for plain in [*self.sockets.values(), *self.publishers.values()]:
            plain.close()


def measure(kind, sockets, messages, idle):
    """One round of one server."""
    with tempfile.TemporaryDirectory() as folder:
        peer = kind(folder, sockets)
        pid, crowd = peer.process.pid, None
        try:
            before, began = memory(pid), time.perf_counter()
            crowd = Crowd(peer, sockets)
            figures = {"connect /s": sockets / (time.perf_counter() - began)}

            spent = processor_time(pid)
            time.sleep(idle)
            figures["idle %"] = 100 * (processor_time(pid) - spent) / idle

            waits = []
            for _ in range(messages):
                wanted, began = crowd.delivered + sockets, time.perf_counter()
                crowd.publish()
                while crowd.delivered < wanted:
                    crowd.hear()
                waits.append(1000 * (time.perf_counter() - began))
            waits.sort()
            figures["latency ms"], figures["99th"] = statistics.median(waits), waits[len(waits) * 99 // 100]
            figures["memory kB"] = (memory(pid) - before) / sockets

            first, start, spent, began = crowd.published, crowd.delivered, processor_time(pid), time.perf_counter()
            while crowd.delivered - start < 4 * messages * sockets:
                while crowd.published - first < min(4 * messages, (crowd.delivered - start) // sockets + WINDOW):
                    crowd.publish()
                crowd.hear()
            figures["rate /s"] = (crowd.delivered - start) / (time.perf_counter() - began)
            figures["processor us"] = 1e6 * (processor_time(pid) - spent) / (crowd.delivered - start)
            if crowd.refused or crowd.delivered != crowd.published * sockets:
                raise Failed(f"{crowd.refused} messages were refused, {crowd.delivered} deliveries came of {crowd.published} messages")
            return figures
        finally:
            if crowd:
                crowd.close()
            peer.process.send_signal(signal.SIGTERM)
            peer.process.wait()


def show(title, values):
    print(f"{title:24}" + "".join(f"{value:>14.2f}" for value in values), flush=True)


def main():
    words = argparse.ArgumentParser(description=__doc__.split("\n")[0])
    words.add_argument("--sockets", type=int, default=500, help="at most 16,096: 63 workers with 256 each, less the publishers")
    words.add_argument("--messages", type=int, default=200, help="one at a time; four times as many are then sent side by side")
    words.add_argument("--rounds", type=int, default=3)
    words.add_argument("--idle", type=float, default=5, help="seconds")
    words.add_argument("--beside", choices=["nchan"])
    given = words.parse_args()
    _, most = resource.getrlimit(resource.RLIMIT_NOFILE)
    resource.setrlimit(resource.RLIMIT_NOFILE, (most, most))
    # without input this only builds the program, where it has to be built
    subprocess.run([Channelsd.program, "replay"], stdin=subprocess.DEVNULL, check=True)
    kinds = [Channelsd] + ([Nchan] if given.beside else [])
    rounds = {kind: [] for kind in kinds}
    for number in range(given.rounds):
        for kind in kinds if number % 2 == 0 else kinds[::-1]:
            figures = measure(kind, given.sockets, given.messages, given.idle)
            if not any(rounds.values()):
                print(f"{given.sockets} sockets, {given.messages} messages".ljust(24) + "".join(f"{name:>14}" for name in figures))
            rounds[kind].append(figures)
            show(f"{kind.name} {number + 1}", figures.values())
    middle = {kind: [statistics.median(each[name] for each in rounds[kind]) for name in rounds[kind][0]] for kind in kinds}
    for kind in kinds:
        show(f"{kind.name}, median", middle[kind])
    if given.beside:
        show("ratio of the medians", [one / other if other else 0 for one, other in zip(middle[kinds[0]], middle[kinds[1]])])
    print("ok")


try:
    main()
except (Failed, OSError, subprocess.CalledProcessError) as fault:
    sys.exit(f"failed: {fault}")
