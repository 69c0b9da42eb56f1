#!/usr/bin/env python3
"""What a server that stays takes while nobody asks, and with many open connections:

    bench/run resting [SECONDS [CONNECTIONS]]     60 seconds, 1,000 connections

It starts `chord serve --stay` over 16 nodes with tree stores, with a caller for each connection.
First it tells the part of a processor that the server takes while it has no connection. Then it
opens the connections, asks an insert and a retrieve over each, and tells what a connection takes in
memory. At last all connections ask at once. It does so for connections without sessions and, on a
new server, for connections that each begin with an Open. It ends with a status other than 0 where
an answer is missing or wrong.
"""
import os
import resource
import socket
import struct
import subprocess
import sys
import tempfile
import threading
import time

NODES = 16
INSERT, RETRIEVE, OPEN = 1, 2, 4
PROGRAM = "crates/chord_app/out/chord_app"


class Server:
    """A server that stays, over nodes that are evenly spread."""

    def __init__(self, room, callers):
        plan = os.path.join(room, "plan.toml")
        with open(plan, "w") as it:
            it.write("slots = 16\ncallers = 64\nsuccessors = 4\ntries = 3\nwait = 100\n")
            for place in range(NODES):
                it.write(f'[[node]]\nid = "{place:x}{"0" * 31}"\nstore = "tree"\n')
        words = f"serve --port 0 --stay --until-input-ends --callers {callers} --plan".split()
        self.process = subprocess.Popen(
            [PROGRAM, *words, plan], stdin=subprocess.PIPE, stdout=subprocess.PIPE, text=True
        )
        self.port = int(self.process.stdout.readline().rsplit(":", 1)[1])
        threading.Thread(target=self.process.stdout.read, daemon=True).start()

    def seconds(self):
        """The seconds of a processor that it took, in ticks of the clock."""
        with open(f"/proc/{self.process.pid}/stat") as it:
            fields = it.read().rsplit(")", 1)[1].split()
        return (int(fields[11]) + int(fields[12])) / os.sysconf("SC_CLK_TCK")

    def run_time(self):
        """The nanoseconds that its threads ran, which counts finer than ticks of the clock."""
        total = 0
        for thread in os.listdir(f"/proc/{self.process.pid}/task"):
            with open(f"/proc/{self.process.pid}/task/{thread}/schedstat") as it:
                total += int(it.read().split()[0])
        return total

    def resident(self):
        """How many bytes of it are in memory."""
        with open(f"/proc/{self.process.pid}/statm") as it:
            return int(it.read().split()[1]) * os.sysconf("SC_PAGE_SIZE")

    def threads(self):
        return len(os.listdir(f"/proc/{self.process.pid}/task"))


class Connection:
    """A client in version 2 of the protocol, one request at a time."""

    def __init__(self, port, place, has_session):
        self.stream = socket.create_connection(("127.0.0.1", port), timeout=30)
        self.key, self.number = b"key:%d" % place, 0
        if has_session:
            self.write(struct.pack(">BBQQ", 2, OPEN, 0, 0) + os.urandom(16) + b"\0")
            self.read(0x80 + OPEN, 0)

    def write(self, body):
        self.stream.sendall(struct.pack(">I", len(body)) + body)

    def exactly(self, count):
        got = b""
        while len(got) < count:
            piece = self.stream.recv(count - len(got))
            if not piece:
                raise AssertionError("the connection ended")
            got += piece
        return got

    def read(self, kind, number):
        """What stands behind the number of an answer."""
        answer = self.exactly(struct.unpack(">I", self.exactly(4))[0])
        if answer[1] != kind or struct.unpack(">Q", answer[2:10])[0] != number:
            raise AssertionError(f"a wrong answer: {answer.hex()}")
        return answer[10:]

    def ask(self, operation, value=None):
        self.number += 1
        body = struct.pack(">BBQQ", 2, operation, self.number, self.number - 1)
        body += bytes([len(self.key)]) + self.key
        if value is not None:
            body += struct.pack(">H", len(value)) + value
        self.write(body)

    def has_added(self):
        """Whether the answer to an insert says that the value is new."""
        return self.read(0x80 + INSERT, self.number) == b"\1"

    def has_got(self, value):
        """Whether the answer to a retrieve has this value alone."""
        wanted = struct.pack(">IH", 1, len(value)) + value
        return self.read(0x80 + RETRIEVE, self.number) == wanted


def rest(server, seconds):
    """Tells the part of a processor that a server without connections takes."""
    time.sleep(5)
    ticks, nanoseconds = server.seconds(), server.run_time()
    time.sleep(seconds)
    ticks = (server.seconds() - ticks) / seconds
    nanoseconds = (server.run_time() - nanoseconds) / 1e9 / seconds
    print(f"{NODES} nodes at rest for {seconds} seconds: {100 * nanoseconds:.3f}% of a processor "
          f"by the threads' run times, {100 * ticks:.2f}% by ticks of the clock", flush=True)


def connect(server, count, has_session):
    """Opens the connections, and tells what each takes."""
    before, threads = server.resident(), server.threads()
    connections, right = [], 0
    for place in range(count):
        connection = Connection(server.port, place, has_session)
        connections.append(connection)
        connection.ask(INSERT, b"value:%d" % place)
        added = connection.has_added()
        connection.ask(RETRIEVE)
        right += added and connection.has_got(b"value:%d" % place)
    each = (server.resident() - before) / count / 1024
    begun = time.monotonic()
    for connection in connections:
        connection.ask(RETRIEVE)
    again = sum(c.has_got(b"value:%d" % place) for place, c in enumerate(connections))
    spent = time.monotonic() - begun
    for connection in connections:
        connection.stream.close()
    time.sleep(3)
    left = (server.resident() - before) / count / 1024
    print(f"{count} connections {'with' if has_session else 'without'} sessions: {right} got both "
          f"answers, then {again} theirs at once in {1000 * spent:.0f} ms; {each:.1f} KiB for each "
          f"while open, {left:.1f} once all are closed; {before / 2**20:.1f} MiB and {threads} "
          f"threads before", flush=True)
    return right == again == count


def main():
    numbers = [int(word) for word in sys.argv[1:]]
    seconds = numbers[0] if numbers else 60
    count = numbers[1] if len(numbers) > 1 else 1000
    most = resource.getrlimit(resource.RLIMIT_NOFILE)[1]
    resource.setrlimit(resource.RLIMIT_NOFILE, (most, most))
    done = True
    for has_session in (False, True):
        with tempfile.TemporaryDirectory() as room:
            server = Server(room, count)
            try:
                if not has_session:
                    rest(server, seconds)
                done &= connect(server, count, has_session)
            finally:
                server.process.kill()
    return 0 if done else 1


sys.exit(main())
