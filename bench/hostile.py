#!/usr/bin/env python3
"""Sends hostile bytes to every door of a server, while healthy clients ask:

    bench/run hostile [SECONDS [SEED]]     60 seconds

It starts `chord serve --stay --operator` over 8 nodes. Four processes send random bytes, mutated
requests of all three protocols, requests of another door's protocol and greetings of TLS, each to
any of the doors: whole, cut anywhere, a byte at a time, several connections interleaved, some of
which never read. Meanwhile one healthy client of each door asks, and its waits are told. It ends
with a status other than 0 where a healthy client was answered wrongly, or waited more than 100 ms
or in one of 10,000 requests more than 20; where the server took more memory than its limit for
buffers and what its pairs need; where it ended; or where it has a pair whose key and value nobody
sent.
"""
import http.client
import multiprocessing
import os
import random
import socket
import struct
import sys
import tempfile
import threading
import time

import operate

ATTACKERS, CONNECTIONS = 4, 24
BUFFERS = 64
MOST_KEPT, SAMPLE = 48 << 20, 400
# A greeting of TLS 1.2 that names no cipher.
HELLO = bytes.fromhex("160301002f0100002b0303") + bytes(range(32)) + bytes.fromhex("00000200ff0100")


def frame(operation, number, key, value=None, version=1):
    floor = struct.pack(">Q", number - 1) if version == 2 else b""
    body = struct.pack(">BBQ", version, operation, number) + floor + bytes([len(key)]) + key
    if value is not None:
        body += struct.pack(">H", len(value)) + value
    return struct.pack(">I", len(body)) + body


def command(*words):
    return b"*%d\r\n" % len(words) + b"".join(b"$%d\r\n%s\r\n" % (len(w), w) for w in words)


def requests(draw):
    """Some requests of one of the three protocols, none of which changes the ring."""
    key, value = b"evil:%d" % draw.randrange(1000), draw.randbytes(draw.choice((1, 8, 200, 4096)))
    kind = draw.randrange(6)
    if kind == 0:
        values = (value, None, value)
        return b"".join(frame(1 + n % 3, n + 1, key, values[n % 3]) for n in range(8))
    if kind == 1:
        opened = struct.pack(">BBQQ", 2, 4, 0, 0) + draw.randbytes(16) + bytes([draw.randrange(2)])
        asked = b"".join(frame(1, n + 1, key, value, 2) for n in range(4))
        return struct.pack(">I", len(opened)) + opened + asked
    if kind == 2:
        words = draw.choice(((b"SADD", key, value), (b"SMEMBERS", key), (b"PING",), (b"MULTI",)))
        return command(*words) * 4
    if kind == 3:
        return draw.choice((b"SADD %s x\r\nEXEC\r\n", b'SADD %s "x\r\n', b"HELLO 3 %s\r\n")) % key
    path = draw.choice(("/", "/ring", "/health", "/metrics", "/pairs", "/holder/evil", "/nowhere"))
    if kind == 4:
        return f"GET {path} HTTP/1.1\r\nhost: 127.0.0.1\r\n\r\n".encode()
    return f"PUT {path} HTTP/1.1\r\ncontent-length: 9\r\n\r\n{{\"id\":\"0\"".encode()


def hostile_bytes(draw):
    """Bytes that a door should not like."""
    kind = draw.randrange(8)
    if kind == 0:
        return draw.randbytes(draw.randrange(1, 4096))
    if kind == 1:
        return HELLO
    if kind == 2:
        lengths = (b"*1048576\r\n", b"*1\r\n$1048576\r\n", b"\xff\xff\xff\xff", b"\0\0\x11\x14")
        return draw.choice(lengths)
    sent = bytearray(requests(draw))
    for _ in range(draw.choice((0, 1, 1, 2, 8))):
        place = draw.randrange(len(sent) + 1)
        if draw.randrange(3):
            sent[place : place + draw.randrange(3)] = draw.randbytes(draw.randrange(3))
        else:
            del sent[place:]
    return bytes(sent)


class Attacked:
    """A connection, and the bytes that were written to it."""

    def __init__(self, port):
        self.stream, self.written = socket.create_connection(("127.0.0.1", port), 60), bytearray()
        self.stream.setblocking(False)

    def send(self, sending, size):
        """Writes the bytes in pieces of this size, as far as the server takes them."""
        for first in range(0, len(sending), size):
            piece = sending[first : first + size]
            taken = self.stream.send(piece)
            self.written += piece[:taken]
            if taken < len(piece):
                return


class Attacker(multiprocessing.Process):
    """Sends hostile bytes over some connections until it is told to end. Keeps what it sent, of one
    connection after another."""

    def __init__(self, ports, seed, over, kept):
        super().__init__(daemon=True)
        self.ports, self.draw, self.over, self.kept = ports, random.Random(seed), over, kept

    def run(self):
        open_ones, sent = [], 0
        with open(self.kept, "wb") as log:
            while not self.over.is_set():
                if len(open_ones) < CONNECTIONS:
                    open_ones.append(Attacked(self.draw.choice(self.ports)))
                at = self.draw.randrange(len(open_ones))
                sending = hostile_bytes(self.draw) if sent < MOST_KEPT else self.draw.randbytes(64)
                if not self.goes_on(open_ones[at], sending):
                    attacked = open_ones.pop(at)
                    attacked.stream.close()
                    sent += log.write(attacked.written)
            for attacked in open_ones:
                log.write(attacked.written)

    def goes_on(self, attacked, sending):
        """Writes the bytes, and reads sometimes. False where the connection is done."""
        try:
            attacked.send(sending, self.draw.choice((1, 7, 1000, 1 << 16)))
            if self.draw.randrange(4) and not attacked.stream.recv(1 << 16):
                return False
        except BlockingIOError:
            return self.draw.randrange(8) > 0
        except OSError:
            return False
        return self.draw.randrange(64) > 0


class Healthy(threading.Thread):
    """A client that asks rightly, and notes how long each request took."""

    def __init__(self, ask, over):
        super().__init__(daemon=True)
        self.ask, self.over, self.waits, self.fault = ask, over, [], None

    def run(self):
        try:
            while not self.over.is_set():
                begun = time.monotonic()
                self.ask(len(self.waits))
                self.waits.append(time.monotonic() - begun)
                time.sleep(0.002)
        except Exception as fault:
            self.fault = repr(fault)


def asker(connection, name):
    """Inserts values and reads them, and compares what it reads with what it inserted."""
    state = {}

    def ask(turn):
        key, value = b"good:%s:%d" % (name, turn // 2 % 50), b"%d" % (turn // 100 % 20)
        held = state.setdefault(key, set())
        if turn % 2 == 0:
            wanted = int(value not in held)
            held.add(value)
            answer = connection.ask(operate.INSERT, key, value)
        else:
            wanted, answer = held, connection.ask(operate.RETRIEVE, key, b"")
        if answer != wanted:
            raise AssertionError(f"{key}: {answer} in place of {wanted}")

    return ask, state


def operator_asker(port):
    """Asks whether the server is well, over a connection of its own each time."""

    def ask(_):
        connection = http.client.HTTPConnection("127.0.0.1", port, timeout=60)
        connection.request("GET", "/health")
        answer = connection.getresponse()
        if answer.status != 200:
            raise AssertionError(f"/health: {answer.status}")
        answer.read()
        connection.close()

    return ask


def pairs_of(port):
    """All pairs, by the operator's pages."""
    after, pairs = None, []
    while True:
        connection = http.client.HTTPConnection("127.0.0.1", port, timeout=60)
        connection.request("GET", "/pairs?limit=1000" + (f"&after={after}" if after else ""))
        page = connection.getresponse()
        for line in page.read().splitlines():
            pairs.append(tuple(bytes.fromhex(word[2:].decode()) for word in line.split()[1:]))
        connection.close()
        after = page.getheader("chord-next")
        if after is None:
            return pairs


def unexplained(pairs, states, kept, draw):
    """Pairs that no healthy client has and whose key and value no attacker sent, of a sample."""
    good = {(key, value) for state in states for key, held in state.items() for value in held}
    others = [pair for pair in pairs if pair not in good]
    missing = [pair for pair in good if pair not in set(pairs)]
    sent = b"".join(open(path, "rb").read() for path in kept)
    sample = draw.sample(others, min(SAMPLE, len(others)))
    return missing + [pair for pair in sample if pair[0] not in sent or pair[1] not in sent]


def at_part(waits, part):
    return sorted(waits)[min(len(waits) - 1, int(len(waits) * part))] if waits else 0


def run(server, ports, seconds, seed, room):
    port, redis_port, operator_port = ports
    over, ended = threading.Event(), multiprocessing.Event()
    asks = [asker(operate.Connection(port), b"f"), asker(operate.RedisConnection(redis_port), b"r")]
    healthy = [Healthy(ask, over) for ask, _ in asks]
    healthy.append(Healthy(operator_asker(operator_port), over))
    before = operate.resident(server)
    kept = [os.path.join(room, f"sent{n}") for n in range(ATTACKERS)]
    attackers = [Attacker(ports, (seed << 8) + n, ended, path) for n, path in enumerate(kept)]
    for worker in attackers + healthy:
        worker.start()
    most, until = before, time.monotonic() + seconds
    while time.monotonic() < until and server.poll() is None:
        most = max(most, operate.resident(server))
        time.sleep(0.5)
    ended.set()
    over.set()
    for worker in attackers + healthy:
        worker.join(60)
    faults = [client.fault for client in healthy if client.fault]
    if server.poll() is not None:
        return faults + [f"the server ended with status {server.poll()}"]
    pairs = pairs_of(operator_port)
    for name, client in zip(("frames", "Redis", "operator"), healthy):
        worst, tail = 1000 * max(client.waits), 1000 * at_part(client.waits, 0.9999)
        count = len(client.waits)
        print(f"{name}: {count} requests, p99.99 {tail:.1f} ms, the longest {worst:.1f}")
        if worst > 100 or tail > 20:
            faults.append(f"{name} waited {worst:.1f} ms")
    need = BUFFERS + sum(len(key) + len(value) + 400 for key, value in pairs) / 2**20
    sent = sum(os.path.getsize(path) for path in kept) / 2**20
    print(f"{sent:.0f} MiB sent, {len(pairs)} pairs, {before:.0f} to {most:.0f} MiB")
    if most - before > need + 32:
        faults.append(f"{most - before:.0f} MiB more in memory, where {need:.0f} are due")
    odd = unexplained(pairs, [state for _, state in asks], kept, random.Random(seed))
    return faults + [f"{len(odd)} pairs are not those that were asked for: {odd[:2]}"] * bool(odd)


def main():
    seconds = float(sys.argv[1]) if len(sys.argv) > 1 else 60
    seed = int(sys.argv[2]) if len(sys.argv) > 2 else 1
    with tempfile.TemporaryDirectory() as room:
        server, *ports = operate.start(room, 16, f"--callers 256 --buffers {BUFFERS}")
        try:
            faults = run(server, ports, seconds, seed, room)
        finally:
            server.kill()
    right = "the healthy were served, and nothing else was done"
    print(f"WRONG: {faults[:5]}" if faults else right)
    return 1 if faults else 0


if __name__ == "__main__":
    sys.exit(main())
