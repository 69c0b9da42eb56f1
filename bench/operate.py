#!/usr/bin/env python3
"""Operates a ring while clients ask, and looks for one history of all that they were answered:

    bench/run operate [SECONDS [SEED]]

It starts `chord serve --stay --operator` over 8 nodes. 16 clients ask over the wire, half of them
in Redis's protocol, each at most once at a time, while an operator makes nodes join, leave and
crash at random, and rescues those that crashed. At the end all are rescued, and each key is read
once more. Then, for each key, it searches for an order of the requests that one set allows and that
keeps to the times at which they were written and their replies read (the search of Wing and Gong).
A request without a reply may stand anywhere behind its writing, or nowhere; its client goes on over
the same connection. It tells the waits of all requests, and of those whose key some node
answered for all the time: each of these above 20 ms with what the operator did meanwhile. With
--calm no node crashes, so each request is for the key of a node that answers. The search may want
some gigabytes for 300 seconds of a machine with nothing else to do, whose requests without a reply
are many. With --plant it changes one reply before the search, which must then fail. It ends with a
status other than 0 where something is wrong: a key without a history, a rescued node that is not
gone, a key that is not served at the end, a client that was turned away.
"""
import bisect
import gc
import hashlib
import json
import os
import random
import socket
import struct
import subprocess
import sys
import tempfile
import threading
import time
import urllib.error
import urllib.request

CLIENTS = 16
KEYS = 256
VALUES = 6
MOST_LIVE, LEAST_LIVE, MOST_CRASHED = 24, 5, 3
INSERT, RETRIEVE, REMOVE = 1, 2, 3
PROGRAM = "crates/chord_app/out/chord_app"


class NoReply(Exception):
    """Fault 11 or TRYAGAIN: the request may have been done, or may be before the next one."""


def exactly(stream, count):
    """This many bytes of the stream."""
    got = b""
    while len(got) < count:
        piece = stream.recv(count - len(got))
        if not piece:
            raise AssertionError("the connection ended")
        got += piece
    return got


class Connection:
    """A client in version 1 of the protocol."""

    def __init__(self, port):
        self.stream = socket.create_connection(("127.0.0.1", port), timeout=60)
        self.number = 0

    def ask(self, operation, key, value):
        """Asks a request, at most three times, and gives its reply."""
        self.number += 1
        body = struct.pack(">BBQ", 1, operation, self.number) + bytes([len(key)]) + key
        if operation != RETRIEVE:
            body += struct.pack(">H", len(value)) + value
        for _ in range(3):
            self.stream.sendall(struct.pack(">I", len(body)) + body)
            answer = exactly(self.stream, struct.unpack(">I", exactly(self.stream, 4))[0])
            kind, number = answer[1], struct.unpack(">Q", answer[2:10])[0]
            if number != self.number:
                raise AssertionError(f"an answer to request {number} in place of {self.number}")
            if kind == 0x80 + operation:
                return reply_in(operation, answer[10:])
            if kind != 255 or answer[10] != 11:
                raise AssertionError(f"answer {kind} {answer[10:]}")
        raise NoReply("fault 11")


def reply_in(operation, rest):
    """A reply: the set of a key, or one byte."""
    if operation != RETRIEVE:
        return rest[0]
    values, at = [], 4
    for _ in range(struct.unpack(">I", rest[:4])[0]):
        size = struct.unpack(">H", rest[at : at + 2])[0]
        values.append(rest[at + 2 : at + 2 + size])
        at += 2 + size
    return frozenset(values)


class RedisConnection:
    """A client in Redis's protocol."""

    WORDS = {INSERT: b"SADD", REMOVE: b"SREM", RETRIEVE: b"SMEMBERS"}

    def __init__(self, port):
        self.stream = socket.create_connection(("127.0.0.1", port), timeout=60)
        self.lines = self.stream.makefile("rb")

    def ask(self, operation, key, value):
        """Asks a request once, and gives its reply."""
        words = [self.WORDS[operation], key] + ([] if operation == RETRIEVE else [value])
        parts = [b"$%d\r\n%s\r\n" % (len(word), word) for word in words]
        self.stream.sendall(b"*%d\r\n" % len(words) + b"".join(parts))
        head = self.lines.readline().rstrip()
        if head.startswith(b":"):
            return int(head[1:])
        if head.startswith(b"*"):
            return frozenset(self.bulk() for _ in range(int(head[1:])))
        if head.startswith(b"-TRYAGAIN"):
            raise NoReply(head)
        raise AssertionError(f"answer {head}")

    def bulk(self):
        return self.lines.read(int(self.lines.readline()[1:]) + 2)[:-2]


class Request:
    """A request, when it was written, its reply, and when that was read (never, if None)."""

    def __init__(self, operation, key, value):
        self.operation, self.key, self.value = operation, key, value
        self.written, self.read, self.reply = time.monotonic(), None, None

    def on(self, state):
        """The reply of one set, and the set behind the request."""
        if self.operation == RETRIEVE:
            return state, state
        if self.operation == INSERT:
            return int(self.value not in state), state | {self.value}
        return int(self.value in state), state - {self.value}


class Client(threading.Thread):
    """Asks for random keys until it is told to end."""

    def __init__(self, kind, port, seed, over):
        super().__init__()
        self.kind, self.port, self.draw, self.over = kind, port, random.Random(seed), over
        self.requests, self.fault = [], None

    def run(self):
        try:
            connection = self.kind(self.port)
            while not self.over.is_set():
                key = b"key:%d" % self.draw.randrange(KEYS)
                value = b"value:%d" % self.draw.randrange(VALUES)
                operation = self.draw.choice((INSERT, INSERT, RETRIEVE, RETRIEVE, RETRIEVE, REMOVE))
                self.ask(connection, operation, key, value)
        except Exception as fault:
            self.fault = repr(fault)

    def ask(self, connection, operation, key, value):
        """Asks one request, which may have no reply."""
        request = Request(operation, key, value)
        self.requests.append(request)
        try:
            request.reply = connection.ask(operation, key, value)
            request.read = time.monotonic()
        except NoReply:
            pass

    def read_all(self):
        """Reads each key once more; each has to be served."""
        connection = self.kind(self.port)
        for number in range(KEYS):
            self.ask(connection, RETRIEVE, b"key:%d" % number, b"")
        return [r.key for r in self.requests[-KEYS:] if r.read is None]


class Operator:
    """Makes nodes join, leave and crash, and rescues them."""

    def __init__(self, port, seed, is_calm):
        self.port, self.draw, self.is_calm = port, random.Random(seed), is_calm
        self.counts = {}
        # When the ring was looked at, and the spans for which nobody answered then.
        self.looked, self.dead = [], []
        # What was done, with when it began and ended.
        self.deeds = []

    def call(self, method, path, body=None):
        """The status of a call, and the JSON of its answer."""
        data = None if body is None else json.dumps(body).encode()
        request = urllib.request.Request(
            f"http://127.0.0.1:{self.port}{path}", data=data, method=method
        )
        try:
            with urllib.request.urlopen(request, timeout=60) as answer:
                return answer.status, json.loads(answer.read() or b"null")
        except urllib.error.HTTPError as refused:
            return refused.code, json.loads(refused.read() or b"null")

    def ring(self):
        """The ring. Notes what crashed nodes hold, and what others give to them."""
        now = time.monotonic()
        ring = self.call("GET", "/ring")[1]
        lost = {n["node"] for n in ring["nodes"] if n["phase"] in ("crashed", "rescuing")}
        spans = []
        for node in ring["nodes"]:
            held = node["segments"] + node["outbox"] if node["node"] in lost else []
            given = [item for item in node["outbox"] if item["to"] in lost]
            spans += [(int(s["after"], 16), int(s["upto"], 16)) for s in held + given]
        self.looked.append(now)
        self.dead.append(spans)
        return ring

    def is_dead(self, request):
        """Whether nobody answered for the key of a request, at some look from the last one before it
        was written to the first one behind its reply."""
        place = int(hashlib.sha1(request.key).hexdigest()[:32], 16)
        first = max(0, bisect.bisect(self.looked, request.written) - 1)
        behind = bisect.bisect(self.looked, request.read) + 1
        return any(
            (place - after - 1) % 2**128 <= (upto - after - 1) % 2**128
            for spans in self.dead[first:behind]
            for after, upto in spans
        )

    def deeds_during(self, request):
        """What the operator did while a request was under way."""
        begin, end = request.written - 0.1, request.read
        return [what for since, until, what in self.deeds if since < end and begin < until]

    def do(self, what, path, body=None):
        begun = time.monotonic()
        status, answer = self.call("POST", path, body)
        name = what if status < 300 else f"{what}: {answer['refused']}"
        self.deeds.append((begun, time.monotonic(), name))
        self.counts[name] = self.counts.get(name, 0) + 1
        if status >= 500:
            raise AssertionError(f"{what}: {status} {answer}")

    def step(self):
        """Does one thing, as the ring is now."""
        nodes = self.ring()["nodes"]
        live = [n["node"] for n in nodes if n["phase"] == "staying"]
        crashed = [n["node"] for n in nodes if n["phase"] == "crashed"]
        what = self.draw.random()
        if len(live) <= LEAST_LIVE or (len(live) < MOST_LIVE and what < 0.4):
            self.do("join", "/nodes", {})
        elif what < 0.8 or self.is_calm:
            self.do("leave", f"/nodes/{self.draw.choice(live)}/leave")
        elif crashed and (what < 0.9 or len(crashed) >= MOST_CRASHED):
            self.rescue(self.draw.choice(crashed))
        else:
            self.do("crash", f"/nodes/{self.draw.choice(live)}/crash", {})
            self.ring()

    def rescue(self, node):
        self.do("rescue", f"/nodes/{node}/rescue")

    def rescue_all(self, seconds):
        """Rescues each node that crashed, and gives those that are not gone within this time."""
        end = time.monotonic() + seconds
        while True:
            nodes = self.ring()["nodes"]
            for node in nodes:
                if node["phase"] == "crashed":
                    self.rescue(node["node"])
            left = [n["node"] for n in nodes if n["phase"] in ("crashed", "rescuing", "leaving")]
            if not left or time.monotonic() > end:
                return left
            time.sleep(0.1)


def has_history(requests):
    """Whether an order of these requests of one key is one of a set, and keeps to their times. A
    request that was read before another was written comes before it."""
    requests = sorted(requests, key=lambda r: r.written)
    never = float("inf")
    ends = [never if r.read is None else r.read for r in requests]
    wanted = sum(end != never for end in ends)
    # A place in the search: how many of the first requests are all done, which later ones are, and
    # the set behind them.
    seen, places = set(), [(0, frozenset(), frozenset(), 0)]
    while places:
        first, later, state, done = places.pop()
        if done == wanted:
            return True
        limit = never
        for at in range(first, len(requests)):
            if at in later:
                continue
            if requests[at].written > limit:
                break
            limit = min(limit, ends[at])
            reply, behind = requests[at].on(state)
            if ends[at] != never and reply != requests[at].reply:
                continue
            next_first, next_later = first, set(later) | {at}
            while next_first in next_later:
                next_later.discard(next_first)
                next_first += 1
            place = (next_first, frozenset(next_later), behind)
            if place not in seen:
                seen.add(place)
                places.append((*place, done + (ends[at] != never)))
    return False


def without_history(requests):
    """The keys for whose requests there is no such order."""
    by_key = {}
    for request in requests:
        by_key.setdefault(request.key, []).append(request)
    return [key for key in by_key if not has_history(by_key[key])]


def start(room, slots, more="--callers 64"):
    """Starts the server with this many slots and more options, and gives it with the ports of its
    clients and its operator."""
    plan = os.path.join(room, "plan.toml")
    with open(plan, "w") as it:
        it.write("slots = 16\ncallers = 64\nsuccessors = 4\ntries = 5\nwait = 200\n")
        for place in range(8):
            it.write(f'[[node]]\nid = "{place * 2:x}{"0" * 31}"\nstore = "tree"\n')
    doors = "serve --port 0 --redis 0 --operator 0 --stay --until-input-ends"
    words = f"{doors} --slots {slots} {more} --plan".split()
    server = subprocess.Popen(
        [PROGRAM, *words, plan], stdin=subprocess.PIPE, stdout=subprocess.PIPE, text=True
    )
    lines = [server.stdout.readline() for _ in range(3)]
    threading.Thread(target=server.stdout.read, daemon=True).start()
    return server, *(int(line.rsplit(":", 1)[1]) for line in lines)


def resident(server):
    """How many MiB of memory the server has."""
    with open(f"/proc/{server.pid}/statm") as it:
        return int(it.read().split()[1]) * os.sysconf("SC_PAGE_SIZE") / 2**20


def load_of(server, seconds):
    """How much of a processor the server takes in this time."""
    def spent():
        with open(f"/proc/{server.pid}/stat") as it:
            fields = it.read().rsplit(")", 1)[1].split()
        return (int(fields[11]) + int(fields[12])) / os.sysconf("SC_CLK_TCK")

    before = spent()
    time.sleep(seconds)
    return (spent() - before) / seconds


def main():
    # A collection of all requests so far would stop each client for a tenth of a second or more.
    gc.disable()
    numbers = [int(word) for word in sys.argv[1:] if not word.startswith("--")]
    seconds = numbers[0] if numbers else 30
    seed = numbers[1] if len(numbers) > 1 else 1
    with tempfile.TemporaryDirectory() as room:
        server, port, redis_port, operator_port = start(room, 4096)
        try:
            ports = ((Connection, port), (RedisConnection, redis_port))
            operator = Operator(operator_port, seed, "--calm" in sys.argv)
            return operate(server, ports, operator, seconds, seed, "--plant" in sys.argv)
        finally:
            server.kill()


def took_of(request):
    """How long a request with a reply took, in milliseconds."""
    return 1000 * (request.read - request.written)


def waits(requests):
    """How long requests took: four of them by rank, and how many took more than 100 ms."""
    took = sorted(map(took_of, requests))
    ranks = [(share, took[int((len(took) - 1) * share)]) for share in (0.5, 0.99, 0.999, 0.9999)]
    told = ", ".join(f"p{100 * share:g} {wait:.2f}" for share, wait in ranks)
    return f"{told}, longest {took[-1]:.1f} ms; {sum(t > 100 for t in took)} above 100 ms"


def operate(server, ports, operator, seconds, seed, plants):
    over = threading.Event()
    clients = [
        Client(*ports[number % 2], (seed << 8) + number, over) for number in range(CLIENTS)
    ]
    for client in clients:
        client.start()
    end = time.monotonic() + seconds
    while time.monotonic() < end:
        operator.step()
        time.sleep(operator.draw.uniform(0, 0.1))
    over.set()
    for client in clients:
        client.join()
    faults = [client.fault for client in clients if client.fault]
    faults += [f"node {node} is not gone" for node in operator.rescue_all(30)]
    last = Client(*ports[0], seed, over)
    faults += [f"{key} is not served" for key in last.read_all()]
    requests = [request for client in clients for request in client.requests]
    missing = sum(request.read is None for request in requests)
    replied = [request for request in requests if request.read is not None]
    slow = [request for request in replied if took_of(request) > 20]
    dead = [request for request in slow if operator.is_dead(request)]
    live = set(replied).difference(dead)
    requests += last.requests
    if plants:
        told = [r for r in requests if r.read is not None and r.operation == RETRIEVE and r.reply]
        told[len(told) // 2].reply = frozenset()
    faults += [f"{key} has no history" for key in without_history(requests)]
    ring = operator.ring()
    phases = [node["phase"] for node in ring["nodes"]]
    if ring["ends"]["callersspent"]:
        faults.append("a client was turned away")
    keys = len({request.key for request in requests})
    print(f"seed {seed}: {len(requests)} requests of {CLIENTS} clients over {keys} keys")
    print("operator:", ", ".join(f"{n} {what}" for what, n in sorted(operator.counts.items())))
    told = [f"{phases.count(p)} {p}" for p in sorted(set(phases))]
    print("nodes:", ", ".join([*told, f"{ring['nodes_gone']} gone"]))
    print(f"requests without a reply: {missing}; callers open: {ring['callers']['open']}")
    print(f"requests with one: {waits(replied)}")
    print(f"without {len(dead)} that waited for a crashed node's key: {waits(live)}")
    for request in sorted(set(slow).difference(dead), key=took_of):
        begun = request.written - clients[0].requests[0].written
        deeds = ", ".join(operator.deeds_during(request)) or "nothing"
        print(f"  {took_of(request):.1f} ms at {begun:.3f} s, when the operator did: {deeds}")
    time.sleep(4)
    print(f"memory: {resident(server):.0f} MiB; idle: {100 * load_of(server, 5):.2f}% of a processor")
    print("one history for each key" if not faults else "WRONG: " + "; ".join(faults[:5]))
    return 1 if faults else 0


if __name__ == "__main__":
    sys.exit(main())
