#!/usr/bin/env python3
"""How long busy clients in Redis's protocol wait while others ask for trouble:

    bench/run waits [SECONDS [CLIENTS]]     10 seconds, 16 clients, each a process of its own

It starts `chord serve --stay` over 16 nodes, where a request is tried 40 times, 100 ms each. The
clients ask SISMEMBER of keys of the nodes that stay, for that long each time: alone; beside 1,000
connections that send a byte a second; beside 100 that ask for 100 MB each and do not read; while a
thousand connections a second come and go; and while node 15 has crashed and two more clients ask
keys of it all the time. Nobody reads the lines of the server, whose pipe is full soon. It tells the
waits of the busy clients, and ends with a status other than 0 where one of them was answered
otherwise than by :0 or :1, where a slow connection was not answered, or where a key of the crashed
node was.
"""
import hashlib
import http.client
import multiprocessing
import os
import resource
import socket
import subprocess
import sys
import tempfile
import time

NODES, CRASHED = 16, 15
PROGRAM = "crates/chord_app/out/chord_app"
SLOW, DEAF = 1000, 100


def node_of(key):
    """The node whose segment has the key: the first whose identifier is at or behind the key's."""
    place = int(hashlib.sha1(key).hexdigest()[:32], 16)
    return -(-place // (1 << 124)) % NODES


def keys(count, is_crashed):
    """Keys of the node that crashes, or of all others."""
    found = (b"key:%d" % number for number in range(count * NODES * 2))
    return [key for key in found if (node_of(key) == CRASHED) == is_crashed][:count]


def connected(port):
    return socket.create_connection(("127.0.0.1", port), timeout=60)


def line(stream):
    """The line that comes next."""
    answer = b""
    while not answer.endswith(b"\r\n"):
        answer += stream.recv(4096) or b"ended\r\n"
    return answer


def busy(port, number, seconds, told):
    """A client that asks one thing after another, and tells how long each took."""
    waits, own = [], keys(100, False)
    with connected(port) as stream:
        until = time.monotonic() + seconds
        while time.monotonic() < until:
            begun = time.monotonic()
            stream.sendall(b"SISMEMBER %s x\r\n" % own[(len(waits) + 7 * number) % len(own)])
            answer = line(stream)
            waits.append(1000 * (time.monotonic() - begun))
            if answer not in (b":0\r\n", b":1\r\n"):
                raise AssertionError(answer)
    told.put(waits)


def slow(port, seconds, told):
    """Connections that send a byte of PING a second. Tells how many were answered."""
    streams, bytes_sent = [connected(port) for _ in range(SLOW)], b"PING\r\n"
    until = time.monotonic() + seconds
    for place in range(len(bytes_sent)):
        for stream in streams:
            stream.sendall(bytes_sent[place : place + 1])
        time.sleep(1)
    answered = sum(line(stream) == b"+PONG\r\n" for stream in streams)
    time.sleep(max(0, until - time.monotonic()))
    told.put([answered == SLOW])


def deaf(port, seconds, told):
    """Connections that ask for a set of 100 KB a thousand times, and read nothing."""
    key, streams = keys(1, False)[0] + b":large", [connected(port) for _ in range(DEAF)]
    for number in range(100):
        streams[0].sendall(b"SADD %s %s\r\n" % (key, b"%04d" % number * 256))
        line(streams[0])
    for stream in streams:
        stream.setblocking(False)
        try:
            stream.sendall(b"SMEMBERS %s\r\n" % key * 1000)
        except BlockingIOError:
            pass
    time.sleep(seconds)
    told.put([True])


def passing(port, seconds, told):
    """Connections that come, ask and go, up to a thousand a second."""
    begun, answered, count = time.monotonic(), 0, 0
    while time.monotonic() < begun + seconds:
        with connected(port) as stream:
            stream.sendall(b"PING\r\n")
            answered += line(stream) == b"+PONG\r\n"
        count += 1
        time.sleep(max(0, begun + count / 1000 - time.monotonic()))
    told.put([answered == count])


def stuck(port, seconds, told):
    """A client whose requests are for a key of the crashed node. None is to be answered."""
    answers = []
    with connected(port) as stream:
        until = time.monotonic() + seconds
        while time.monotonic() < until:
            stream.sendall(b"SISMEMBER %s x\r\n" % keys(1, True)[0])
            answers.append(not line(stream).startswith(b":"))
    told.put(answers)


def measure(what, port, seconds, clients, others):
    """Tells the waits of the busy clients beside these others, and whether all went well."""
    told, other = multiprocessing.Queue(), multiprocessing.Queue()
    work = [(busy, (port, number, seconds, told)) for number in range(clients)]
    work += [(one, (port, seconds, other)) for one in others]
    running = [multiprocessing.Process(target=of, args=words) for of, words in work]
    for one in running:
        one.start()
    waits = sorted(wait for _ in range(clients) for wait in told.get(timeout=seconds + 60))
    is_well = all(it for _ in others for it in other.get(timeout=seconds + 60))
    for one in running:
        one.join()
    ranks = ", ".join(
        f"p{100 * share:g} {waits[int((len(waits) - 1) * share)]:.2f}"
        for share in (0.5, 0.99, 0.999, 0.9999)
    )
    print(f"{what}: {len(waits) / seconds:.0f} requests a second, {ranks}, longest {waits[-1]:.1f} ms"
          f"{'' if is_well else ', and not all went well'}", flush=True)
    return is_well


def crash(operator):
    """Has the node crash."""
    ring = http.client.HTTPConnection("127.0.0.1", operator, timeout=30)
    ring.request("POST", f"/nodes/{CRASHED}/crash", "{}")
    assert ring.getresponse().status < 300, "the node did not crash"


def main():
    numbers = [int(word) for word in sys.argv[1:]]
    seconds = numbers[0] if numbers else 10
    clients = numbers[1] if len(numbers) > 1 else 16
    most = resource.getrlimit(resource.RLIMIT_NOFILE)[1]
    resource.setrlimit(resource.RLIMIT_NOFILE, (most, most))
    with tempfile.TemporaryDirectory() as room:
        plan = os.path.join(room, "plan.toml")
        with open(plan, "w") as it:
            it.write("slots = 16\ncallers = 64\nsuccessors = 4\ntries = 40\nwait = 100\n")
            for place in range(NODES):
                it.write(f'[[node]]\nid = "{place:x}{"0" * 31}"\nstore = "tree"\n')
        words = "serve --redis 0 --operator 0 --stay --until-input-ends --callers 2048 --plan".split()
        server = subprocess.Popen(
            [PROGRAM, *words, plan], stdin=subprocess.PIPE, stdout=subprocess.PIPE, text=True
        )
        try:
            first, second = server.stdout.readline(), server.stdout.readline()
            port, operator = (int(it.rsplit(":", 1)[1]) for it in (first, second))
            time.sleep(3)
            is_well = measure("alone", port, seconds, clients, [])
            is_well &= measure(f"beside {SLOW} slow ones", port, seconds, clients, [slow])
            is_well &= measure(f"beside {DEAF} that do not read", port, seconds, clients, [deaf])
            with open(f"/proc/{server.pid}/statm") as it:
                resident = int(it.read().split()[1]) * os.sysconf("SC_PAGE_SIZE")
            print(f"the server has {resident / 2**20:.0f} MiB then", flush=True)
            is_well &= measure("beside those that come and go", port, seconds, clients, [passing])
            crash(operator)
            is_well &= measure("behind a crash", port, seconds, clients, [stuck, stuck])
            return 0 if is_well else 1
        finally:
            server.kill()


sys.exit(main())
