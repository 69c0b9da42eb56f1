#!/usr/bin/env python3
"""Kills a server that has a journal, again and again, and looks at what the next one knows:

    bench/run journal [ROUNDS [SEED [always|second|never]]]

It starts `chord serve --stay --journal` over 4 nodes. 8 clients in Redis's protocol add and remove
members of 64 keys, each client those of its own, and read them. At a random moment, at most a
second later, the server is killed (SIGKILL) and started anew over the same file. Then each key is
read: it must have what its client's answered requests left, with the request that had no answer
done or not done. A value that a read showed counts as answered. A client goes on from what is
there. At the end the sizes of the file are told, and how long the starts took.
"""
import os
import random
import signal
import socket
import subprocess
import sys
import tempfile
import threading
import time

PROGRAM = "crates/chord_app/out/chord_app"
CLIENTS = 8
KEYS = 8
MEMBERS = 12

PLAN = """slots = 8
callers = 64
successors = 3
tries = 100
wait = 100
""" + "".join(f"""
[[node]]
id = "{number * 4:x}{'0' * 31}"
store = "tree"
""" for number in range(4))


class Lost(Exception):
    """The connection ended."""


class Client:
    def __init__(self, port):
        self.stream = socket.create_connection(("127.0.0.1", port), timeout=30)
        self.stream.setsockopt(socket.IPPROTO_TCP, socket.TCP_NODELAY, 1)
        self.file = self.stream.makefile("rb")

    def ask(self, *words):
        try:
            out = b"*%d\r\n" % len(words)
            for word in words:
                out += b"$%d\r\n%s\r\n" % (len(word), word)
            self.stream.sendall(out)
            return self.answer()
        except OSError:
            raise Lost from None

    def line(self):
        line = self.file.readline()
        if not line.endswith(b"\r\n"):
            raise Lost
        return line[:-2]

    def answer(self):
        line = self.line()
        if line[:1] == b":":
            return int(line[1:])
        if line[:1] == b"*":
            return [self.answer() for _ in range(int(line[1:]))]
        if line[:1] == b"$":
            count = int(line[1:])
            got = self.file.read(count + 2)
            if len(got) != count + 2:
                raise Lost
            return got[:-2]
        raise AssertionError(line)

    def close(self):
        self.file.close()
        self.stream.close()


class Server:
    def __init__(self, folder, sync):
        began = time.monotonic()
        self.process = subprocess.Popen(
            [PROGRAM, "serve", "--plan", f"{folder}/plan.toml", "--redis", "0", "--stay",
             "--journal", f"{folder}/changes", "--sync", sync],
            stdin=subprocess.PIPE, stdout=subprocess.PIPE)
        line = self.process.stdout.readline().decode()
        if not line.startswith("redis on 127.0.0.1:"):
            raise AssertionError(f"the server did not start: {line!r}")
        self.port = int(line.rsplit(":", 1)[1])
        self.took = time.monotonic() - began

    def kill(self):
        self.process.send_signal(signal.SIGKILL)
        self.process.wait()
        self.process.stdin.close()
        self.process.stdout.close()


class Worker(threading.Thread):
    """One client. `sets` has what was answered, `open` the request that has no answer."""

    def __init__(self, number, port, sets, seed):
        super().__init__()
        self.number, self.port, self.sets = number, port, sets
        self.random = random.Random(seed)
        self.open, self.answered, self.fault = None, 0, None

    def run(self):
        try:
            client = Client(self.port)
            while True:
                self.one(client)
        except Lost:
            pass
        except Exception as fault:
            self.fault = repr(fault)

    def one(self, client):
        key = b"c%dk%d" % (self.number, self.random.randrange(KEYS))
        value = b"v%d" % self.random.randrange(MEMBERS)
        here = self.sets.setdefault(key, set())
        kind = self.random.choice(("add", "add", "remove", "read"))
        if kind == "read":
            got = set(client.ask(b"SMEMBERS", key))
            if got != here:
                raise AssertionError(f"{key}: read {got}, due {here}")
        elif kind == "add":
            self.open = (key, value, True)
            got = client.ask(b"SADD", key, value)
            if got != int(value not in here):
                raise AssertionError(f"{key}: added {got}")
            here.add(value)
        else:
            self.open = (key, value, False)
            got = client.ask(b"SREM", key, value)
            if got != int(value in here):
                raise AssertionError(f"{key}: removed {got}")
            here.discard(value)
        self.open = None
        self.answered += 1


def look(client, sets, still_open):
    """What each key has; wrong where that is not what was answered."""
    wrong = 0
    for key, due in sets.items():
        got = set(client.ask(b"SMEMBERS", key))
        ways = [due]
        if key in still_open:
            value, adds = still_open[key]
            ways.append(due | {value} if adds else due - {value})
        if got not in ways:
            print(f"WRONG {key}: has {sorted(got)}, due {sorted(due)}, open {still_open.get(key)}")
            wrong += 1
        sets[key] = got
    return wrong


def main():
    rounds = int(sys.argv[1]) if len(sys.argv) > 1 else 20
    seed = int(sys.argv[2]) if len(sys.argv) > 2 else 1
    sync = sys.argv[3] if len(sys.argv) > 3 else "always"
    chance = random.Random(seed)
    wrong, answered, starts = 0, 0, []
    with tempfile.TemporaryDirectory() as folder:
        with open(f"{folder}/plan.toml", "w") as plan:
            plan.write(PLAN)
        all_sets = [{} for _ in range(CLIENTS)]
        server = Server(folder, sync)
        for round_number in range(rounds):
            workers = [Worker(number, server.port, all_sets[number], chance.random())
                       for number in range(CLIENTS)]
            for worker in workers:
                worker.start()
            time.sleep(chance.random())
            server.kill()
            for worker in workers:
                worker.join()
                answered += worker.answered
                if worker.fault:
                    print(f"WRONG client {worker.number}: {worker.fault}")
                    wrong += 1
            server = Server(folder, sync)
            starts.append(server.took)
            client = Client(server.port)
            for worker in workers:
                still = {worker.open[0]: worker.open[1:]} if worker.open else {}
                wrong += look(client, all_sets[worker.number], still)
            client.close()
        size = os.path.getsize(f"{folder}/changes")
        server.kill()
    print(f"{rounds} kills with --sync {sync}: {answered} answers, {wrong} wrong, {size} bytes, "
          f"starts {min(starts):.3f} to {max(starts):.3f} s")
    sys.exit(1 if wrong else 0)


if __name__ == "__main__":
    main()
