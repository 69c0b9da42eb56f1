#!/usr/bin/env python3
"""Has nodes join and leave for long while clients ask, with 64 slots:

    bench/run slots [JOINS [SEED]]

It starts `chord serve --stay --operator` over 8 nodes with 64 slots. 16 clients ask over the wire,
half of them in Redis's protocol, each some 25 times a second, while an operator makes JOINS nodes
join, 100,000 if none is named, and as many leave. After each tenth of the joins it waits until all
that left are gone, and tells how long the joins of the tenth took and how much memory the server
has. At the end each key is read once more, and for each key it searches for one order of its
requests, as `bench/run operate` does. It ends with a status other than 0 where something is wrong:
a key without a history, more than 64 bytes of memory for each join after the first tenth, joins
that took a quarter longer in the last tenth than in the first, a node that left and is not gone or
not counted, a client that failed.
"""
import gc
import statistics
import sys
import tempfile
import threading
import time

import operate

SLOTS, LEAST_LIVE, MOST_LIVE = 64, 8, 24
PAUSE = 0.04
MOST_BYTES, MOST_SLOWER = 64, 1.25


class SlowClient(operate.Client):
    """Asks at a pace, so that the search for histories ends."""

    def ask(self, connection, operation, key, value):
        super().ask(connection, operation, key, value)
        time.sleep(PAUSE)


class Churn:
    """Makes nodes join and leave, and notes how long each join took."""

    def __init__(self, operator):
        self.operator, self.draw = operator, operator.draw
        self.live, self.took = list(range(LEAST_LIVE)), []

    def join(self):
        """A node joins, once a slot is free and the ring is settled where it joins."""
        while True:
            begun = time.monotonic()
            status, answer = self.operator.call("POST", "/nodes", {})
            if status == 201:
                self.took.append(time.monotonic() - begun)
                self.live.append(answer["node"])
                return
            if answer["refused"] not in ("NoSlot", "Unsettled"):
                raise AssertionError(f"join: {status} {answer}")
            time.sleep(0.001)

    def leave(self):
        node = self.live.pop(self.draw.randrange(len(self.live)))
        status, answer = self.operator.call("POST", f"/nodes/{node}/leave")
        if status != 202:
            raise AssertionError(f"leave {node}: {status} {answer}")

    def go_on_to(self, joins):
        """Nodes join and leave until there were this many joins."""
        while len(self.took) < joins:
            live = len(self.live)
            if live <= LEAST_LIVE or (live < MOST_LIVE and self.draw.random() < 0.5):
                self.join()
            else:
                self.leave()

    def settle(self):
        """All leave but the least number, and are gone. Gives what is wrong."""
        while len(self.live) > LEAST_LIVE:
            self.leave()
        end = time.monotonic() + 60
        while time.monotonic() < end:
            ring = self.operator.ring()
            if sorted(node["node"] for node in ring["nodes"]) == sorted(self.live):
                time.sleep(1)
                is_counted = ring["nodes_gone"] == len(self.took)
                return [] if is_counted else [f"{ring['nodes_gone']} of {len(self.took)} are gone"]
            time.sleep(0.05)
        return ["a node that left is not gone"]


def churn_in_tenths(server, churn, joins):
    """Of each tenth of the joins the median time of a join, in milliseconds, and the memory after
    them, in MiB; and what is wrong."""
    tenths, faults = [], []
    for tenth in range(10):
        first = len(churn.took)
        churn.go_on_to(joins * (tenth + 1) // 10)
        faults += churn.settle()
        took = 1000 * statistics.median(churn.took[first:])
        tenths.append((took, operate.resident(server)))
        print(f"{len(churn.took)} joins: {took:.2f} ms each, {tenths[-1][1]:.1f} MiB", flush=True)
    return tenths, faults


def run(server, ports, operator, joins, seed):
    over = threading.Event()
    clients = [
        SlowClient(*ports[number % 2], (seed << 8) + number, over)
        for number in range(operate.CLIENTS)
    ]
    for client in clients:
        client.start()
    tenths, faults = churn_in_tenths(server, Churn(operator), joins)
    over.set()
    for client in clients:
        client.join()
    faults += [client.fault for client in clients if client.fault]
    last = operate.Client(*ports[0], seed, over)
    faults += [f"{key} is not served" for key in last.read_all()]
    requests = [request for client in clients for request in client.requests] + last.requests
    faults += [f"{key} has no history" for key in operate.without_history(requests)]
    grown = (tenths[-1][1] - tenths[0][1]) * 2**20 / (joins - joins // 10)
    if grown > MOST_BYTES:
        faults.append(f"{grown:.0f} bytes for a join")
    if tenths[-1][0] > MOST_SLOWER * tenths[0][0]:
        faults.append("the last joins are slower")
    missing = sum(request.read is None for request in requests)
    print(f"seed {seed}: {len(requests)} requests, {missing} without a reply")
    print(f"{grown:.1f} bytes for a join")
    print("one history for each key" if not faults else "WRONG: " + "; ".join(faults[:5]))
    return 1 if faults else 0


def main():
    gc.disable()
    joins = int(sys.argv[1]) if len(sys.argv) > 1 else 100_000
    seed = int(sys.argv[2]) if len(sys.argv) > 2 else 1
    with tempfile.TemporaryDirectory() as room:
        server, port, redis_port, operator_port = operate.start(room, SLOTS)
        try:
            ports = ((operate.Connection, port), (operate.RedisConnection, redis_port))
            operator = operate.Operator(operator_port, seed, True)
            return run(server, ports, operator, joins, seed)
        finally:
            server.kill()


if __name__ == "__main__":
    sys.exit(main())
