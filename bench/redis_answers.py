#!/usr/bin/env python3
"""Whether `chord serve --redis` answers as redis-server does:

    bench/redis_answers.py PROGRAM [COMMANDS [CONNECTIONS [SEED]]]     20,000, 8 and the time

PROGRAM is a built chord. It starts that and a redis-server, both without files, connects to each as
often, and sends both the same random commands over the same connections, one at a time or some in
one write: arrays and lines, with quotes and without, in upper and lower case. Each answer is
compared with that of redis-server: members of sets in any order, and what docs/redis.md says of
differences aside (`plain` has them). Behind these come bytes that are no command, each over a
connection of its own. It tells each difference, up to 20, and ends with a status other than 0 where
there is one.
"""
import random
import socket
import subprocess
import sys
import tempfile
import time

PORT = 17700
KEYS = [b"k%d" % number for number in range(40)] + [b"a key", b'"', b"'", b"\x80\xff", b"\r\n", b"{x}"]
MEMBERS = [b"m%d" % number for number in range(60)] + [b"", b"a b", b'say "a"', b"it's", b"\\x41", b"\n", b"*" * 100]
NAMES = [b"reader", b"a", b"x" * 200]
BROKEN = [
    b"*x\r\n", b"*1\r\nPING\r\n", b"*1\r\n$x\r\n", b"PING 'a\r\n", b'PING "a"b\r\n', b"PING a'b'c\r\n",
    b'PING "\\\r\n', b'PING "a\\x4\r\n', b"''a\r\n", b"*99999999999\r\n",
]


def array(words):
    return b"*%d\r\n" % len(words) + b"".join(b"$%d\r\n%s\r\n" % (len(word), word) for word in words)


def spelled(word, luck):
    """A word of a line, as one may write it."""
    bare = word and not any(byte in b" \t\r\n\x0b\x0c\"'\0" for byte in word)
    ways = ["double"]
    if bare and not word.startswith(b"*"):
        ways += ["bare"] * 3
    if not any(byte in b"\\\n\0" for byte in word):
        ways.append("single")
    way = luck.choice(ways)
    if way == "bare":
        return word
    if way == "single":
        return b"'" + word.replace(b"'", b"\\'") + b"'"
    letters = {10: b"\\n", 13: b"\\r", 9: b"\\t", 8: b"\\b", 7: b"\\a", 34: b'\\"', 92: b"\\\\", 0: b"\\x00"}
    text = b""
    for byte in word:
        if luck.random() < 0.2 and byte != 10:
            text += b"\\x%02x" % byte if luck.random() < 0.5 else b"\\x%02X" % byte
        else:
            text += letters.get(byte, bytes([byte]))
    return b'"' + text + b'"'


def line(words, luck):
    text = spelled(words[0], luck)
    for word in words[1:]:
        text += luck.choice([b" ", b"  ", b" \t"]) + spelled(word, luck)
    return text + luck.choice([b"\r\n", b"\n", b" \r\n"])


def command(luck):
    """The words of a command that both servers have."""
    key, other = luck.choice(KEYS), luck.choice(KEYS)
    some = [luck.choice(MEMBERS) for _ in range(luck.randint(1, 5))]
    words = luck.choice([
        [b"sadd", key, *some], [b"sadd", key, *some], [b"srem", key, *some], [b"smembers", key],
        [b"scard", key], [b"sismember", key, some[0]], [b"smismember", key, *some], [b"exists", key, other, key],
        [b"type", key], [b"ping"], [b"ping", some[0]], [b"echo", some[0]], [b"select", b"0"], [b"select", b"99"],
        [b"client", b"setname", luck.choice(NAMES)], [b"client", b"setname", b"a b"], [b"client", b"id"],
        [b"client", b"setinfo", b"lib-name", b"x"], [b"client", b"no-evict", b"off"], [b"client", b"nothing"],
        [b"client"], [b"config", b"get", b"nothing"], [b"config", b"nothing", b"x"], [b"config"],
        [b"command", b"count"], [b"command", b"nothing"], [b"time"], [b"time", b"x"], [b"unwatch"],
        [b"exec"], [b"discard"], [b"hello"], [b"hello", b"2"], [b"hello", b"9"], [b"hello", b"2", b"setname", b"n"],
        [b"hello", b"2", b"auth", b"default", b"p"], [b"hello", b"2", b"auth", b"u", b"p"],
        [b"hello", b"2", b"auth", b"u"], [b"hello", b"2", b"setname", b"a b"], [b"hello", b"2", b"nothing"],
        [b"auth", b"p"], [b"auth", b"u", b"p"], [b"auth", b"default", b"p"], [b"auth", b"a", b"b", b"c"], [b"auth"],
        [b"sadd", key], [b"scard"], [b"sismember", key], [b"type"], [b"nothing", key], [b"", key],
    ])
    return [words[0].upper() if luck.random() < 0.3 else words[0], *words[1:]]


class Client:
    """A connection, and the answers that come over it."""

    def __init__(self, port):
        self.stream = socket.create_connection(("127.0.0.1", port), timeout=30)
        self.bytes = b""

    def more(self):
        piece = self.stream.recv(65536)
        self.bytes += piece
        return bool(piece)

    def line(self):
        while b"\r\n" not in self.bytes:
            if not self.more():
                raise EOFError
        head, self.bytes = self.bytes.split(b"\r\n", 1)
        return head

    def answer(self):
        head = self.line()
        mark, rest = head[:1], head[1:]
        if mark == b"$" and rest != b"-1":
            while len(self.bytes) < int(rest) + 2:
                if not self.more():
                    raise EOFError
            text, self.bytes = self.bytes[: int(rest)], self.bytes[int(rest) + 2 :]
            return ("bulk", text)
        if mark == b"*" and rest != b"-1":
            return ("array", [self.answer() for _ in range(int(rest))])
        return (mark.decode(), rest)

    def all(self):
        """What comes up to the end of the connection."""
        while self.more():
            pass
        return self.bytes


def plain(words, answer):
    """An answer without what may differ."""
    kind, value = answer
    name = words[0].lower()
    second = words[1].lower() if len(words) > 1 else b""
    if kind == "-":
        value = value.split(b", with args")[0]
        # Redis names the subcommand too.
        value = value.replace(b"'" + name + b"|" + second + b"'", b"'" + name + b"'")
    elif name == b"smembers":
        value = sorted(value)
    elif name == b"hello":
        value = [(value[place], value[place + 1]) for place in range(0, len(value), 2)]
        value = [pair for pair in value if pair[0][1] not in (b"server", b"version", b"id")]
    elif name == b"time":
        now = int(value[0][1])
        value = [abs(now - time.time()) < 5, len(value), int(value[1][1]) < 1_000_000]
    elif (name, second) in ((b"client", b"id"), (b"command", b"count")):
        value = int(value) > 0
    return kind, value


def compare(ours, theirs, commands, connections, luck):
    wrong = []
    pairs = [(Client(ours), Client(theirs)) for _ in range(connections)]
    left = commands
    while left > 0:
        pair = luck.choice(pairs)
        batch = [command(luck) for _ in range(luck.choice([1, 1, 1, 2, 8]))]
        left -= len(batch)
        sent = b"".join(array(words) if luck.random() < 0.5 else line(words, luck) for words in batch)
        for client in pair:
            client.stream.sendall(sent)
        for words in batch:
            one, other = (plain(words, client.answer()) for client in pair)
            if one != other:
                wrong.append((words, sent[:200], one, other))
    for bytes_sent in BROKEN:
        one, other = Client(ours), Client(theirs)
        for client in (one, other):
            client.stream.sendall(bytes_sent)
        ends = one.all(), other.all()
        if ends[0] != ends[1]:
            wrong.append((bytes_sent, bytes_sent, *ends))
    return wrong


def await_port(port):
    for _ in range(200):
        try:
            socket.create_connection(("127.0.0.1", port), timeout=1).close()
            return
        except OSError:
            time.sleep(0.05)
    sys.exit(f"nobody listens at {port}")


def main():
    if len(sys.argv) < 2:
        sys.exit(__doc__)
    program = sys.argv[1]
    commands, connections, seed = (
        int(sys.argv[place]) if len(sys.argv) > place else default
        for place, default in ((2, 20_000), (3, 8), (4, int(time.time())))
    )
    ours, theirs = PORT, PORT + 1
    with tempfile.TemporaryDirectory() as room:
        servers = [
            subprocess.Popen(
                [program, "serve", "--redis", str(ours), "--stay", "--until-input-ends", "--callers", "64"],
                stdin=subprocess.PIPE,
                stdout=subprocess.DEVNULL,
            ),
            subprocess.Popen(
                ["redis-server", "--port", str(theirs), "--save", "", "--appendonly", "no", "--dir", room],
                stdout=subprocess.DEVNULL,
            ),
        ]
        try:
            for port in (ours, theirs):
                await_port(port)
            wrong = compare(ours, theirs, commands, connections, random.Random(seed))
        finally:
            servers[0].stdin.close()
            for server in servers:
                server.terminate()
                server.wait()
    for words, sent, one, other in wrong[:20]:
        print(f"{words!r}\n  sent  {sent!r}\n  ours  {one!r}\n  redis {other!r}")
    print(f"{commands} commands, seed {seed}: {len(wrong)} answers differ")
    sys.exit(1 if wrong else 0)


if __name__ == "__main__":
    main()
