//! One client for three servers: `chord serve`, `redis-server`, and an echo server that does
//! nothing else, so that the same program measures all three. Each connection has a thread, which
//! writes FLIGHT requests at once and then reads their answers.
//!
//!     serve echo PORT                                                     the echo server
//!     serve load SERVER PORT KIND CONNECTIONS FLIGHT REQUESTS KEY VALUE   a line of four numbers
//!
//! SERVER is `chord`, `redis` or `echo`; KIND is `insert` (a value under one of 100,000 keys),
//! `retrieve` (one of those sets), `fill` (one value under each key) or `fill100` (100 values under
//! each of the first 1,000 keys) and `retrieve100` (one of those). KEY and VALUE are the bytes of a
//! key (12 at least) and of a value (8 at least). The line has the requests a second, and the
//! microseconds of the 50th, the 99th and the 99.9th percentile. A request's time begins when its
//! flight is written and ends when its own answer is read.

use std::env;
use std::io::{Read, Write};
use std::net::{TcpListener, TcpStream};
use std::thread;
use std::time::{Duration, Instant};

const KEYS: u64 = 100_000;
const LARGE_KEYS: u64 = 1_000;
const LARGE_SET: u64 = 100;

#[derive(Clone, Copy, PartialEq)]
enum Server {
    Chord,
    Redis,
    Echo,
}

#[derive(Clone, Copy, PartialEq)]
enum Kind {
    Insert,
    Retrieve,
    Fill,
    LargeFill,
    LargeRetrieve,
}

impl Kind {
    fn puts(self) -> bool {
        matches!(self, Kind::Insert | Kind::Fill | Kind::LargeFill)
    }
}

/// Numbers in random order, by xorshift.
struct Mixed(u64);

impl Mixed {
    fn next(&mut self) -> u64 {
        self.0 ^= self.0 << 13;
        self.0 ^= self.0 >> 7;
        self.0 ^= self.0 << 17;
        self.0
    }
}

/// What all connections of a load do.
#[derive(Clone, Copy)]
struct Load {
    server: Server,
    port: u16,
    kind: Kind,
    flight: u64,
    requests: u64,
    key_length: usize,
    value_length: usize,
}

impl Load {
    /// Writes request `at` of a connection's own, of which `sent` are answered.
    fn put(self, out: &mut Vec<u8>, thread: u64, at: u64, sent: u64, mixed: &mut Mixed) {
        let (key, start) = picked(self.kind, thread * self.requests + at, mixed);
        let key = format!("key{key:0width$}", width = self.key_length - 3);
        let mut value = vec![7; self.value_length];
        value[..8].copy_from_slice(&start);
        match self.server {
            Server::Redis => put_words(out, self.kind.puts(), key.as_bytes(), &value),
            _ => put_frame(out, self.kind.puts(), at + 1, sent, key.as_bytes(), &value),
        }
    }

    /// How many bytes the first answer has, once it is whole.
    fn answer_length(self, bytes: &[u8]) -> Option<usize> {
        match self.server {
            Server::Redis => words_length(bytes),
            _ => frame_length(bytes),
        }
    }
}

/// The number of the key and the first bytes of the value of request `at` of all.
fn picked(kind: Kind, at: u64, mixed: &mut Mixed) -> (u64, [u8; 8]) {
    match kind {
        Kind::Insert => (mixed.next() % KEYS, mixed.next().to_be_bytes()),
        Kind::Retrieve => (mixed.next() % KEYS, [0; 8]),
        Kind::Fill => (at % KEYS, [0; 8]),
        Kind::LargeFill => (at / LARGE_SET % LARGE_KEYS, (at % LARGE_SET).to_be_bytes()),
        Kind::LargeRetrieve => (mixed.next() % LARGE_KEYS, [0; 8]),
    }
}

fn put_frame(out: &mut Vec<u8>, puts: bool, number: u64, floor: u64, key: &[u8], value: &[u8]) {
    let length = 18 + 1 + key.len() + if puts { 2 + value.len() } else { 0 };
    out.extend((length as u32).to_be_bytes());
    out.extend([2, if puts { 1 } else { 2 }]);
    out.extend(number.to_be_bytes());
    out.extend(floor.to_be_bytes());
    out.push(key.len() as u8);
    out.extend(key);
    if puts {
        out.extend((value.len() as u16).to_be_bytes());
        out.extend(value);
    }
}

fn put_words(out: &mut Vec<u8>, puts: bool, key: &[u8], value: &[u8]) {
    let words: &[&[u8]] = if puts { &[b"SADD", key, value] } else { &[b"SMEMBERS", key] };
    out.extend(format!("*{}\r\n", words.len()).bytes());
    for word in words {
        out.extend(format!("${}\r\n", word.len()).bytes());
        out.extend(*word);
        out.extend(b"\r\n");
    }
}

/// How many bytes the first answer in our frames has, once it is whole.
fn frame_length(bytes: &[u8]) -> Option<usize> {
    let length = 4 + u32::from_be_bytes(bytes.get(..4)?.try_into().unwrap()) as usize;
    let frame = bytes.get(..length)?;
    assert!(frame[5] != 255, "fault {}", frame[14]);
    Some(length)
}

/// How many bytes the first line has, once it is whole.
fn line_length(bytes: &[u8]) -> Option<usize> {
    bytes.windows(2).position(|pair| pair == b"\r\n").map(|at| at + 2)
}

/// How many bytes the first answer of Redis has, once it is whole.
fn words_length(bytes: &[u8]) -> Option<usize> {
    let mut end = line_length(bytes)?;
    if bytes[0] == b':' {
        return Some(end);
    }
    assert!(bytes[0] == b'*', "{}", String::from_utf8_lossy(bytes));
    let count: usize = std::str::from_utf8(&bytes[1..end - 2]).unwrap().parse().unwrap();
    for _ in 0..count {
        let head = line_length(&bytes[end..])?;
        let size: usize = std::str::from_utf8(&bytes[end + 1..end + head - 2]).unwrap().parse().unwrap();
        end += head + size + 2;
        if bytes.len() < end {
            return None;
        }
    }
    Some(end)
}

/// One connection's requests, and how long each took.
fn ask_all(load: Load, thread: u64) -> Vec<Duration> {
    let mut stream = TcpStream::connect(("127.0.0.1", load.port)).expect("nobody listens");
    stream.set_nodelay(true).unwrap();
    let mut mixed = Mixed(0x9E37_79B9_7F4A_7C15 ^ (thread + 1) * 0x1234_5678_9ABC);
    let (mut out, mut bytes, mut buffer) = (Vec::new(), Vec::new(), vec![0; 1 << 16]);
    let mut times = Vec::with_capacity(load.requests as usize);
    let mut sent = 0;
    while sent < load.requests {
        let count = load.flight.min(load.requests - sent);
        out.clear();
        for at in sent..sent + count {
            load.put(&mut out, thread, at, sent, &mut mixed);
        }
        let begun = Instant::now();
        stream.write_all(&out).unwrap();
        sent += count;
        let (mut answers, mut at) = (0, 0);
        while answers < count {
            match load.answer_length(&bytes[at..]) {
                Some(length) => {
                    at += length;
                    answers += 1;
                    times.push(begun.elapsed());
                }
                None => {
                    let read = stream.read(&mut buffer).unwrap();
                    assert!(read > 0, "the server closed the connection");
                    bytes.extend(&buffer[..read]);
                }
            }
        }
        bytes.drain(..at);
    }
    times
}

/// The least time with this part of all at or below it, in microseconds.
fn percentile(rising: &[Duration], part: f64) -> f64 {
    let place = (rising.len() as f64 * part).ceil() as usize;
    rising[place.max(1) - 1].as_nanos() as f64 / 1000.0
}

/// Answers each frame with one of the size of an insert's answer.
fn echo(mut stream: TcpStream) {
    let _ = stream.set_nodelay(true);
    let (mut bytes, mut out, mut buffer) = (Vec::new(), Vec::new(), vec![0; 4096]);
    while let Ok(read) = stream.read(&mut buffer) {
        if read == 0 {
            return;
        }
        bytes.extend(&buffer[..read]);
        let mut at = 0;
        out.clear();
        while bytes.len() - at >= 4 {
            let length = 4 + u32::from_be_bytes(bytes[at..at + 4].try_into().unwrap()) as usize;
            if bytes.len() - at < length {
                break;
            }
            at += length;
            out.extend([0, 0, 0, 11, 1, 129, 0, 0, 0, 0, 0, 0, 0, 1, 1]);
        }
        bytes.drain(..at);
        if stream.write_all(&out).is_err() {
            return;
        }
    }
}

fn main() {
    let words: Vec<String> = env::args().collect();
    let number = |at: usize| words[at].parse::<u64>().expect("a number");
    if words[1] == "echo" {
        let listener = TcpListener::bind(("127.0.0.1", number(2) as u16)).unwrap();
        for stream in listener.incoming() {
            thread::spawn(move || echo(stream.unwrap()));
        }
        return;
    }
    let server = match words[2].as_str() {
        "chord" => Server::Chord,
        "redis" => Server::Redis,
        _ => Server::Echo,
    };
    let kind = match words[4].as_str() {
        "insert" => Kind::Insert,
        "retrieve" => Kind::Retrieve,
        "fill" => Kind::Fill,
        "fill100" => Kind::LargeFill,
        _ => Kind::LargeRetrieve,
    };
    let connections = number(5);
    let load = Load {
        server,
        port: number(3) as u16,
        kind,
        flight: number(6),
        requests: number(7) / connections,
        key_length: number(8) as usize,
        value_length: number(9) as usize,
    };
    let begun = Instant::now();
    let mut times: Vec<Duration> = thread::scope(|scope| {
        let threads: Vec<_> = (0..connections)
            .map(|thread| scope.spawn(move || ask_all(load, thread)))
            .collect();
        threads.into_iter().flat_map(|thread| thread.join().unwrap()).collect()
    });
    let rate = times.len() as f64 / begun.elapsed().as_secs_f64();
    times.sort_unstable();
    let [half, most, all] = [0.5, 0.99, 0.999].map(|part| percentile(&times, part));
    println!("{rate:.0} {half:.1} {most:.1} {all:.1}");
}
