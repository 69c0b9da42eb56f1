#!/usr/bin/env bash
# Cuts the connections of `chord load` to `chord serve`, and measures what a session costs:
#     bench/resume.sh [REQUESTS [ROUNDS]]     requests a load (100,000), and rounds (3)
# Needs the toolchain; it installs nothing. First 16 clients insert values that nobody else inserts,
# over connections of which each is cut behind about 50 requests: the table says how many went on
# (resumed) and how many inserts acted twice (doubled), and the status is not 0 where one did. Then
# rows of requests a second in sessions, as multiples of those without, medians of the rounds; each
# load has a server of its own, over 16 nodes.
set -euo pipefail
cd "$(dirname "$0")/.."
requests=${1-100000} rounds=${2-3} port=17800
room=$(mktemp -d)
cleanup() { kill $(jobs -p) 2> /dev/null || true; rm -rf "$room"; }
trap cleanup EXIT
(cd crates/chord_app && rt run -- --version) > "$room/log" 2>&1 || { cat "$room/log" >&2 && exit 1; }
chord=crates/chord_app/out/chord_app
{
    printf 'slots = 16\ncallers = 64\nsuccessors = 4\ntries = 3\nwait = 100\n'
    for place in $(seq 0 15); do
        printf '[[node]]\nid = "%x0000000000000000000000000000000"\nstore = "tree"\n' "$place"
    done
} > "$room/plan.toml"

# start: a new server at a port of its own. stop ends it.
start() {
    port=$((port + 1)) hold=''
    rm -f "$room/input.$port"
    mkfifo "$room/input.$port"
    $chord serve --plan "$room/plan.toml" --port $port --stay --until-input-ends < "$room/input.$port" > /dev/null &
    server=$!
    exec {hold}> "$room/input.$port"
    for _ in $(seq 200); do
        (exec 3<> "/dev/tcp/127.0.0.1/$port") 2> /dev/null && return
        sleep 0.05
    done
    echo "nobody listens" >&2 && exit 1
}
stop() {
    exec {hold}>&-
    wait $server
}

# load OPTION..: the table of a load of a new server.
load() {
    start
    $chord load --port $port --connections 16 --in-flight 4 --requests "$requests" "$@" 2> /dev/null
    stop
}

echo "16 clients, each connection cut behind about 50 requests:"
load --keys 1000 --value-size 16 --kind insert --drop 50 --seed 1

median() { sort -g | sed -n "$(((rounds + 1) / 2))p"; }
rate() { awk '/^a second/ { print $3 }'; }
for kind in insert retrieve; do
    for _ in $(seq "$rounds"); do
        with=$(load --kind $kind | rate)
        without=$(load --kind $kind --no-session | rate)
        awk "BEGIN { printf \"%.2f\\n\", $with / $without }"
    done | median | sed "s/^/$kind in sessions, to without: /"
done
