#!/usr/bin/env bash
# Measures `chord serve`, `redis-server` and an echo server in one run, all by the client
# bench/serve.rs:
#     bench/serve.sh [REQUESTS [ROUNDS [SIZES]]]
# REQUESTS a cell (200,000), ROUNDS (3), and the bytes of keys and values of each table ("12x8
# 41x200"). Needs redis-server, redis-cli, rustc and the toolchain; it installs nothing. Each cell
# starts its server anew, and every other round has the servers in the other order. A ring does 1,000
# rounds of upkeep once its nodes are there, so its clients begin REST seconds later (3). Rows are
# medians: requests a second of one node, of 16 nodes and of the echo server as multiples of Redis's
# in the same round, and in brackets the microseconds of the 50th, 99th and 99.9th percentile.
set -euo pipefail
cd "$(dirname "$0")/.."
requests=${1-200000} rounds=${2-3} sizes=${3-12x8 41x200} port=17400
for word in redis-server redis-cli rustc rt; do
    command -v "$word" > /dev/null || { echo "bench/serve.sh needs $word" >&2 && exit 2; }
done
room=$(mktemp -d)
cleanup() { kill $(jobs -p) 2> /dev/null || true; rm -rf "$room"; }
trap cleanup EXIT
rustc --edition 2021 -O -o "$room/client" bench/serve.rs
(cd crates/chord_app && rt run -- --version) > "$room/log" 2>&1 || { cat "$room/log" >&2 && exit 1; }
plan() {
    printf 'slots = 16\ncallers = 64\nsuccessors = 4\ntries = 3\nwait = 100\n'
    for place in $(seq 0 $(($1 - 1))); do
        printf '[[node]]\nid = "%032x"\nstore = "tree"\n' 0 | sed "s/\"0/\"$(printf %x "$place")/"
    done
}
plan 1 > "$room/1.toml"
plan 16 > "$room/16.toml"

# Waits until a server listens at the port.
await() {
    for _ in $(seq 200); do
        (exec 3<> "/dev/tcp/127.0.0.1/$port") 2> /dev/null && return
        sleep 0.05
    done
    echo "nobody listens" >&2 && exit 1
}

# cell SERVER KIND CONNECTIONS FLIGHT KEY VALUE: adds to the rows the requests a second and the
# percentiles of a new server at a port of its own.
cell() {
    local client=$1 hold='' server
    port=$((port + 1))
    case $1 in
    redis) redis-server --port $port --save '' --appendonly no > /dev/null & ;;
    echo) "$room/client" echo $port & ;;
    *)
        client=chord
        mkfifo "$room/input.$port"
        crates/chord_app/out/chord_app serve --plan "$room/$1.toml" --port $port --stay --until-input-ends < "$room/input.$port" > /dev/null &
        exec {hold}> "$room/input.$port"
        ;;
    esac
    server=$!
    await
    [ -z "$hold" ] || sleep "${REST-3}"
    case $2 in
    retrieve) "$room/client" load $client $port fill 4 16 100000 "$5" "$6" > /dev/null ;;
    retrieve100) "$room/client" load $client $port fill100 4 16 100000 "$5" "$6" > /dev/null ;;
    esac
    echo "$1 $("$room/client" load $client $port "$2" "$3" "$4" "$requests" "$5" "$6")" >> "$room/round"
    [ -z "$hold" ] || exec {hold}>&-
    kill $server 2> /dev/null || true
    wait $server 2> /dev/null || true
}

# The median of numbers, one a line.
median() { sort -g | awk '{ all[NR] = $1 } END { print all[int((NR + 1) / 2)] }'; }

# middle SERVER COLUMN: the median of a column of a server's rows.
middle() { awk -v it="$1" -v at="$2" '$1 == it { print $at }' "$room/rows" | median; }

# rounds KIND CONNECTIONS FLIGHT KEY VALUE: the rows of all rounds; the sixth column is Redis's
# requests a second in the same round.
rounds() {
    local server servers
    : > "$room/rows"
    for round in $(seq "$rounds"); do
        servers=$all
        [ $((round % 2)) = 1 ] || servers=$(printf '%s\n' $all | tac)
        : > "$room/round"
        for server in $servers; do cell "$server" "$@"; done
        awk '$1 == "redis" { of_redis = $2 } { rows[NR] = $0 }
            END { for (n = 1; n <= NR; n++) print rows[n], of_redis }' "$room/round" >> "$room/rows"
    done
}

for size in $sizes; do
    for kind in insert retrieve retrieve100; do
        echo "$kind, keys and values of $size bytes: a multiple of Redis (p50, p99, p99.9 in us)"
        all="redis 1 16"
        [ $kind != insert ] || all="redis 1 16 echo"
        for shape in "1 1" "4 1" "16 1" "64 1" "1 16" "4 16" "16 16"; do
            rounds $kind $shape ${size/x/ }
            line="  ${shape/ /x}"
            for server in $all; do
                line+="  $server: $(awk -v it="$server" '$1 == it { printf "%.2f\n", $2 / $6 }' "$room/rows" | median)"
                line+=" ($(middle "$server" 3), $(middle "$server" 4), $(middle "$server" 5))"
            done
            echo "$line  $(middle redis 2) a second"
        done
    done
done
