#!/usr/bin/env bash
# Redis's own tools as clients of `chord serve --redis`, and both servers beside each other:
#     bench/redis.sh [REQUESTS [TURNS]]     requests a run (40,000), and turns of a cell (15)
# Needs the toolchain and redis-cli. What also needs redis-server with redis-benchmark, or python3
# with its module redis, is skipped with a word where they are missing; it installs nothing. The last
# part has both servers up, ours over 16 nodes, and gives them their runs in turn, so that what the
# machine does meanwhile slows both. A row is the requests a second as a multiple of Redis's in the
# same turn: the lowest, the middle and the highest; of keys that lie on all nodes, and of one key,
# which lies on one. KINDS names some of these rows, and SHAPES the cells, as "1 1,16 1": how many
# connections, and commands in flight on each. THREADS gives redis-benchmark this number of threads;
# without it, it has one. It tells its time in quarters of a second then, so give it requests for
# some seconds. With PROCESSES=1 each connection is that of a redis-benchmark of its own, and a rate
# is that of all, with their starts. With OTHER=PORT the server that is up there is measured in place
# of ours, such as that of bench/idle.c. JOURNAL, which is always, second or never, gives each server a
# file of its changes that is synced so. A ring does 1,000 rounds of upkeep once its nodes are there,
# so its clients begin REST seconds later (3). It ends with a status other than 0 where a client was
# answered otherwise than it says.
set -euo pipefail
cd "$(dirname "$0")/.."
requests=${1-40000} turns=${2-15} port=17600
for word in redis-cli rt; do
    command -v "$word" > /dev/null || { echo "bench/redis.sh needs $word" >&2 && exit 2; }
done
room=$(mktemp -d)
cleanup() { kill $(jobs -p) 2> /dev/null || true; rm -rf "$room"; }
trap cleanup EXIT
(cd crates/chord_app && rt run -- --version) > "$room/log" 2>&1 || { cat "$room/log" >&2 && exit 1; }
{
    printf 'slots = 16\ncallers = 64\nsuccessors = 4\ntries = 3\nwait = 100\n'
    for place in $(seq 0 15); do
        printf '[[node]]\nid = "%x0000000000000000000000000000000"\nstore = "tree"\n' "$place"
    done
} > "$room/plan.toml"

# Waits until a server listens at the port.
await() {
    for _ in $(seq 200); do
        (exec 3<> "/dev/tcp/127.0.0.1/$port") 2> /dev/null && return
        sleep 0.05
    done
    echo "nobody listens" >&2 && exit 1
}

# The options for a file of changes.
redis_file='--appendonly no' chord_file=''
if [ -n "${JOURNAL-}" ]; then
    policy=$JOURNAL
    [ "$policy" != second ] || policy=everysec
    [ "$policy" != never ] || policy=no
    redis_file="--appendonly yes --appendfsync $policy --auto-aof-rewrite-percentage 0"
    chord_file="--sync $JOURNAL --journal"
fi

# start SERVER: a new server at a port of its own. stop ends it.
start() {
    port=$((port + 1)) hold=''
    case $1 in
    redis)
        mkdir "$room/$port"
        redis-server --port $port --save '' --dir "$room/$port" $redis_file > /dev/null &
        ;;
    chord)
        mkfifo "$room/input.$port"
        crates/chord_app/out/chord_app serve --plan "$room/plan.toml" --redis $port --stay --until-input-ends --callers 128 ${chord_file:+$chord_file "$room/changes.$port"} < "$room/input.$port" > /dev/null &
        exec {hold}> "$room/input.$port"
        ;;
    esac
    server=$!
    await
    [ -z "$hold" ] || sleep "${REST-3}"
}
stop() {
    [ -z "$hold" ] || exec {hold}>&-
    kill $server 2> /dev/null || true
    wait $server 2> /dev/null || true
}

# tells WANTED WORD..: the command of these words is answered so by redis-cli.
wrong=0
tells() {
    local wanted=$1 got
    shift
    got=$(redis-cli -p $port "$@" | tr '\n' ' ')
    [ "$got" = "$wanted " ] || { echo "redis-cli $*: $got" && wrong=1; }
}

start chord
tells '2' SADD abc y x
tells '0' SADD abc x
tells 'x y' SMEMBERS abc
tells '2' SCARD abc
tells '1' SISMEMBER abc x
tells '1 0' SMISMEMBER abc x z
tells '1' EXISTS abc abd
tells 'set' TYPE abc
tells 'none' TYPE abd
tells '1' SREM abc y z
tells 'PONG' PING
tells 'hello' ECHO hello
tells 'OK' SELECT 0
tells 'OK' CLIENT SETNAME me
tells '32' COMMAND COUNT
tells "ERR unknown command 'GET' " GET abc
echo "redis-cli by command: $([ $wrong = 0 ] && echo as wanted || echo NOT as wanted)"
seq 100000 | sed 's/.*/SADD key:& value:&/' | redis-cli -p $port --pipe > "$room/pipe"
grep -q 'errors: 0, replies: 100000' "$room/pipe" || { cat "$room/pipe" && wrong=1; }
echo "redis-cli --pipe: $(tail -1 "$room/pipe")"
python=''
for word in python3 /usr/bin/python3; do
    [ -n "$python" ] || ! $word -c 'import redis' 2> /dev/null || python=$word
done
if [ -n "$python" ]; then
    $python - $port << 'PYTHON' || wrong=1
import sys, threading, redis

pool = redis.ConnectionPool(host="127.0.0.1", port=int(sys.argv[1]), max_connections=32)
faults = []


def work(name):
    try:
        client = redis.Redis(connection_pool=pool)
        for turn in range(100):
            key = f"{name}:{turn}"
            with client.pipeline(transaction=False) as pipe:
                for member in ("b", "a", "b"):
                    pipe.sadd(key, member)
                pipe.smembers(key)
                answers = pipe.execute()
            if answers != [1, 1, 0, {b"a", b"b"}] or client.srem(key, "a", "c") != 1:
                faults.append((key, answers))
    except Exception as fault:
        faults.append((name, fault))


threads = [threading.Thread(target=work, args=(name,)) for name in range(32)]
for thread in threads:
    thread.start()
for thread in threads:
    thread.join()
print("python3-redis, a pool of 32:", faults[:3] or "as wanted")
sys.exit(1 if faults else 0)
PYTHON
else
    echo "python3-redis: skipped, no python3 has the module redis"
fi
stop

if ! command -v redis-server > /dev/null || ! command -v redis-benchmark > /dev/null; then
    echo "redis-benchmark: skipped, redis-server or redis-benchmark is missing"
    exit $wrong
fi

# The median of numbers, one a line.
median() { sort -g | awk '{ all[NR] = $1 } END { print all[int((NR + 1) / 2)] }'; }

# fill: sets that the cells read. `one` and `hundred` have 1 and 100 members, and so have 10,000
# keys one:N and 1,000 keys hundred:N, which lie on all nodes.
fill() {
    local members
    members=$(seq 100 | tr '\n' ' ')
    {
        echo "SADD one a"
        echo "SADD hundred $members"
        seq 0 9999 | awk '{ printf "SADD one:%012d a\n", $1 }'
        seq 0 999 | awk -v members="$members" '{ printf "SADD hundred:%012d %s\n", $1, members }'
    } | redis-cli -p $port --pipe > /dev/null
}

# ask_apart CLIENTS FLIGHT KEYS WORD..: the requests a second of this number of clients, each a
# process.
ask_apart() {
    local clients=$1 flight=$2 keys=$3 each=$((requests / $1)) begun pids=''
    shift 3
    begun=$(date +%s%N)
    for _ in $(seq "$clients"); do
        redis-benchmark -p $port -n $each -r "$keys" -c 1 -P "$flight" --csv "$@" > /dev/null &
        pids+=" $!"
    done
    wait $pids
    awk -v done=$((each * clients)) -v taken=$(($(date +%s%N) - begun)) 'BEGIN { printf "%.0f\n", done * 1e9 / taken }'
}

# words_of KIND: sets what redis-benchmark asks, and of how many keys.
words_of() {
    keys=10000
    case $1 in
    SADD) words='SADD key:__rand_int__ member:__rand_int__' keys=100000 ;;
    SMEMBERS1) words='SMEMBERS one:__rand_int__' ;;
    SMEMBERS100) words='SMEMBERS hundred:__rand_int__' keys=1000 ;;
    SISMEMBER) words='SISMEMBER one:__rand_int__ a' ;;
    SMEMBERS1-one-key) words='SMEMBERS one' ;;
    SMEMBERS100-one-key) words='SMEMBERS hundred' ;;
    SISMEMBER-one-key) words='SISMEMBER one a' ;;
    esac
}

# rate PORT CLIENTS FLIGHT: the requests a second that redis-benchmark says of the server there.
rate() {
    port=$1
    if [ -n "${PROCESSES-}" ]; then
        ask_apart "$2" "$3" $keys $words
    else
        redis-benchmark -p $port -n "$requests" -r $keys -c "$2" -P "$3" ${THREADS:+--threads $THREADS} --csv $words | tail -1 | cut -d, -f2 | tr -d '"'
    fi
}

for kind in ${KINDS-SADD SMEMBERS1 SMEMBERS100 SISMEMBER SMEMBERS1-one-key SMEMBERS100-one-key SISMEMBER-one-key}; do
    echo "$kind: as a multiple of Redis, the lowest, the middle and the highest (requests a second of Redis)"
    words_of "$kind"
    start redis
    redis=$port redis_server=$server
    fill
    chord=${OTHER-}
    if [ -z "$chord" ]; then
        start chord
        chord=$port
        fill
    fi
    IFS=, read -ra shapes <<< "${SHAPES-1 1,16 1,64 1,1 16,16 16,64 16}"
    for shape in "${shapes[@]}"; do
        : > "$room/rows"
        for turn in $(seq "$turns"); do
            if [ $((turn % 2)) = 0 ]; then
                of_redis=$(rate $redis $shape)
                of_chord=$(rate $chord $shape)
            else
                of_chord=$(rate $chord $shape)
                of_redis=$(rate $redis $shape)
            fi
            echo "$of_chord $of_redis" >> "$room/rows"
        done
        ratios=$(awk '{ printf "%.2f\n", $1 / $2 }' "$room/rows" | sort -g)
        base=$(awk '{ print $2 }' "$room/rows" | median)
        echo "  -c ${shape/ / -P }: $(head -1 <<< "$ratios"), $(median <<< "$ratios"), $(tail -1 <<< "$ratios") ($base)"
    done
    [ -n "${OTHER-}" ] || stop
    kill $redis_server
    wait $redis_server 2> /dev/null || true
done
exit $wrong
