#!/usr/bin/env bash
# Runs a cluster of three nodes on this machine: a table, rows, the leader killed, and the rows read again.
#
#     examples/cluster.sh
#
# Each step is one line. The nodes are ./dqnode of this repository, and DQNODE in the environment names another program. Their files are in a
# temporary folder, which is removed at the end. Once the program is built it takes less than twenty seconds. The status is 0 if the rows that
# are read are those that were written, and 1 if not.
set -u
top=$(cd "$(dirname "$0")/.." && pwd) || exit 1
dqnode=$(readlink -f -- "${DQNODE:-$top/dqnode}") || exit 1
began=$SECONDS
folder=$(mktemp -d "${TMPDIR:-/tmp}/cluster.XXXXXX") || exit 1
nodes=()

# Ends the nodes that run, and removes their files.
clean() {
    trap - EXIT
    local node tries
    for node in "${nodes[@]}"; do
        kill -KILL "$node" 2>/dev/null
        for tries in {1..100}; do
            kill -0 "$node" 2>/dev/null || break
            sleep 0.02
        done
    done
    rm -rf "$folder"
}
trap clean EXIT
trap 'exit 1' INT TERM HUP

say() {
    echo "$1"
}

fail() {
    echo "failed: $*" >&2
    tail -n 3 "$folder"/node*/lines >&2 2>/dev/null
    exit 1
}

# free_port N prints a port for node N at which nobody listens now. Each node has a range, so no two get one port.
free_port() {
    local port
    while :; do
        port=$((16000 + 4000 * $1 + RANDOM % 4000))
        (exec 3<>"/dev/tcp/127.0.0.1/$port") 2>/dev/null || break
    done
    echo "$port"
}

# serve N [OPTION] starts node N in its folder. What the node says goes to its file `lines`.
serve() {
    local node=$1 option=("${@:2}") other peers=()
    for other in 1 2 3; do
        if [ "$other" -ne "$node" ]; then peers+=("$other=${address[other]}"); fi
    done
    mkdir -p "$folder/node$node"
    (cd "$folder/node$node" && exec "$dqnode" serve "${option[@]}" "$node" "${address[node]}" "${peers[@]}" </dev/null >/dev/null 2>>lines) &
    nodes[node]=$!
    # (without the shell's own line once it is killed)
    disown $!
}

# Prints the number of the node that became leader of the greatest term.
leader() {
    local node term best=0 found=
    for node in "${!nodes[@]}"; do
        term=$(sed -n 's/^term \([0-9]*\): leader.*/\1/p' "$folder/node$node/lines" | tail -n 1)
        if [ -n "$term" ] && [ "$term" -gt "$best" ]; then best=$term found=$node; fi
    done
    [ -n "$found" ] && echo "$found"
}

# wait_leader waits for a leader among the nodes that run.
wait_leader() {
    local tries
    for tries in {1..600}; do
        leader && return
        sleep 0.1
    done
    return 1
}

# ask WORD SQL runs a statement at the leader, which the program finds. With status 12 there is no leader yet, and the statement was not sent.
ask() {
    local tries status
    for tries in {1..50}; do
        "$dqnode" "$1" stock "$2" "${address[@]}" </dev/null
        status=$?
        if [ "$status" -ne 12 ]; then break; fi
        sleep 0.2
    done
    return "$status"
}

# (a start that has to build the program does so here, once, and not in each node)
"$dqnode" script </dev/null || fail "the program is not there"
began=$SECONDS

address=()
for node in 1 2 3; do address[node]=localhost:$(free_port "$node"); done
for node in 1 2 3; do serve "$node" --new; done
first=$(wait_leader) || fail "no node became leader"
say "three nodes run at ${address[*]}, and node $first is their leader"

ask exec "CREATE TABLE part (name TEXT, count INTEGER)" >"$folder/printed" || fail "the table: $(cat "$folder/printed")"
say "a table was created in the database stock"

ask exec "INSERT INTO part VALUES ('bolt', 15), ('nut', 35), ('screw', 7)" >"$folder/printed" || fail "the rows: $(cat "$folder/printed")"
say "three rows were written: $(cat "$folder/printed")"

wanted=$'name\tcount\nbolt\t15\nnut\t35\nscrew\t7'
rows=$(ask query "SELECT name, count FROM part ORDER BY name") || fail "the query: $rows"
[ "$rows" = "$wanted" ] || fail "the rows are $rows"
say "the rows were read: $(tail -n +2 <<<"$rows" | tr '\t' ' ' | paste -s -d , | sed 's/,/, /g')"

kill -KILL "${nodes[first]}" || fail "node $first has ended"
unset "nodes[first]"
say "node $first, the leader, was killed"

rows=$(ask query "SELECT name, count FROM part ORDER BY name") || fail "the query after the kill: $rows"
[ "$rows" = "$wanted" ] || fail "the rows after the kill are $rows"
say "the same rows were read again, from node $(leader)"

ask exec "UPDATE part SET count = count - 1 WHERE name = 'bolt'" >"$folder/printed" || fail "the change: $(cat "$folder/printed")"
serve "$first"
rows=$(ask query "SELECT count FROM part WHERE name = 'bolt'") || fail "the last query: $rows"
[ "$rows" = $'count\n14' ] || fail "the changed row is $rows"
say "a row was changed by two nodes of three, node $first was started again, and all took $((SECONDS - began)) s"
