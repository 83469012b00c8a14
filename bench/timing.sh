# What the benchmarks share: a temporary folder, which is removed at the end, checks, times and memory.
# shellcheck shell=bash
set -euo pipefail
work=$(mktemp -d)
trap 'rm -rf "$work"' EXIT

# Ends the benchmark with status 1 and a line that tells why.
fail() {
    echo "$0: $*" >&2
    exit 1
}

# The absolute path of a program, which must be there.
program_at() {
    local path
    path=$(realpath -e -- "$1") || return 1
    [ -f "$path" ] && [ -x "$path" ] || return 1
    echo "$path"
}

# The least of some numbers, one a line.
least() { sort -n | sed -n 1p; }

# The least time of five runs of a command, in microseconds. A run that fails ends it.
best_time() {
    local start end
    for _ in 1 2 3 4 5; do
        start=$EPOCHREALTIME
        "$@" | cat > /dev/null || return 1
        end=$EPOCHREALTIME
        echo $(( ${end/./} - ${start/./} ))
    done | least
}

# The least processor time of five runs of a command, in microseconds. A run that fails ends it.
best_processor_time() {
    local TIMEFORMAT='%U %S'
    for _ in 1 2 3 4 5; do
        { time "$@" > /dev/null; } 2>&1 || return 1
    done | awk '{ printf "%d\n", ($1 + $2) * 1e6 }' | least
}

# How many system calls a command makes, and nothing where there is no strace to count them.
system_calls() {
    command -v strace > /dev/null || return 0
    strace -f -c -o "$work/calls" "$@" > /dev/null || return 1
    awk '$4 ~ /^[0-9]+$/ && $NF != "total" { n += $4 } END { print n }' "$work/calls"
}

# Whether so many of one number are at most another: `at_most 0.5 "$a" "$b"` where a / 2 <= b.
at_most() { awk -v k="$1" -v a="$2" -v b="$3" 'BEGIN { exit !(k * a <= b) }'; }

# The most memory that a process has had, in KB.
most_memory() { awk '/^VmHWM/ { found = 1; print $2 } END { exit !found }' "/proc/$1/status"; }

# Waits until a process sleeps, as it does where it writes to a pipe that is full.
until_asleep() {
    local seen=0
    while [ $seen -lt 3 ]; do
        sleep 0.1
        if grep -q '^State:[[:space:]]*S' "/proc/$1/status"; then
            seen=$((seen + 1))
        else
            seen=0
        fi
        [ -e "/proc/$1/exe" ] || return 1
    done
}

# The most memory, in KB, of a command that prints one line at its end: a pipe that is full holds it there.
memory_at_end() {
    local pid line memory
    rm -f "$work/full"
    mkfifo "$work/full"
    exec 4<> "$work/full"
    timeout 1 cat /dev/zero >&4 || true
    "$@" > "$work/full" 4<&- &
    pid=$!
    until_asleep "$pid" || return 1
    memory=$(most_memory "$pid") || return 1
    read -r line <&4 || return 1
    exec 4>&-
    wait "$pid" || return 1
    [ -n "$line" ] || return 1
    echo "$memory"
}

# A port of the loopback address that nobody listens on.
free_port() { python3 -c 'import socket; s = socket.socket(); s.bind(("127.0.0.1", 0)); print(s.getsockname()[1])'; }

# Waits until a registry answers at a port of the loopback address.
until_up() {
    for _ in $(seq 50); do
        curl -s -o /dev/null "http://127.0.0.1:$1/v2/" && return
        sleep 0.1
    done
    fail "nobody listens"
}
