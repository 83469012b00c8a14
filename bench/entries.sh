#!/usr/bin/env bash
# Applies entries to the slow registry: a million whose conditions are looked up (Link, Put, SetTag and DropTag over
# 1,000 repositories), and 14,000 of which two in seven have to walk through all that stands. Prints for each how many
# seconds of processor time they took, and the most memory that was had (VmHWM). Ends with status 1 where a run fails or
# counts wrongly, or where the million takes more than 20 seconds.
# Build the program first: `rt run` in crates/apply_speed.
#     bench/entries.sh PROGRAM [ROUNDS [WALKED]]
# shellcheck source=bench/timing.sh
. "$(dirname "$0")/timing.sh"
program=$(program_at "${1:?"the built program apply_speed"}") || fail "no program: $1"
rounds=${2:-250250}
walked=${3:-2000}

# Applies entries in a way and so many rounds, and prints what they took: `measure WAY ROUNDS COUNT`.
measure() {
    local told memory
    told=$("$program" "$1" "$2") || fail "$1: no count"
    [ "$told" = "$3 entries" ] || fail "$1: $told in place of $3 entries"
    spent=$(processor_time "$program" "$1" "$2") || fail "$1 failed"
    memory=$(memory_at_end "$program" "$1" "$2") || fail "no memory was told"
    awk -v way="$1" -v n="$3" -v t="$spent" -v m="$memory" 'BEGIN {
        printf "%-4s %8d entries: %6.2f s, %6.1f us each, %6.1f MB of memory\n", way, n, t / 1e6, t / n, m / 1024
    }'
}

# The processor time of a command, in microseconds.
processor_time() {
    local TIMEFORMAT='%U %S' spent
    spent=$({ time "$@" > /dev/null; } 2>&1) || return 1
    awk '{ printf "%d\n", ($1 + $2) * 1e6 }' <<< "$spent"
}

kept=$((rounds < 1000 ? rounds : 1000))
measure look "$rounds" $((1 + 4 * rounds - kept))
looked=$spent
measure walk "$walked" $((1 + 7 * walked))
[ "$rounds" -lt 250000 ] || at_most 1 "$looked" 20000000 || fail "the entries take more than 20 seconds"
