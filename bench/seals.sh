#!/usr/bin/env bash
# Seals a file of 256 MB, hashes all its bytes from memory, and reads them alone, five times each. Prints the speed of
# sealing, beside that of SHA-256 alone, which is hashing without the reading, and the most memory that sealing has had.
# Times are the least processor times. Ends with status 1 where the digest is not that of sha256sum, where sealing has
# less than 0.95 of the speed of SHA-256 alone, or where it has had 16 MB of memory. The file is made below a temporary
# directory, which is removed at the end. Build the program first: `rt run` in crates/seal_speed.
#     bench/seals.sh PROGRAM [MEGABYTES]
# shellcheck source=bench/timing.sh
. "$(dirname "$0")/timing.sh"
program=$(program_at "${1:?"the built program seal_speed"}") || fail "no program: $1"
megabytes=${2:-256}
mkdir "$work/depot"
head -c $((megabytes << 20)) /dev/urandom > "$work/depot/large"

[ "$("$program" seal "$work/depot" large)" = "sha256:$(sha256sum < "$work/depot/large" | cut -c 1-64)" ] ||
    fail "another digest than sha256sum's"
seal=$(best_processor_time "$program" seal "$work/depot" large) || fail "sealing failed"
hash=$(best_processor_time "$program" hash "$work/depot" large) || fail "hashing failed"
read=$(best_processor_time "$program" read "$work/depot" large) || fail "reading failed"
awk -v m="$megabytes" -v s="$seal" -v h="$hash" -v r="$read" \
    'BEGIN { printf "sealing: %.0f MB/s, %.2f of the speed of SHA-256 alone\n", m / s * 1e6, (h - r) / s }'

"$program" seal "$work/depot" large > /dev/null &
memory=0
while now=$(most_memory $! 2> /dev/null); do
    memory=$now
    sleep 0.05
done
wait $!
echo "memory: $memory KB"
at_most 1 "$memory" 16384 || fail "sealing has had more than 16 MB"
at_most 0.95 "$seal" $((hash - read)) || fail "sealing is slower than 0.95 of SHA-256 alone"
