#!/usr/bin/env bash
# Walks by pages of 64 through 1,000, 10,000 and 100,000 files, or as many as are given: the data files of blobs, and the
# tags of one repository. Prints the processor time of a file, the ratio to `find`, each the least of five walks, the most memory
# that a walk has had (VmHWM), and where strace is installed how many system calls a file takes. Ends with status 1 where a walk
# fails or counts wrongly, or where one through 10,000 files or more takes more than 1.5 times the processor time of `find`.
# The folders are made below a temporary directory and are removed at the end. Build the program first: `rt run` in crates/page_walk.
#     bench/pages.sh PROGRAM [COUNT..]
# shellcheck source=bench/timing.sh
. "$(dirname "$0")/timing.sh"
program=$(program_at "${1:?"the built program page_walk"}") || fail "no program: $1"
cd "$(dirname "$0")/.."
shift
[ $# -gt 0 ] || set -- 1000 10000 100000

python3 - "$work" "$@" <<'PYTHON'
import hashlib, os, sys
for count in map(int, sys.argv[2:]):
    blobs = f"{sys.argv[1]}/blobs-{count}/docker/registry/v2/blobs/sha256"
    tags = f"{sys.argv[1]}/tags-{count}/docker/registry/v2/repositories/a/_manifests/tags"
    for n in range(count):
        digits = hashlib.sha256(str(n).encode()).hexdigest()
        for folder, name in (f"{blobs}/{digits[:2]}/{digits}", "data"), (f"{tags}/v{n}/current", "link"):
            os.makedirs(folder)
            open(f"{folder}/{name}", "w").close()
PYTHON

for kind in blobs tags; do
    for count in "$@"; do
        depot=$work/$kind-$count
        counted=$("$program" "$depot" docker 64) || fail "the walk through $count $kind failed"
        [ "$counted" = "$count" ] || fail "$counted files in place of $count"
        walk=$(best_processor_time "$program" "$depot" docker 64)
        found=$(best_processor_time find "$depot/docker" -type f)
        memory=$(memory_at_end "$program" "$depot" docker 64) || fail "no memory was told"
        calls=$(system_calls "$program" "$depot" docker 64) || fail "no system calls were counted"
        awk -v kind="$kind" -v n="$count" -v w="$walk" -v f="$found" -v m="$memory" -v c="${calls:-0}" 'BEGIN {
            printf "%-5s %6d files: %5.1f us a file, %4.2f times find, %5.1f MB of memory", kind, n, w / n, w / f, m / 1024
            if (c) printf ", %.1f system calls a file", c / n
            print ""
        }'
        [ "$count" -lt 10000 ] || at_most 1 "$walk" $((found + found / 2)) || fail "the walk takes more than 1.5 times find"
    done
done
