#!/usr/bin/env bash
# Puts 2,000 small files of 1 KB, appends 1 GB in pieces of 64 KB, and places it. Prints how many files are put in a
# second, beside a Python process that does open, write, fsync, rename and fsync of the folder for each, and with
# strace how many system calls one takes; how fast the pieces are appended, beside `cat` of as many bytes into a file;
# and how long placing them takes once they are on the disk. All are times of a clock, the least of five runs. Ends
# with status 1 where small files take more than 1.2 times as long as Python's, where appending has less than 0.8 of
# the speed of cat, or where placing takes more than a fifth of the time of cat. The folders are made below a
# temporary directory and are removed at the end. Build the program first: `rt run` in crates/disk_writes.
#     bench/writes.sh PROGRAM [FILES [MEGABYTES]]
# shellcheck source=bench/timing.sh
. "$(dirname "$0")/timing.sh"
program=$(program_at "${1:?"the built program disk_writes"}") || fail "no program: $1"
files=${2:-2000}
megabytes=${3:-1024}
mkdir -p "$work/depot" "$work/python/s" "$work/python/unnamed"

put_by_python() {
    python3 - "$work/python" "$1" "$2" <<'PYTHON'
import os, sys
root, first, count = sys.argv[1], int(sys.argv[2]), int(sys.argv[3])
for n in range(first, first + count):
    unnamed = f"{root}/unnamed/{n}"
    file = os.open(unnamed, os.O_WRONLY | os.O_CREAT | os.O_EXCL, 0o666)
    os.write(file, f"{n}\n".encode() * 200)
    os.fsync(file)
    os.close(file)
    os.rename(unnamed, f"{root}/s/{n % 16}")
    folder = os.open(f"{root}/s", os.O_RDONLY)
    os.fsync(folder)
    os.close(folder)
    print(n)
PYTHON
}

# The time of a command, in microseconds. What it tells must be so many lines, none of them of a failure.
time_of() {
    local start=$EPOCHREALTIME end
    "${@:2}" > "$work/told" || fail "${*:2}: failed"
    end=$EPOCHREALTIME
    [ "$(grep -c '^[0-9]' "$work/told")" = "$1" ] || fail "${*:2}: $(tail -n 1 "$work/told")"
    echo $((${end/./} - ${start/./}))
}

for _ in 1 2 3 4 5; do
    time_of "$files" "$program" put "$work/depot" 1000 "$files" >> "$work/ours"
    time_of "$files" put_by_python 1000 "$files" >> "$work/theirs"
done
ours=$(least < "$work/ours")
theirs=$(least < "$work/theirs")
awk -v n="$files" -v o="$ours" -v t="$theirs" \
    'BEGIN { printf "small files: %.0f a second, %.0f us each, %.2f times Python\n", n / o * 1e6, o / n, o / t }'
few=$(system_calls "$program" put "$work/depot" 1000 20) || fail "no system calls were counted"
many=$(system_calls "$program" put "$work/depot" 1000 120) || fail "no system calls were counted"
[ -z "$many" ] || awk -v f="$few" -v m="$many" \
    'BEGIN { printf "%.1f system calls a small file, one of them its line\n", (m - f) / 100 }'

head -c $((megabytes << 20)) /dev/zero | tr '\0' x > "$work/large"
copy() { cat "$work/large" > "$work/copy" && echo 1; }
rm -f "$work/ours" "$work/theirs"
for _ in 1 2 3 4 5; do
    rm -rf "$work/depot/u" "$work/depot/b" "$work/copy"
    sync
    time_of 1 "$program" append "$work/depot" 1 $((megabytes * 16)) >> "$work/ours"
    rm -f "$work/copy"
    sync
    time_of 1 copy >> "$work/theirs"
    sync
    time_of 1 "$program" place "$work/depot" 1 >> "$work/places"
    cmp -s "$work/large" "$work/depot/b/1/data" || fail "what was placed is not what was appended"
done
append=$(least < "$work/ours")
copied=$(least < "$work/theirs")
place=$(least < "$work/places")
awk -v n="$megabytes" -v a="$append" -v c="$copied" -v p="$place" 'BEGIN {
    printf "append of %d MB: %.0f MB/s, %.2f of the speed of cat\n", n, n / a * 1e6, c / a
    printf "place of %d MB: %.1f ms\n", n, p / 1000
}'
at_most 1 "$ours" $((theirs * 12 / 10)) || fail "small files take more than 1.2 times as long as Python's"
at_most 8 "$append" $((copied * 10)) || fail "appending has less than 0.8 of the speed of cat"
at_most 5 "$place" "$copied" || fail "placing takes more than a fifth of the time of cat"
