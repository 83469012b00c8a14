#!/usr/bin/env bash
# Reads 200,000 heads of 300 bytes, and bodies of 64 MB in chunks of 32 KB and of 10 bytes. Prints how many heads are read in a
# second and the time of one; and for each body, read into a buffer and put into a stage, how many MB in a second; each with the
# ratio to the time of copying its stream. All are processor times, the least of nine runs, without that of getting the input.
# Ends with status 1 where a run fails or counts wrongly. With `-b BEFORE`, an earlier build of the program, each line stands twice,
# that of BEFORE first.
# The streams are made below a temporary directory and are removed at the end. Build the program first: `rt run` in crates/wire_speed.
#     bench/requests.sh [-b BEFORE] PROGRAM [HEADS [MEGABYTES]]
# shellcheck source=bench/timing.sh
. "$(dirname "$0")/timing.sh"
programs=()
if [ "${1-}" = -b ]; then
    programs+=("$(program_at "${2:?"an earlier build of wire_speed"}")") || fail "no program: $2"
    shift 2
fi
programs+=("$(program_at "${1:?"the built program wire_speed"}")") || fail "no program: $1"
cd "$(dirname "$0")/.."
heads=${2:-200000}
megabytes=${3:-64}

python3 - "$work" "$heads" "$megabytes" <<'PYTHON'
import sys
heads, megabytes = int(sys.argv[2]), int(sys.argv[3])

def write(name, *parts):
    with open(f"{sys.argv[1]}/{name}", "wb") as stream:
        stream.writelines(parts)

head = b"GET /v2/library/alpine/manifests/latest HTTP/1.1\r\nHost: registry.example.org\r\nUser-Agent: containerd/1.7.22\r\n"
head += b"Accept: application/vnd.oci.image.manifest.v1+json, application/vnd.oci.image.index.v1+json\r\nAccept-Encoding: gzip\r\n"
head += b"X-Pad: " + b"x" * (300 - len(head) - 11) + b"\r\n\r\n"
assert len(head) == 300
write("heads", head * heads)
for name, size in ("chunks-32768", 32_768), ("chunks-10", 10):
    chunk = b"%x\r\n" % size + b"x" * size + b"\r\n"
    write(name, b"PUT / HTTP/1.1\r\nTransfer-Encoding: chunked\r\n\r\n", chunk * ((megabytes << 20) // size), b"0\r\n\r\n")
PYTHON

# The least of nine runs, in microseconds of processor time. A run that fails ends it.
best() {
    local TIMEFORMAT='%U %S'
    for _ in 1 2 3 4 5 6 7 8 9; do
        { time "$program" "$1" < "$work/$2" > /dev/null; } 2>&1 || return 1
    done | awk '{ printf "%d\n", ($1 + $2) * 1e6 }' | least
}

# The same, without getting the input. On a busy machine the difference may drown: then there is nothing to tell.
beside_input() {
    local whole input
    whole=$(best "$1" "$2") || return 1
    input=$(best input "$2") || return 1
    [ "$whole" -gt "$input" ] || fail "$1 $2: the machine is too busy to tell, run it again"
    echo $((whole - input))
}

# Expects that a way of taking a stream counts so.
expect() {
    local told
    told=$("$program" "$1" < "$work/$2") || fail "$1 $2: no count"
    [ "$told" = "$3" ] || fail "$1 $2: $told in place of $3"
}

# Expects that a stream is counted so, read or staged, and is copied whole.
expect_counts() {
    expect read "$1" "$2"
    expect stage "$1" "$2"
    expect copy "$1" "0 requests, $(stat -c %s "$work/$1") bytes"
}

# Prints the time of each head, of the program that is set.
time_heads() {
    local read copy
    expect_counts heads "$heads requests, 0 bytes"
    read=$(beside_input read heads)
    copy=$(beside_input copy heads)
    awk -v n="$heads" -v r="$read" -v c="$copy" \
        'BEGIN { printf "heads of 300 bytes: %.0f a second, %.2f us each, %.1f times a copy\n", n / r * 1e6, r / n, r / c }'
}

# Prints how fast a body in chunks of this size is read or staged.
time_body() {
    local stream=chunks-$1 bytes=$(((megabytes << 20) / $1 * $1)) copy time
    expect_counts "$stream" "1 requests, $bytes bytes"
    copy=$(beside_input copy "$stream")
    time=$(beside_input "$2" "$stream")
    awk -v s="$stream" -v w="$2" -v n="$bytes" -v t="$time" -v c="$copy" \
        'BEGIN { printf "%-12s %-5s: %5.0f MB/s, %.1f times a copy\n", s, w, n / t, t / c }'
}

# Does the same for each program.
of_each() {
    for program in "${programs[@]}"; do
        "$@"
    done
}

of_each time_heads
for size in 32768 10; do
    for way in read stage; do
        of_each time_body "$size" "$way"
    done
done
