#!/usr/bin/env bash
# One connection through `once`: 10,000 pulls by tag of a manifest of 371 bytes, over a depot of 1,000 tags; 10,000 times HEAD of
# a blob; and 100,000 pulls, of which the memory is looked at after 10,000 and after 100,000. Prints the processor time of a request,
# the least of five runs without the start of the program, as a ratio to that of the same files opened and read by `cat`, which
# gets the list of them by xargs: for a pull the links of tag and revision and the data, for HEAD the link and the data.
# Ends with status 1 where a reply is not the one expected, where a request takes more than 3 times the time of its files, or where
# memory grows by more than 64 KB between 10,000 and 100,000 requests.
# The depot is made below a temporary directory and is removed at the end. Build the program first: `make demo`.
#     bench/connection.sh PROGRAM [REQUESTS [TAGS]]
# shellcheck source=bench/timing.sh
. "$(dirname "$0")/timing.sh"
program=$(program_at "${1:?"the built program registry"}") || fail "no program: $1"
cd "$(dirname "$0")/.."
requests=${2:-10000}
tags=${3:-1000}

python3 - "$work" "$requests" "$tags" <<'PYTHON'
import os, shutil, sys
work, sample = sys.argv[1], "crates/registry/data/depot"
requests, tags = int(sys.argv[2]), int(sys.argv[3])
top = "docker/registry/v2"
m1 = "98e12f26c1511cdf1aa0ed2ae2ead722b2a3f5d57c57f99e65a44faf9504395c"
hello = "2cf24dba5fb0a30e26e83b2ac5b9e29e1b161e5c1fa7425e73043362938b9824"
depot = f"{work}/depot/{top}"
shutil.copytree(sample, f"{work}/depot")
links = f"{depot}/repositories/a"
for n in range(tags):
    folder = f"{links}/_manifests/tags/w{n}/current"
    os.makedirs(folder)
    with open(f"{folder}/link", "w") as file:
        file.write(f"sha256:{m1}")

data = f"{depot}/blobs/sha256/{m1[:2]}/{m1}/data"
manifest = open(data, "rb").read()
api = "Docker-Distribution-Api-Version: registry/2.0"
pulled = "\r\n".join(["HTTP/1.1 200 OK", api, "Content-Type: application/vnd.oci.image.manifest.v1+json", "Content-Length: 371",
                      f"Docker-Content-Digest: sha256:{m1}", "", ""]).encode() + manifest
looked = "\r\n".join(["HTTP/1.1 200 OK", api, "Content-Type: application/octet-stream", "Content-Length: 5",
                      f"Docker-Content-Digest: sha256:{hello}", "", ""]).encode()

def write(name, text):
    with open(f"{work}/{name}", "wb") as file:
        file.write(text)

def connection(name, lines, reply):
    write(name, "".join(f"{line} HTTP/1.1\r\nHost: r\r\n\r\n" for line in lines).encode())
    write(f"{name}-replies", reply * len(lines))

turns = [n % tags for n in range(requests)]
connection("pull", [f"GET /v2/a/manifests/w{n}" for n in turns], pulled)
connection("pull-one", ["GET /v2/a/manifests/w0"], pulled)
connection("pull-many", [f"GET /v2/a/manifests/w{n % tags}" for n in range(10 * requests)], pulled)
connection("head", [f"HEAD /v2/a/blobs/sha256:{hello}"] * requests, looked)
connection("head-one", [f"HEAD /v2/a/blobs/sha256:{hello}"], looked)

revision = f"{links}/_manifests/revisions/sha256/{m1}/link"
layer = f"{links}/_layers/sha256/{hello}/link"
blob = f"{depot}/blobs/sha256/{hello[:2]}/{hello}/data"
write("pull-files", "".join(f"{links}/_manifests/tags/w{n}/current/link\n{revision}\n{data}\n" for n in turns).encode())
write("head-files", f"{layer}\n{blob}\n".encode() * requests)
write("no-files", f"{data}\n".encode())
PYTHON

once() { "$program" once --root "$work/depot" < "$work/$1"; }
files() { xargs -a "$work/$1" -n 1000 cat; }

# The least processor time of five runs, without that of the first request or file, in microseconds.
beside_start() {
    local whole one
    whole=$(best_processor_time "$1" "$2") || return 1
    one=$(best_processor_time "$1" "$3") || return 1
    [ "$whole" -gt "$one" ] || fail "$1 $2: the machine is too busy to tell, run it again"
    echo $((whole - one))
}

# Prints the time of a request beside that of its files, of which it may be so many times.
beside_files() {
    local served read
    once "$1" | cmp -s - "$work/$1-replies" || fail "$1: not the replies expected"
    served=$(beside_start once "$1" "$1-one") || fail "$1: no time"
    read=$(beside_start files "$1-files" no-files) || fail "$1: no time of its files"
    awk -v w="$2" -v n="$requests" -v s="$served" -v r="$read" \
        'BEGIN { printf "%s: %.1f us of processor time, its files %.1f us, %.2f times\n", w, s / n, r / n, s / r }'
    at_most 1 "$served" $((3 * read)) || fail "$1: more than 3 times its files"
}
beside_files pull "pull by tag on one connection"
beside_files head "HEAD of a blob on one connection"

# The most memory after some of the requests, in KB: replies are read as they come, and the connection stays open behind them.
memory_after() {
    local pid memory length
    length=$(stat -c %s "$work/$1-replies")
    rm -f "$work/in" "$work/out"
    mkfifo "$work/in" "$work/out"
    "$program" once --root "$work/depot" < "$work/in" > "$work/out" &
    pid=$!
    exec 5> "$work/in" 6< "$work/out"
    cat "$work/$1" >&5 &
    head -c "$length" <&6 | cmp -s - "$work/$1-replies" || return 1
    memory=$(most_memory "$pid") || return 1
    exec 5>&- 6<&-
    wait "$pid" || return 1
    echo "$memory"
}
few=$(memory_after pull) || fail "no memory was told"
many=$(memory_after pull-many) || fail "no memory was told"
echo "memory: $few KB after $requests requests on one connection, $many KB after $((10 * requests))"
[ $((many - few)) -le 64 ] || fail "memory grows with the requests"
