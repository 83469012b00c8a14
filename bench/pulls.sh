#!/usr/bin/env bash
# Pulls through `once`: a blob of 200 MB, as a ratio to `cat` and with the memory it takes; manifests of 64, 512 and 4,096 KB
# by tag; a manifest by tag from a repository of 10 and of 10,000 tags; the lists of 1,000 and of 10,000 tags, each of which
# has pointed to one manifest, of 1,000 that have pointed to ten, of 10,000 that point to ten manifests, and of 100 that point to
# one of 4 MB. Each time is the best of five runs. Where strace is installed, prints how many system calls a small file takes, by a pull
# by tag beside one by digest, and how many a tag of a list.
# Ends with status 1 where a reply is not 200 with its content; where the blob is sent at less than half the speed of `cat`;
# where that takes 12 MB of memory or more; where a list of 100 tags takes more than 1.5 times that of one; where a small file takes
# more than 5 system calls and one for each folder above it that was not seen before; or where a tag of a list takes more than 25, or
# 40 with an old link.
# The folders are made below a temporary directory and are removed at the end. Build the program first: `make demo`.
#     bench/pulls.sh PROGRAM [MEGABYTES [TAGS]]
# shellcheck source=bench/timing.sh
. "$(dirname "$0")/timing.sh"
program=$(program_at "${1:?"the built program registry"}") || fail "no program: $1"
cd "$(dirname "$0")/.."
megabytes=${2:-200}
tags=${3:-10000}
tenth=$((tags / 10))

python3 - "$work" "$megabytes" "$tags" <<'PYTHON'
import hashlib, json, os, shutil, sys
work, sample = sys.argv[1], "crates/registry/data/depot"
megabytes, tags = int(sys.argv[2]), int(sys.argv[3])
top = "docker/registry/v2"
m1 = "98e12f26c1511cdf1aa0ed2ae2ead722b2a3f5d57c57f99e65a44faf9504395c"

def write(path, content):
    os.makedirs(os.path.dirname(path), exist_ok=True)
    with open(path, "wb") as file:
        file.write(content)

def put(depot, path, content):
    write(f"{work}/{depot}/{top}/{path}", content)

def put_blob(depot, content):
    digits = hashlib.sha256(content).hexdigest()
    put(depot, f"blobs/sha256/{digits[:2]}/{digits}/data", content)
    return digits

def put_tag(depot, tag, digits, earlier=()):
    folder = f"repositories/a/_manifests/tags/{tag}"
    put(depot, f"{folder}/current/link", f"sha256:{digits}".encode())
    for one in earlier:
        put(depot, f"{folder}/index/sha256/{one}/link", f"sha256:{one}".encode())

def ask(name, target):
    write(f"{work}/{name}", f"GET /v2/a/{target} HTTP/1.1\r\nHost: r\r\nConnection: close\r\n\r\n".encode())

# The blob, and the bytes that a reply has.
blob = os.urandom(1 << 20) * megabytes
digits = put_blob("blob", blob)
put("blob", f"repositories/a/_layers/sha256/{digits}/link", f"sha256:{digits}".encode())
write(f"{work}/blob-bytes", blob)
ask("pull-blob", f"blobs/sha256:{digits}")

# The manifest of the sample, and the same with spaces behind it.
manifest = open(f"{sample}/{top}/blobs/sha256/{m1[:2]}/{m1}/data", "rb").read()
write(f"{work}/manifest", manifest)
shutil.copytree(sample, f"{work}/manifests")
for kilobytes in 64, 512, 4_096:
    content = manifest.ljust(kilobytes << 10)
    digits = put_blob("manifests", content)
    put("manifests", f"repositories/a/_manifests/revisions/sha256/{digits}/link", f"sha256:{digits}".encode())
    put_tag("manifests", f"kb{kilobytes}", digits, [digits])
    write(f"{work}/manifest-{kilobytes}", content)
    ask(f"pull-{kilobytes}", f"manifests/kb{kilobytes}")

# Repositories of so many tags, all for the sample's manifest now.
others = [hashlib.sha256(str(n).encode()).hexdigest() for n in range(9)]
def put_tags(depot, names, targets, earlier):
    shutil.rmtree(f"{work}/{depot}/{top}/repositories/a/_manifests/tags", ignore_errors=True)
    for n, name in enumerate(names):
        put_tag(depot, name, targets[n % len(targets)], earlier)
    write(f"{work}/list-{depot}", json.dumps({"name": "a", "tags": sorted(names)}, separators=(",", ":")).encode())

for depot, count, earlier in (("few", 10, [m1]), ("tenth", tags // 10, [m1]), ("all", tags, [m1]), ("bare", tags, []),
                              ("moved", tags // 10, [m1, *others])):
    shutil.copytree(sample, f"{work}/{depot}")
    put_tags(depot, ["v1"] + [f"w{n}" for n in range(count - 1)], [m1], earlier)

# Repositories of tags for ten manifests, and for one of 4 MB.
def put_manifests(depot, contents):
    targets = []
    for content in contents:
        targets.append(put_blob(depot, content))
        put(depot, f"repositories/a/_manifests/revisions/sha256/{targets[-1]}/link", f"sha256:{targets[-1]}".encode())
    return targets

for depot, count, contents in (("ten", tags, [manifest.ljust(512 + n) for n in range(10)]), ("one-of-ten", 1, [manifest.ljust(512)]),
                               ("large", 100, [manifest.ljust(4 << 20)]), ("one-large", 1, [manifest.ljust(4 << 20)])):
    put_tags(depot, [f"w{n}" for n in range(count)], put_manifests(depot, contents), [])
ask("pull-tag", "manifests/v1")
ask("pull-digest", f"manifests/sha256:{m1}")
ask("list-tags", "tags/list")
PYTHON

# Answers a request from a depot, each a name in the temporary folder.
once() { "$program" once --root "$work/$1" < "$work/$2"; }

# Whether the reply to a request is 200 with this content, a name in the temporary folder too.
is_answered() {
    local size all
    once "$1" "$2" > "$work/reply" || return 1
    size=$(stat -c %s "$work/$3") || return 1
    all=$(stat -c %s "$work/reply") || return 1
    [ "$all" -gt "$size" ] || return 1
    head -c $((all - size)) "$work/reply" > "$work/head" || return 1
    [ "$(sed -n 1p "$work/head")" = $'HTTP/1.1 200 OK\r' ] || return 1
    grep -q $'^Content-Length: '"$size"$'\r$' "$work/head" || return 1
    [ "$(tail -c 4 "$work/head" | tr '\r\n' rn)" = rnrn ] || return 1
    tail -c "$size" "$work/reply" | cmp -s - "$work/$3"
}

expect() { is_answered "$@" || fail "the reply to $2 from $1 is not 200 with $3"; }

# The most memory that it has taken, in KB, when all but the last megabyte of the blob is read: it waits there.
memory_of_blob() {
    local pid memory
    mkfifo "$work/blob-reply"
    "$program" once --root "$work/blob" < "$work/pull-blob" > "$work/blob-reply" &
    pid=$!
    exec 3< "$work/blob-reply"
    head -c $(((megabytes - 1) << 20)) <&3 > /dev/null || return 1
    memory=$(most_memory "$pid") || return 1
    cat <&3 > /dev/null || return 1
    exec 3<&-
    wait "$pid" || return 1
    echo "$memory"
}

expect blob pull-blob blob-bytes
sent=$(best_time once blob pull-blob)
copied=$(best_time cat "$work/blob-bytes")
memory=$(memory_of_blob) || fail "no memory was told"
awk -v n="$megabytes" -v s="$sent" -v c="$copied" -v m="$memory" \
    'BEGIN { printf "blob of %d MB: %.0f ms, %.2f times cat, %.1f MB of memory\n", n, s / 1000, s / c, m / 1024 }'
at_most 0.5 "$sent" "$copied" || fail "the blob is sent at less than half the speed of cat"
[ "$memory" -lt $((12 * 1024)) ] || fail "the blob takes 12 MB of memory or more"

for kilobytes in 64 512 4096; do
    expect manifests "pull-$kilobytes" "manifest-$kilobytes"
    pulled=$(best_time once manifests "pull-$kilobytes")
    awk -v k="$kilobytes" -v p="$pulled" 'BEGIN { printf "manifest of %4d KB by tag: %.2f ms\n", k, p / 1000 }'
done

expect few pull-tag manifest
expect all pull-tag manifest
few=$(best_time once few pull-tag)
many=$(best_time once all pull-tag)
awk -v n="$tags" -v f="$few" -v m="$many" \
    'BEGIN { printf "manifest by tag: %.2f ms among 10 tags, %.2f ms among %d, %.2f times\n", f / 1000, m / 1000, n, m / f }'

for depot in tenth all bare moved ten one-of-ten large one-large; do
    expect "$depot" list-tags "list-$depot"
done
short=$(best_time once tenth list-tags)
long=$(best_time once all list-tags)
moved=$(best_time once moved list-tags)
awk -v n="$tenth" -v all="$tags" -v s="$short" -v l="$long" -v m="$moved" 'BEGIN {
    printf "tags: %.1f us a tag of %d, %.1f us a tag of %d, %.2f times\n", s / n, n, l / all, all, l * n / s / all
    printf "tags that have pointed to ten manifests: %.1f us a tag of %d\n", m / n, n
}'

# How many system calls the answer takes.
calls_of() { system_calls "$program" once --root "$work/$1" < "$work/$2"; }

# By tag one file more is read, the tag's link, and three folders above it are looked at: `tags`, the tag's own, and `current`.
expect few pull-digest manifest
by_tag=$(calls_of few pull-tag) || fail "no system calls were counted"
by_digest=$(calls_of few pull-digest) || fail "no system calls were counted"
if [ -n "$by_tag" ]; then
    echo "manifest: $by_tag system calls by tag, $((by_tag - by_digest)) of them for the tag's link and three folders above it"
    at_most 1 "$((by_tag - by_digest))" $((5 + 3)) || fail "a small file takes more than 5 system calls and one for each new folder"
fi

# Prints how many system calls a tag of a list takes, of which at most so many are due.
calls_of_tags() {
    local calls
    calls=$(calls_of "$1" list-tags) || fail "no system calls were counted"
    [ -n "$calls" ] || return 0
    awk -v w="$3" -v n="$tags" -v c="$calls" 'BEGIN { printf "%.1f system calls a tag of %d %s\n", c / n, n, w }'
    at_most 1 "$calls" $(($2 * tags)) || fail "a tag of a list takes more than $2 system calls $3"
}
calls_of_tags bare 25 "without index folders"
calls_of_tags all 40 "with one each"

# Prints how long a list takes, and its ratio to one of a single tag.
beside_one() {
    local list one
    list=$(best_time once "$1" list-tags)
    one=$(best_time once "$2" list-tags)
    awk -v w="$3" -v l="$list" -v o="$one" 'BEGIN { printf "%s: %.1f ms, %.2f times one tag\n", w, l / 1000, l / o }'
    if [ "$1" = large ]; then
        at_most 1 "$list" $((one + one / 2)) || fail "a list of one manifest takes more than 1.5 times that of one tag"
    fi
}
beside_one ten one-of-ten "$tags tags on ten manifests"
beside_one large one-large "100 tags on one manifest of 4 MB"
