#!/usr/bin/env bash
# Traces the system calls of one small file that is put and one upload that is placed, and ends with status 1 unless
# the data are synced before they get their name, the folders of the name behind it, new folders into the ones above
# them, and all of it before the call is acknowledged. Needs strace, a package of Debian. The folders are made below a
# temporary directory and are removed at the end. Build the program first: `rt run` in crates/disk_writes.
#     bench/order.sh PROGRAM
# shellcheck source=bench/timing.sh
. "$(dirname "$0")/timing.sh"
program=$(program_at "${1:?"the built program disk_writes"}") || fail "no program: $1"
command -v strace > /dev/null || fail "no strace"

mkdir "$work/depot"
for command in put upload; do
    strace -y -e trace=write,fsync,rename,renameat,renameat2,mkdir,mkdirat -o "$work/$command" \
        "$program" "$command" "$work/depot" 1 1 > "$work/told" || fail "$command failed"
    [ "$(cat "$work/told")" = 1 ] || fail "$command was not acknowledged"
done

python3 - "$work" <<'PYTHON' || fail "not in order"
import os, re, sys
work = sys.argv[1]
depot = os.path.realpath(f"{work}/depot")

# The calls of a trace that succeeded: the name of each, and the paths of files that it speaks of.
def calls(trace):
    for line in open(f"{work}/{trace}"):
        found = re.match(r"(\w+)\((.*)\)\s+= \d+", line)
        if found:
            paths = re.findall(r'<(/[^>]*)>|"(/[^"]*)"', found[2])
            yield found[1], [first or second for first, second in paths]

def check(trace, data, name):
    made = list(calls(trace))
    renames = [i for i, (call, paths) in enumerate(made) if call.startswith("rename") and paths[1] == f"{depot}/{name}"]
    told = [i for i, (call, paths) in enumerate(made) if call == "write" and paths[0].endswith("/told")]
    if len(renames) != 1 or len(told) != 1:
        sys.exit(f"{trace}: {len(renames)} renames to {name}, {len(told)} acknowledgments")
    renamed, told = renames[0], told[0]
    old, new = made[renamed][1]
    if not old.startswith(f"{depot}/{data}"):
        sys.exit(f"{trace}: {old} was renamed")
    synced = lambda path, begin, end: any(call == "fsync" and paths == [path] for call, paths in made[begin:end])
    written = [i for i, (call, paths) in enumerate(made) if call == "write" and paths[:1] == [old]]
    if not written or written[-1] > renamed or not synced(old, written[-1], renamed):
        sys.exit(f"{trace}: the data were not synced before the rename")
    changed = [os.path.dirname(path) for path in (new, old) if not path.startswith(f"{depot}/.unnamed/")]
    if not all(synced(folder, renamed, told) for folder in changed):
        sys.exit(f"{trace}: a folder was not synced behind the rename")
    for i, (call, paths) in enumerate(made):
        if call.startswith("mkdir") and not synced(os.path.dirname(paths[-1]), i, told):
            sys.exit(f"{trace}: {paths[-1]} was not synced into the folder above it")
    print(f"{trace}: {len(written)} writes, fsync of the data, rename, fsync of the folder, acknowledged")

check("put", ".unnamed/", "s/1")
check("upload", "u/1/data", "b/1/data")
PYTHON
