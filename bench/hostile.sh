#!/usr/bin/env bash
# What may lie below a root besides the files of a registry, tried on the built program: FIFOs, sockets, links, files, folders
# and roots that may not be read, and names that are not UTF-8; standard streams that are closed; and files that are swapped for
# links out of the root while they are pulled, for 20 seconds and 20,000 pulls, or as many as are given.
# Ends with status 1 where an answer is not the one expected, or one comes from outside the root.
# The folders are made below a temporary directory and are removed at the end. The program runs as an ordinary user, as nobody
# where the script runs as root. Build the program first: `make demo`.
#     bench/hostile.sh PROGRAM [SECONDS [PULLS]]
# shellcheck source=bench/timing.sh
. "$(dirname "$0")/timing.sh"
program=$(program_at "${1:?"the built program registry"}") || fail "no program: $1"
cd "$(dirname "$0")/.."
seconds=${2:-20}
pulls=${3:-20000}

user=()
[ "$(id -u)" != 0 ] || user=(setpriv --reuid 65534 --regid 65534 --clear-groups)
cp "$program" "$work/program"
chmod 755 "$work" "$work/program"
restore() {
    chmod -R u+rwx "$work" 2> /dev/null || true
    rm -rf "$work"
}
trap restore EXIT

# Each depot has the manifest M1 of the sample, which is tagged v1, the manifest M2 and a blob. What lies outside is another
# blob, and a link to M2.
python3 - "$work" <<'PYTHON'
import hashlib, os, shutil, socket, sys
work, sample = sys.argv[1], "crates/registry/data/depot/docker/registry/v2"
top = "docker/registry/v2"
m1 = "98e12f26c1511cdf1aa0ed2ae2ead722b2a3f5d57c57f99e65a44faf9504395c"
m2_bytes = open(f"{sample}/blobs/sha256/{m1[:2]}/{m1}/data", "rb").read() + b" "
m2 = hashlib.sha256(m2_bytes).hexdigest()
blob = hashlib.sha256(b"inside").hexdigest()
data = f"blobs/sha256/{blob[:2]}/{blob}/data"
link = "repositories/a/_manifests/tags/v1/current/link"

def write(path, content):
    os.makedirs(os.path.dirname(path), exist_ok=True)
    with open(path, "wb") as file:
        file.write(content)

def make_depot(name):
    root = f"{work}/{name}/{top}"
    shutil.copytree(sample, root)
    write(f"{root}/{data}", b"inside")
    write(f"{root}/repositories/a/_layers/sha256/{blob}/link", f"sha256:{blob}".encode())
    write(f"{root}/blobs/sha256/{m2[:2]}/{m2}/data", m2_bytes)
    write(f"{root}/repositories/a/_manifests/revisions/sha256/{m2}/link", f"sha256:{m2}".encode())
    return root

def bind(path):
    here = os.getcwd()
    os.chdir(os.path.dirname(path))
    socket.socket(socket.AF_UNIX).bind(os.path.basename(path))
    os.chdir(here)

# A depot in which a file, and one in which the folder that has it, is something else.
def replace(kind, path, make_file):
    for place, replaced in ("file", path), ("folder", os.path.dirname(path)):
        whole = f"{make_depot(f'{kind}-{place}-{os.path.basename(path)}')}/{replaced}"
        os.rename(whole, f"{work}/gone")
        make_file(whole)
        shutil.rmtree(f"{work}/gone") if place == "folder" else os.remove(f"{work}/gone")

def lock(path):
    os.mkdir(path, 0) if os.path.basename(path) in ("current", blob) else os.close(os.open(path, os.O_CREAT, 0))

for path in data, link:
    name = os.path.basename(path)
    write(f"{work}/outside/{name}", b"OUTSIDE" if name == "data" else f"sha256:{m2}".encode())
    replace("fifo", path, os.mkfifo)
    replace("socket", path, bind)
    replace("locked", path, lock)
    replace("inside", path, lambda whole: os.symlink(f"{work}/inside-file-{name}/{top}/blobs", whole))
    replace("outside", path, lambda whole: os.symlink(f"{work}/outside/{name}" if whole.endswith(name) else f"{work}/outside", whole))
    replace("dangling", path, lambda whole: os.symlink("nowhere", whole))
    replace("loop", path, lambda whole: os.symlink(os.path.basename(whole), whole))
for mode in 0o000, 0o111, 0o444:
    make_depot(f"mode-{mode:03o}")
    os.chmod(f"{work}/mode-{mode:03o}", mode)
make_depot("sound")
tags = f"{make_depot('names')}/repositories/a/_manifests/tags"
shutil.copytree(os.fsencode(f"{tags}/v1"), os.fsencode(tags) + b"/\xff")
make_depot("race")
for name, target in ("data", f"blobs/sha256:{blob}"), ("link", "manifests/v1"), ("list", "tags/list"):
    write(f"{work}/pull-{name}", f"GET /v2/a/{target} HTTP/1.1\r\nHost: r\r\nConnection: close\r\n\r\n".encode())
PYTHON

# Answers a request from a depot, each a name in the temporary folder, as an ordinary user. No run takes long.
once() { timeout 10 "${user[@]}" "$work/program" once --root "$work/$1" < "$work/$2"; }

# Expects that a request has this exit status and a reply with this first line.
expect() {
    local told=0 line
    once "$1" "$2" > "$work/reply" || told=$?
    [ "$told" = "$3" ] || fail "$2 from $1: status $told in place of $3"
    line=$(head -n 1 "$work/reply" | tr -d '\r')
    [ "$line" = "$4" ] || fail "$2 from $1: '$line' in place of '$4'"
}

for name in data link; do
    expect sound "pull-$name" 0 "HTTP/1.1 200 OK"
    for place in file folder; do
        for kind in fifo socket; do
            expect "$kind-$place-$name" "pull-$name" 0 "HTTP/1.1 404 Not Found"
        done
        for kind in locked inside outside dangling loop; do
            expect "$kind-$place-$name" "pull-$name" 0 "HTTP/1.1 500 Internal Server Error"
        done
    done
done
echo "what is no file is unknown, and what may not be read or is a link is a fault"

for mode in 000 111 444; do
    expect "mode-$mode" pull-link 5 "device fault"
done
echo "a root that cannot be opened or searched is a device fault"

once sound pull-list > "$work/list"
once names pull-list | cmp -s - "$work/list" || fail "a name that is not UTF-8 is not passed over"
echo "a name that is not UTF-8 is passed over"

# Runs the program with some standard streams closed.
expect_closed() {
    local told=0
    "$@" || told=$?
    [ "$told" = 5 ] || fail "status $told with a closed stream"
}
without_input() { "${user[@]}" "$work/program" once --root "$work/sound" <&- > "$work/reply"; }
without_output() { once sound pull-data >&-; }
without_any() { "${user[@]}" "$work/program" once --root "$work/sound" <&- >&- 2>&-; }
expect_closed without_input
[ ! -s "$work/reply" ] || fail "a reply without input"
expect_closed without_output
expect_closed without_any
# What holds the number of standard output while the program waits for its input.
mkfifo "$work/input"
"${user[@]}" "$work/program" once --root "$work/sound" < "$work/input" >&- 2>&- &
pid=$!
exec 3> "$work/input"
until_asleep "$pid" || fail "no run with closed streams"
for number in 1 2; do
    held=$(readlink "/proc/$pid/fd/$number") || fail "the number $number is free"
    [ "$held" = / ] || fail "the number $number is that of $held"
done
exec 3>&-
wait "$pid" || fail "an empty input has another status than 0"
echo "a closed standard stream is a fault, and no file gets its number"

# A process swaps the blob and the tag's link for links out of the root and back, all the time, while four threads pull them.
python3 - "$work" "$seconds" "$pulls" <<'PYTHON'
import collections, hashlib, os, signal, subprocess, sys, threading, time
work, seconds, pulls = sys.argv[1], float(sys.argv[2]), int(sys.argv[3])
top = f"{work}/race/docker/registry/v2"
blob = hashlib.sha256(b"inside").hexdigest()
m1 = open(f"{top}/repositories/a/_manifests/tags/v1/current/link", "rb").read()
m2 = open(f"{work}/outside/link", "rb").read()
files = {"data": f"{top}/blobs/sha256/{blob[:2]}/{blob}/data", "link": f"{top}/repositories/a/_manifests/tags/v1/current/link"}

def swap():
    for name, path in files.items():
        os.link(path, f"{work}/kept-{name}")
    while True:
        for name, path in files.items():
            os.symlink(f"{work}/outside/{name}", f"{work}/next")
            os.replace(f"{work}/next", path)
            os.link(f"{work}/kept-{name}", f"{work}/next")
            os.replace(f"{work}/next", path)

def where_from(reply):
    if b"OUTSIDE" in reply or m2 in reply:
        return "outside"
    if reply.startswith(b"HTTP/1.1 500"):
        return "fault"
    return "inside" if reply.endswith(b"inside") or m1 in reply else "other"

def answer(name):
    with open(f"{work}/pull-{name}") as request:
        try:
            run = subprocess.run([f"{work}/program", "once", "--root", f"{work}/race"], stdin=request,
                                 stdout=subprocess.PIPE, timeout=10, close_fds=False)
        except subprocess.TimeoutExpired:
            return "other"
    return where_from(run.stdout) if run.returncode == 0 else "other"

counts, begin = collections.Counter(), time.monotonic()
def pull():
    while time.monotonic() - begin < seconds or counts.total() < pulls:
        if time.monotonic() - begin > 15 * seconds:
            return
        for name in files:
            counts[answer(name)] += 1

swapper = os.fork()
if swapper == 0:
    swap()
threads = [threading.Thread(target=pull) for _ in range(4)]
for thread in threads:
    thread.start()
for thread in threads:
    thread.join()
os.kill(swapper, signal.SIGKILL)
os.waitpid(swapper, 0)
print(f"{counts.total()} pulls in {time.monotonic() - begin:.0f} s while files are swapped:",
      ", ".join(f"{counts[kind]} {kind}" for kind in ("inside", "fault", "outside", "other")))
if counts["outside"] or counts["other"] or not counts["inside"] or not counts["fault"] or counts.total() < pulls:
    sys.exit("an answer comes from outside, or the files were not pulled as they should be")
PYTHON
