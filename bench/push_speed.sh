#!/usr/bin/env bash
# Pushes a blob (POST, PATCH and PUT on one connection) to `once` behind socat, and to Debian's docker-registry, five times each; and
# then, in four ways, images of five small blobs and a manifest. Prints megabytes a second of the blob, ours also without the time that
# SHA-256 alone takes over the same bytes; the most memory that `once` has had; and for each way images a second of both, and of as many
# threads of Python that only write and sync the same files. Nothing is left unsynced.
# Ends with status 1 where an answer is not 201 or 202. Needs curl, socat, python3 and docker-registry. All files are below a temporary
# directory, which is removed at the end. Build the programs first: `make demo`, and `rt run` in crates/seal_speed.
#     bench/push_speed.sh PROGRAM SEAL_SPEED [MEGABYTES]
# shellcheck source=bench/timing.sh
. "$(dirname "$0")/timing.sh"
program=$(program_at "${1:?"the built program registry"}") || fail "no program: $1"
sealing=$(program_at "${2:?"the built program seal_speed"}") || fail "no program: $2"
megabytes=${3:-50}
for tool in curl socat python3 docker-registry; do
    command -v "$tool" > /dev/null || fail "no $tool"
done
mkdir "$work/ours" "$work/theirs" "$work/depot"
head -c $((megabytes << 20)) /dev/urandom > "$work/depot/large"
hash=$(best_processor_time "$sealing" hash "$work/depot" large) || fail "hashing failed"
read=$(best_processor_time "$sealing" read "$work/depot" large) || fail "reading failed"

ours=$(free_port)
socat "TCP-LISTEN:$ours,bind=127.0.0.1,reuseaddr,fork,max-children=32" "EXEC:$program once --root $work/ours" 2> /dev/null &
listeners=($!)
trap 'kill "${listeners[@]}" 2> /dev/null || true; rm -rf "$work"' EXIT
theirs=$(free_port)
cat > "$work/config.yml" <<YAML
version: 0.1
log: {level: error, accesslog: {disabled: true}}
storage:
  filesystem: {rootdirectory: $work/theirs}
http: {addr: "127.0.0.1:$theirs"}
YAML
docker-registry serve "$work/config.yml" > /dev/null 2>&1 &
listeners+=($!)
until_up "$ours"
until_up "$theirs"

PROGRAM=$program python3 - "$work" "$ours" "$theirs" "$megabytes" $((hash - read)) <<'PYTHON'
import concurrent.futures, contextlib, hashlib, http.client, itertools, json, os, statistics, sys, time
work, ours, theirs, megabytes, hashing = sys.argv[1], int(sys.argv[2]), int(sys.argv[3]), int(sys.argv[4]), int(sys.argv[5]) / 1e6
OCI = "application/vnd.oci.image"
SECONDS = 2

def digest(content):
    return "sha256:" + hashlib.sha256(content).hexdigest()

class Client:
    def __init__(self, port):
        self.line = http.client.HTTPConnection("127.0.0.1", port, timeout=60)

    def ask(self, method, target, wanted, body=b"", kind="application/octet-stream"):
        self.line.request(method, target, body, {"Content-Type": kind, "Content-Length": str(len(body))})
        reply = self.line.getresponse()
        reply.read()
        if reply.status != wanted:
            sys.exit(f"{method} {target}: {reply.status} in place of {wanted}")
        return reply.getheader("Location")

    # In a PATCH, as docker and skopeo push, or with the PUT, as containerd and oras do.
    def blob(self, name, content, patched):
        at = self.ask("POST", f"/v2/{name}/blobs/uploads/", 202)
        rest = content
        if patched:
            at, rest = self.ask("PATCH", at, 202, content), b""
        self.ask("PUT", at + ("&" if "?" in at else "?") + "digest=" + digest(content), 201, rest)
        return {"mediaType": f"{OCI}.layer.v1.tar", "digest": digest(content), "size": len(content)}

    def image(self, name, number, patched):
        blobs = [self.blob(name, b"%d of %s" % (part, number.encode()), patched) for part in range(5)]
        manifest = {"schemaVersion": 2, "mediaType": f"{OCI}.manifest.v1+json", "config": blobs[0] | {"mediaType": f"{OCI}.config.v1+json"}, "layers": blobs[1:]}
        self.ask("PUT", f"/v2/{name}/manifests/v{number}", 201, json.dumps(manifest).encode(), f"{OCI}.manifest.v1+json")

# The most memory that a run of the program which still serves has had, in KB.
def most_memory():
    found = []
    for pid in filter(str.isdigit, os.listdir("/proc")):
        try:
            with open(f"/proc/{pid}/cmdline") as file:
                if file.read().startswith(f"{os.environ['PROGRAM']}\0once"):
                    with open(f"/proc/{pid}/status") as status:
                        found += [int(line.split()[1]) for line in status if line.startswith("VmHWM")]
        except OSError:
            pass
    return max(found, default=0)

with open(f"{work}/depot/large", "rb") as file:
    content = bytearray(file.read())

def large(port):
    least = 1e9
    for turn in range(5):
        content[0:8] = (port * 8 + turn).to_bytes(8, "big")
        body, client = bytes(content), Client(port)
        name = digest(body)
        begin = time.monotonic()
        at = client.ask("POST", "/v2/large/blobs/uploads/", 202)
        at = client.ask("PATCH", at, 202, body)
        client.ask("PUT", at + ("&" if "?" in at else "?") + "digest=" + name, 201)
        least = min(least, time.monotonic() - begin)
        memory.append(most_memory())
        client.line.close()
    return least

# Images a second: so many clients, each with a connection for all of its images, or one an image.
def small(port, patched, clients, kept):
    begin = time.monotonic()

    def push(_):
        pushed, client = 0, Client(port)
        while time.monotonic() - begin < SECONDS:
            client.image("small", str(next(fresh)), patched)
            pushed += 1
            if not kept:
                client.line.close()
                client = Client(port)
        client.line.close()
        return pushed

    with concurrent.futures.ThreadPoolExecutor(clients) as pool:
        return sum(pool.map(push, range(clients))) / (time.monotonic() - begin)

memory = []
peer = large(theirs)
memory.clear()
mine = large(ours)
print(f"a blob of {megabytes} MB: {megabytes / mine:.0f} MB/s, {megabytes / (mine - hashing):.0f} without SHA-256 ({hashing * 1000:.0f} ms), docker-registry {megabytes / peer:.0f}")
print(f"memory: {max(memory)} KB")
# The files of such an image, each written, synced and renamed, and its folder synced, as the folder above each new one is; and what a
# push removes at its end.
def sync(folder):
    handle = os.open(folder, os.O_RDONLY)
    os.fsync(handle)
    os.close(handle)

def made(folder):
    if not os.path.isdir(folder):
        made(os.path.dirname(folder))
        with contextlib.suppress(FileExistsError):
            os.mkdir(folder)
        sync(os.path.dirname(folder))

def synced(path, content):
    made(os.path.dirname(path))
    with open(path + ".new", "wb") as file:
        file.write(content)
        file.flush()
        os.fsync(file.fileno())
    os.rename(path + ".new", path)
    sync(os.path.dirname(path))

def files(number):
    for part in range(5):
        name = digest(b"%d of %d" % (part, number))[7:]
        synced(f"{work}/alone/uploads/{name}/startedat", b"now")
        synced(f"{work}/alone/blobs/{name[:2]}/{name}/data", b"small")
        synced(f"{work}/alone/layers/{name}/link", name.encode())
        os.remove(f"{work}/alone/uploads/{name}/startedat")
        sync(f"{work}/alone/uploads/{name}")
    name = digest(b"%d" % number)[7:]
    synced(f"{work}/alone/blobs/{name[:2]}/{name}/data", b"manifest")
    for path in f"revisions/{name}/link", f"tags/v{number}/index/{name}/link", f"tags/v{number}/current/link":
        synced(f"{work}/alone/{path}", name.encode())

# Images a second of so many that sync side by side.
def alone(workers, seconds):
    begin, pushed = time.monotonic(), itertools.count()

    def push(_):
        while time.monotonic() - begin < seconds:
            files(next(fresh))
            next(pushed)

    with concurrent.futures.ThreadPoolExecutor(workers) as pool:
        list(pool.map(push, range(workers)))
    return next(pushed) / (time.monotonic() - begin)

fresh = itertools.count()
WAYS = {
    "in a PATCH, a connection an image": (True, 1, False),
    "with its PUT, a connection an image": (False, 1, False),
    "with its PUT, all on one connection": (False, 1, True),
    "with its PUT, four clients": (False, 4, True),
}
# The three in turns, since how long a disk syncs changes from second to second.
for way, how in WAYS.items():
    turns = [(small(ours, *how), small(theirs, *how), alone(how[1], SECONDS)) for turn in range(5)]
    mine, peer, bound = (statistics.median(rates) for rates in zip(*turns))
    print(f"images of five small blobs, each {way}: {mine:.1f} a second, docker-registry {peer:.1f}, the syncs alone {bound:.1f}")
PYTHON
