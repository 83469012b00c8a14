#!/usr/bin/env bash
# Clients that pull from `once`, one run a connection, behind socat on the loopback address: curl each endpoint, with three requests
# on one connection, HEAD, a part of a list of tags, a body that nobody wants, and a request that waits to be told to go on; skopeo the
# tags, the manifest and the configuration of an image, and a copy of it, whose files are compared with those of the depot.
# Ends with status 1 where an answer is not the one expected. Needs curl, socat and skopeo, which are packages of Debian.
# The depot is made below a temporary directory and is removed at the end. Build the program first: `make demo`.
#     bench/clients.sh PROGRAM
# shellcheck source=bench/timing.sh
. "$(dirname "$0")/timing.sh"
program=$(program_at "${1:?"the built program registry"}") || fail "no program: $1"
for tool in curl socat skopeo; do
    command -v "$tool" > /dev/null || fail "no $tool"
done

# An image of a configuration and one layer, in the repository `library/hello`, with the tags v1 and v2.
python3 - "$work" <<'PYTHON'
import gzip, hashlib, io, json, os, sys, tarfile
work = sys.argv[1]
top = f"{work}/depot/docker/registry/v2"
repository = f"{top}/repositories/library/hello"

def write(path, content):
    os.makedirs(os.path.dirname(path), exist_ok=True)
    with open(path, "wb") as file:
        file.write(content)

def put(content, folder):
    digits = hashlib.sha256(content).hexdigest()
    write(f"{top}/blobs/sha256/{digits[:2]}/{digits}/data", content)
    write(f"{repository}/{folder}/sha256/{digits}/link", f"sha256:{digits}".encode())
    return digits

def descriptor(kind, content):
    return {"mediaType": kind, "digest": f"sha256:{put(content, '_layers')}", "size": len(content)}

files = io.BytesIO()
with tarfile.open(fileobj=files, mode="w") as tar:
    entry = tarfile.TarInfo("hello")
    entry.size = 6
    tar.addfile(entry, io.BytesIO(b"hello\n"))
layer = gzip.compress(files.getvalue(), mtime=0)
difference = "sha256:" + hashlib.sha256(files.getvalue()).hexdigest()
config = json.dumps({"architecture": "amd64", "os": "linux", "config": {}, "rootfs": {"type": "layers", "diff_ids": [difference]}}).encode()
manifest = json.dumps({
    "schemaVersion": 2, "mediaType": "application/vnd.oci.image.manifest.v1+json",
    "config": descriptor("application/vnd.oci.image.config.v1+json", config),
    "layers": [descriptor("application/vnd.oci.image.layer.v1.tar+gzip", layer)]}).encode()
digits = put(manifest, "_manifests/revisions")
for tag in "v1", "v2":
    write(f"{repository}/_manifests/tags/{tag}/current/link", f"sha256:{digits}".encode())
for name, content in ("manifest", manifest), ("config", config), ("layer", layer):
    write(f"{work}/{name}", content)
PYTHON
digest=sha256:$(sha256sum < "$work/manifest" | cut -d' ' -f1)
layer=sha256:$(sha256sum < "$work/layer" | cut -d' ' -f1)

port=$(free_port)
socat "TCP-LISTEN:$port,bind=127.0.0.1,reuseaddr,fork,max-children=32" "EXEC:$program once --root $work/depot" 2> /dev/null &
# A client that tries TLS first gets a refusal, and the run that gave it ends with status 10, of which socat would tell.
listener=$!
trap 'kill "$listener" 2> /dev/null || true; rm -rf "$work"' EXIT
until_up "$port"

here=http://127.0.0.1:$port/v2
ask() { timeout 20 curl -sS --max-time 10 "$@"; }
expect() { [ "$2" = "$3" ] || fail "$1: $2 in place of $3"; echo "$1: as expected"; }

expect "curl, the base" "$(ask "$here/")" "{}"
ask -o "$work/pulled" "$here/library/hello/manifests/v1"
cmp "$work/pulled" "$work/manifest" || fail "curl: another manifest"
ask -o "$work/pulled" "$here/library/hello/blobs/$layer"
cmp "$work/pulled" "$work/layer" || fail "curl: another blob"
expect "curl, tags" "$(ask "$here/library/hello/tags/list?n=1")" '{"name":"library/hello","tags":["v1"]}'
expect "curl, an unknown tag" "$(ask -o /dev/null -w '%{http_code}' "$here/library/hello/manifests/v3")" 404
expect "curl, HEAD" "$(ask -I -o /dev/null -w '%{http_code} %header{docker-content-digest}' "$here/library/hello/manifests/v1")" "200 $digest"
expect "curl, three requests on one connection" \
    "$(ask -o /dev/null -o /dev/null -o /dev/null -w '%{num_connects} ' "$here/" "$here/library/hello/tags/list" "$here/nowhere")" "1 0 0 "
expect "curl, a body that nobody wants" "$(ask -X GET --data-binary "@$work/layer" -o /dev/null -w '%{http_code}' "$here/")" 200
expect "curl, a push that waits" \
    "$(ask -T "$work/manifest" -H 'Expect: 100-continue' -o /dev/null -w '%{http_code}' "$here/library/hello/manifests/v3")" 201

image=127.0.0.1:$port/library/hello
look() { timeout 20 skopeo inspect --tls-verify=false "$@"; }
look --raw "docker://$image:v1" > "$work/pulled" || fail "skopeo: no manifest"
cmp "$work/pulled" "$work/manifest" || fail "skopeo: another manifest"
expect "skopeo, the digest" "$(look --format '{{.Digest}} {{.RepoTags}}' "docker://$image:v2")" "$digest [v1 v2 v3]"
look --config --raw "docker://$image@$digest" > "$work/pulled" || fail "skopeo: no configuration"
cmp "$work/pulled" "$work/config" || fail "skopeo: another configuration"
timeout 20 skopeo copy --quiet --src-tls-verify=false "docker://$image:v1" "dir:$work/copy" || fail "skopeo: no copy"
cmp "$work/copy/manifest.json" "$work/manifest" || fail "skopeo: another manifest in the copy"
cmp "$work/copy/${layer#sha256:}" "$work/layer" || fail "skopeo: another layer in the copy"
echo "skopeo, a copy of the image: as expected"
