#!/usr/bin/env bash
# Clients that push to `once`, pull from it and delete, one run a connection, behind socat on the loopback address. Images are made
# here: one of OCI, one of Docker's schema 2, an index of two images, and an artifact with an empty configuration.
#   skopeo    copies each to the registry and back, and compares every file; deletes one by its tag
#   buildah   pulls the OCI image, and pushes it under another name
#   curl      uploads a blob in pieces, is cut inside one, asks where the upload ends, and goes on from there; mounts, deletes
#   registry  Debian's docker-registry serves what `once` wrote, and `once` what docker-registry wrote: skopeo pulls the same digests
# Ends with status 1 where an answer is not the one expected. Needs curl, socat, skopeo, buildah and docker-registry, which are
# packages of Debian. All files are below a temporary directory, which is removed at the end. Build the program first: `make demo`.
#     bench/pushes.sh PROGRAM
# shellcheck source=bench/timing.sh
. "$(dirname "$0")/timing.sh"
program=$(program_at "${1:?"the built program registry"}") || fail "no program: $1"
for tool in curl socat skopeo buildah docker-registry; do
    command -v "$tool" > /dev/null || fail "no $tool"
done

# Images as folders of skopeo (`dir:`), each with its manifest and blobs.
python3 - "$work" <<'PYTHON'
import gzip, hashlib, io, json, os, sys, tarfile
work = sys.argv[1]

def digest(content):
    return "sha256:" + hashlib.sha256(content).hexdigest()

class Image:
    def __init__(self, name):
        self.folder = f"{work}/{name}"
        os.makedirs(self.folder)
        self.write("version", b"Directory Transport Version: 1.1\n")

    def write(self, name, content):
        with open(f"{self.folder}/{name}", "wb") as file:
            file.write(content)

    def blob(self, kind, content):
        self.write(digest(content)[7:], content)
        return {"mediaType": kind, "digest": digest(content), "size": len(content)}

    def manifest(self, value, name="manifest.json"):
        content = json.dumps(value).encode()
        self.write(name, content)
        return content

def layer(name, content):
    files = io.BytesIO()
    with tarfile.open(fileobj=files, mode="w") as tar:
        entry = tarfile.TarInfo(name)
        entry.size = len(content)
        tar.addfile(entry, io.BytesIO(content))
    return gzip.compress(files.getvalue(), mtime=0), digest(files.getvalue())

def config(machine, difference):
    return json.dumps({"architecture": machine, "os": "linux", "config": {}, "rootfs": {"type": "layers", "diff_ids": [difference]}}).encode()

OCI = "application/vnd.oci.image"
DOCKER = "application/vnd.docker"

def oci(image, machine, name="manifest.json"):
    packed, difference = layer("hello", f"hello {machine}\n".encode())
    return image.manifest({
        "schemaVersion": 2, "mediaType": f"{OCI}.manifest.v1+json",
        "config": image.blob(f"{OCI}.config.v1+json", config(machine, difference)),
        "layers": [image.blob(f"{OCI}.layer.v1.tar+gzip", packed)]}, name)

oci(Image("oci"), "amd64")

docker = Image("docker")
packed, difference = layer("world", b"world\n")
docker.manifest({
    "schemaVersion": 2, "mediaType": f"{DOCKER}.distribution.manifest.v2+json",
    "config": docker.blob(f"{DOCKER}.container.image.v1+json", config("amd64", difference)),
    "layers": [docker.blob(f"{DOCKER}.image.rootfs.diff.tar.gzip", packed)]})

index = Image("index")
machines = []
for machine in "amd64", "arm64":
    content = oci(index, machine, "part")
    os.rename(f"{index.folder}/part", f"{index.folder}/{digest(content)[7:]}.manifest.json")
    machines.append({"mediaType": f"{OCI}.manifest.v1+json", "digest": digest(content), "size": len(content),
                     "platform": {"architecture": machine, "os": "linux"}})
index.manifest({"schemaVersion": 2, "mediaType": f"{OCI}.index.v1+json", "manifests": machines})

artifact = Image("artifact")
artifact.manifest({
    "schemaVersion": 2, "mediaType": f"{OCI}.manifest.v1+json",
    "config": artifact.blob("application/vnd.oci.empty.v1+json", b"{}"),
    "layers": [artifact.blob("application/octet-stream", b"hello")]})

with open(f"{work}/blob", "wb") as file:
    file.write(os.urandom(1_000_000))
PYTHON

mkdir "$work/depot" "$work/theirs"
ours=$(free_port)
socat "TCP-LISTEN:$ours,bind=127.0.0.1,reuseaddr,fork,max-children=32" "EXEC:$program once --root $work/depot" 2> /dev/null &
listeners=($!)
trap 'kill "${listeners[@]}" 2> /dev/null || true; chmod -R u+rwX "$work"; rm -rf "$work"' EXIT
until_up "$ours"
here=http://127.0.0.1:$ours/v2
oci=application/vnd.oci.image.manifest.v1+json
ask() { timeout 20 curl -sS --max-time 10 "$@"; }
expect() { [ "$2" = "$3" ] || fail "$1: $2 in place of $3"; echo "$1: as expected"; }
copy() { timeout 60 skopeo copy --quiet --all --preserve-digests --src-tls-verify=false --dest-tls-verify=false "$@"; }
digest_of() { echo "sha256:$(sha256sum < "$1" | cut -d' ' -f1)"; }

# Whether a registry gives a whole image as it was made.
same_image() {
    rm -rf "$work/back"
    copy "docker://$1" "dir:$work/back" || fail "$1: no copy"
    diff -r "$work/back" "$work/$2" > /dev/null || fail "$1: another image than $2"
}

# ---- skopeo, there and back
for kind in oci docker index artifact; do
    copy "dir:$work/$kind" "docker://127.0.0.1:$ours/library/$kind:v1" || fail "skopeo: no push of $kind"
    same_image "127.0.0.1:$ours/library/$kind:v1" $kind
    same_image "127.0.0.1:$ours/library/$kind@$(digest_of "$work/$kind/manifest.json")" $kind
    echo "skopeo, $kind there and back: as expected"
done
copy "dir:$work/oci" "docker://127.0.0.1:$ours/library/oci:v1" || fail "skopeo: no second push"
copy "docker://127.0.0.1:$ours/library/oci:v1" "docker://127.0.0.1:$ours/other/oci:v1" || fail "skopeo: no copy to another repository"
same_image "127.0.0.1:$ours/other/oci:v1" oci
timeout 20 skopeo delete --tls-verify=false "docker://127.0.0.1:$ours/other/oci:v1" || fail "skopeo: no delete"
expect "skopeo, a manifest that was deleted" "$(ask -o /dev/null -w '%{http_code}' "$here/other/oci/manifests/v1")" 404

# ---- buildah
build() { timeout 60 buildah --root "$work/images" --runroot "$work/run" --storage-driver vfs "$@"; }
build pull --quiet --tls-verify=false "docker://127.0.0.1:$ours/library/oci:v1" > /dev/null || fail "buildah: no pull"
build push --quiet --tls-verify=false "127.0.0.1:$ours/library/oci:v1" "docker://127.0.0.1:$ours/built/oci:v1" || fail "buildah: no push"
expect "buildah, there and back" "$(ask -H "Accept: $oci" -o /dev/null -w '%{http_code}' "$here/built/oci/manifests/v1")" 200

# ---- curl, in pieces
digest=$(digest_of "$work/blob")
at=$(ask -X POST -o /dev/null -w '%header{location}' "$here/pieces/blobs/uploads/")
at=http://127.0.0.1:$ours$at
expect "curl, the first piece" "$(head -c 400000 "$work/blob" | ask -X PATCH --data-binary @- -H 'Content-Type: application/octet-stream' -H 'Content-Range: 0-399999' -o /dev/null -w '%{http_code}' "$at")" 202
# The connection ends inside the second piece: 300,000 bytes of it were promised, and 123,456 come.
{
    printf 'PATCH /v2/%s HTTP/1.1\r\nHost: r\r\nContent-Range: 400000-699999\r\nContent-Length: 300000\r\n\r\n' "${at#*/v2/}"
    head -c 523456 "$work/blob" | tail -c 123456
} | timeout 20 socat - "TCP:127.0.0.1:$ours" > /dev/null
end=$(ask -o /dev/null -w '%header{range}' "$at")
expect "curl, where the upload ends" "$end" "0-523455"
expect "curl, a piece that begins elsewhere" \
    "$(tail -c +400001 "$work/blob" | ask -X PATCH --data-binary @- -H 'Content-Type: application/octet-stream' -H 'Content-Range: 400000-999999' -o /dev/null -w '%{http_code}' "$at")" 416
expect "curl, the rest" \
    "$(tail -c +523457 "$work/blob" | ask -X PATCH --data-binary @- -H 'Content-Type: application/octet-stream' -H 'Content-Range: 523456-999999' -H 'Transfer-Encoding: chunked' -o /dev/null -w '%{http_code}' "$at")" 202
expect "curl, another digest" "$(ask -X PUT -o /dev/null -w '%{http_code}' "$at?digest=sha256:${digest:8}0")" 400
expect "curl, the digest" "$(ask -X PUT -o /dev/null -w '%{http_code}' "$at?digest=$digest")" 201
ask -o "$work/pulled" "$here/pieces/blobs/$digest"
cmp "$work/pulled" "$work/blob" || fail "curl: another blob"
expect "curl, a mount" "$(ask -X POST -o /dev/null -w '%{http_code}' "$here/mounted/blobs/uploads/?mount=$digest&from=pieces")" 201
expect "curl, the blob in the other repository" "$(ask -I -o /dev/null -w '%{http_code}' "$here/mounted/blobs/$digest")" 200
expect "curl, its delete" "$(ask -X DELETE -o /dev/null -w '%{http_code}' "$here/mounted/blobs/$digest")" 202
expect "curl, the blob that was deleted" "$(ask -I -o /dev/null -w '%{http_code}' "$here/mounted/blobs/$digest")" 404
expect "curl, a push that waits to be told to go on" \
    "$(ask -T "$work/oci/manifest.json" -H 'Expect: 100-continue' -H "Content-Type: $oci" -o /dev/null -w '%{http_code}' "$here/library/oci/manifests/v2")" 201
expect "curl, a manifest whose blobs are elsewhere" \
    "$(ask -T "$work/oci/manifest.json" -H "Content-Type: $oci" -o /dev/null -w '%{http_code}' "$here/nobody/manifests/v2")" 400

# ---- docker-registry, over one's depot and the other's
serve_theirs() {
    local there
    there=$(free_port)
    cat > "$work/config.yml" <<YAML
version: 0.1
storage:
  filesystem: {rootdirectory: $1}
  delete: {enabled: true}
http: {addr: "127.0.0.1:$there"}
YAML
    docker-registry serve "$work/config.yml" > "$work/log" 2>&1 &
    listeners+=($!)
    until_up "$there"
    theirs=$there
}
serve_theirs "$work/depot"
for kind in oci docker index artifact; do
    same_image "127.0.0.1:$theirs/library/$kind:v1" $kind
done
echo "docker-registry serves what once wrote: as expected"
serve_theirs "$work/theirs"
for kind in oci docker index artifact; do
    copy "dir:$work/$kind" "docker://127.0.0.1:$theirs/library/$kind:v1" || fail "docker-registry: no push of $kind"
done
mv "$work/depot" "$work/before"
mv "$work/theirs" "$work/depot"
for kind in oci docker index artifact; do
    same_image "127.0.0.1:$ours/library/$kind:v1" $kind
done
echo "once serves what docker-registry wrote: as expected"
