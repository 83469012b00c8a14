#!/usr/bin/env bash
# Kills the program 200 times, or as often as is given, at most 200 milliseconds after it began to put small files or
# to upload, and looks each time at what stands: every file is whole, as before or as asked, every one that was
# acknowledged is there, and of an upload that was cut a front is staged. Then what fails: files that may not grow, as
# on a full disk; folders without permission, tried as an ordinary user, as nobody where the script runs as root;
# files where folders should be, and folders where files should be. The call is told as failed, nothing else is lost,
# nothing is left over, and the next call works. Ends with status 1 where it is otherwise. The folders are made below
# a temporary directory and are removed at the end. Build the program first: `rt run` in crates/disk_writes.
#     bench/kills.sh PROGRAM [RUNS]
# shellcheck source=bench/timing.sh
. "$(dirname "$0")/timing.sh"
program=$(program_at "${1:?"the built program disk_writes"}") || fail "no program: $1"
cp "$program" "$work/program"
chmod 755 "$work" "$work/program"

python3 - "$work" "${2:-200}" <<'PYTHON' || fail "not as it should be"
import os, random, shutil, subprocess, sys, time
work, runs = sys.argv[1], int(sys.argv[2])
program = f"{work}/program"

def small(n):
    return f"{n}\n".encode() * 200

def whole(n):
    return small(n) * 8

def read(path):
    try:
        with open(f"{work}/{path}", "rb") as file:
            return file.read()
    except FileNotFoundError:
        return None

def write(path, content):
    os.makedirs(os.path.dirname(f"{work}/{path}"), exist_ok=True)
    with open(f"{work}/{path}", "wb") as file:
        file.write(content)

def names(path):
    return sorted(os.listdir(f"{work}/{path}")) if os.path.isdir(f"{work}/{path}") else []

def expect(what, found, expected):
    if found != expected:
        sys.exit(f"{what}: {str(found)[:90]} in place of {str(expected)[:90]}")

# Starts a command from a number on, kills it, and gives the number behind the last that was acknowledged.
def killed(command, first):
    with subprocess.Popen([program, command, f"{work}/depot", str(first), "1000000"], stdout=subprocess.PIPE) as run:
        time.sleep(random.uniform(0.001, 0.2))
        run.kill()
        told = run.stdout.read().decode().split("\n")[:-1]
    expect(f"{command} from {first}", told, [str(first + k) for k in range(len(told))])
    return first + len(told)

os.mkdir(f"{work}/depot")
stands = [None] * 16
cut = {}

def kill_put(first):
    asked = killed("put", first)
    for n in range(first, asked):
        stands[n % 16] = small(n)
    for k in range(16):
        found = read(f"depot/s/{k}")
        if asked % 16 == k and found == small(asked):
            stands[k] = found
        expect(f"s/{k}, put up to {asked}", found, stands[k])
    return asked

# What an upload has once it is whole: behind what was staged of it before.
def due(n):
    return cut.get(n, b"") + whole(n)

def check_uploads(first, asked):
    for n in range(first, asked):
        expect(f"b/{n}", (read(f"depot/b/{n}/data"), read(f"depot/u/{n}/data")), (due(n), None))

def kill_upload(first):
    asked = killed("upload", first)
    check_uploads(first, asked)
    staged, placed = read(f"depot/u/{asked}/data"), read(f"depot/b/{asked}/data")
    if staged is None:
        expect(f"b/{asked}, which was not acknowledged", placed in (None, due(asked)), True)
        return asked if placed is None else asked + 1
    expect(f"u/{asked}, which was cut", (staged, placed), (due(asked)[:len(staged)], None))
    cut[asked] = staged
    return asked

puts = uploads = 1000
for run in range(runs):
    if run % 2 == 0:
        puts = kill_put(puts) + 1
    else:
        uploads = kill_upload(uploads)
check_uploads(1000, uploads)
expect("the names in s", [name for name in names("depot/s") if name not in map(str, range(16))], [])
print(f"{runs} kills: {puts - 1000} files put, {uploads - 1000} uploaded, none lost or torn;",
      f"{len(cut)} uploads cut, and gone on with; {len(names('depot/.unnamed'))} files left over")

# What a command tells, run by a shell that was told this before.
def told(before, *arguments):
    nobody = ["setpriv", "--reuid", "65534", "--regid", "65534", "--clear-groups"] if os.getuid() == 0 else []
    run = [*nobody, "bash", "-c", f"{before}\nexec \"$@\"", "bash", program, *map(str, arguments)]
    lines = subprocess.run(run, stdout=subprocess.PIPE, check=True).stdout.decode().split("\n")
    expect("left over", names(f"{os.path.basename(arguments[1])}/.unnamed"), [])
    return lines[:-1]

def make(depot):
    os.mkdir(f"{work}/{depot}")
    if os.getuid() == 0:
        os.chown(f"{work}/{depot}", 65534, 65534)
    return f"{work}/{depot}"

# A file may have this many KB at most.
def limit(kilobytes):
    return f"trap '' XFSZ; ulimit -f {kilobytes}"

full = make("full")
expect("a full disk", told(limit(1), "put", full, 9998, 4), ["9998", "9999", "failed 10000", "failed 10001"])
expect("what was put", [read(f"full/s/{n % 16}") for n in range(9998, 10002)], [small(9998), small(9999), None, None])
expect("an upload to it", told(limit(3), "upload", full, 7, 1), ["failed 7"])
expect("what is staged", read("full/u/7/data"), whole(7)[:3 << 10])
expect("behind it", (told(":", "put", full, 10000, 1), read("full/s/0")), (["10000"], small(10000)))
expect("and on", (told(":", "upload", full, 7, 1), read("full/b/7/data")), (["7"], whole(7)[:3 << 10] + whole(7)))

if os.getuid() == 0 and shutil.which("setpriv") is None:
    print("full disk: told; no setpriv, so no folder without permission is tried")
else:
    locked = make("locked")
    expect("before", told(":", "put", locked, 1, 16), [str(n) for n in range(1, 17)])
    expect("and an upload", told(":", "upload", locked, 1, 1), ["1"])
    for folder in "s", "u", "b":
        os.chmod(f"{locked}/{folder}", 0o555)
    expect("a locked folder", told(":", "put", locked, 17, 2), ["failed 17", "failed 18"])
    expect("what stands", [read(f"locked/s/{n % 16}") for n in range(1, 17)], [small(n) for n in range(1, 17)])
    expect("no place to stage", told(":", "upload", locked, 2, 1), ["failed 2"])
    os.chmod(f"{locked}/u", 0o755)
    expect("no place to place", told(":", "upload", locked, 2, 1), ["failed 2"])
    expect("what is staged", read("locked/u/2/data"), whole(2))
    os.chmod(f"{locked}/s", 0o755)
    os.chmod(f"{locked}/b", 0o755)
    expect("unlocked", told(":", "put", locked, 17, 1) + told(":", "place", locked, 2), ["17", "2"])
    stand = [read(f"locked/{at}") for at in ("s/1", "b/1/data", "b/2/data")]
    expect("then", stand, [small(17), whole(1), whole(2)])

    taken = make("taken")
    write("taken/u/7", b"a file")
    write("taken/s/3/file", b"below a folder")
    if os.getuid() == 0:
        for folder, _, _ in os.walk(taken):
            os.chown(folder, 65534, 65534)
    expect("a file for a folder", told(":", "upload", taken, 6, 3), ["6", "failed 7", "8"])
    expect("a folder for a file", told(":", "put", taken, 2, 3), ["2", "failed 3", "4"])
    stand = [read(f"taken/{at}") for at in ("u/7", "s/3/file", "b/6/data", "b/8/data", "s/2", "s/4")]
    expect("what stands", stand, [b"a file", b"below a folder", whole(6), whole(8), small(2), small(4)])
    print("full disk, folders without permission, files and folders for each other: told, and nothing lost")
PYTHON
