#!/bin/sh
# Runs kdb_tool with its standard streams closed, in all seven ways, on create, admin and destroy, and looks
# at the status, the files and the database afterwards. It also looks at the files' permissions, at a folder
# without a database, at two creations at once, and, where strace is there, at the descriptors in use, at
# the syncs of a creation, and at the writes and syncs of a change.
# Usage: bench/streams.sh. Prints a line for each of these; status 1 where one is wrong.
set -eu
root=$(CDPATH='' cd -- "$(dirname -- "$0")/.." && pwd)
program=${KDB_TOOL:-$root/crates/kdb_tool/out/kdb_tool}
[ -x "$program" ] || { echo "build $program first: ./kdb_tool" >&2; exit 1; }
work=$(mktemp -d)
trap 'rm -rf "$work"' EXIT
python3 - "$program" "$work" <<'END'
import itertools, os, re, shutil, subprocess, sys

program, work = os.path.abspath(sys.argv[1]), sys.argv[2]
NAMES = ["control", "image.0", "image.1", "log.0", "log.1", "stash.0", "stash.1"]
STREAMS = {0: "input", 1: "output", 2: "error"}
WAYS = [way for n in (1, 2, 3) for way in itertools.combinations(STREAMS, n)]
wrong = 0

def run(words, text=b"", closed=(), before=()):
    def close():
        for number in closed:
            os.close(number)
    return subprocess.run([*before, program, *words], cwd=work, input=text, capture_output=True, preexec_fn=close)

def clear():
    for name in os.listdir(work):
        os.remove(os.path.join(work, name))

def tell(what, found, wanted):
    global wrong
    good = found == wanted
    wrong += not good
    print(f"{what:<56} {'ok' if good else f'WRONG: {found}, and {wanted} is wanted'}")

def made():
    clear()
    assert run(["create", "EXAMPLE.ORG"]).returncode == 0

def replies(text):
    return re.sub(r"(ok \d+) .*", r"\1", run(["admin"], text).stdout.decode()).splitlines()

for way in WAYS:
    closed = " and ".join(STREAMS[number] for number in way)
    clear()
    made_so = run(["create", "EXAMPLE.ORG"], closed=way)
    tell(f"create, {closed} closed", (made_so.returncode, replies(b"addprinc -nokey b\n")), (72 if 1 in way else 0, ["ok 2"]))
    made()
    changed = run(["admin"], b"addprinc -nokey a\n", way)
    status = 71 if 0 in way else 72 if 1 in way else 0
    # A line that was read is done, though its reply could not be written.
    there = ["err 3 Duplicate", "ok 3"] if 0 not in way else ["ok 2", "ok 3"]
    tell(f"admin, {closed} closed", (changed.returncode, replies(b"addprinc -nokey a\naddprinc -nokey b\n")), (status, there))
    made()
    ended = run(["destroy"], closed=way)
    tell(f"destroy, {closed} closed", (ended.returncode, replies(b"")), (72 if 1 in way else 0, ["err 20 NotADatabase"]))
    for word, text in (("--help", b"usage:"), ("--version", b"kdb_tool ")):
        told = run([word], closed=way)
        tell(f"{word}, {closed} closed", (told.returncode, text in told.stdout), (72, False) if 1 in way else (0, True))

clear()
for words in ("admin", "destroy", "frob", "create EXAMPLE_ORG", "--help", "", "dump", "load", "kproplog", "kproplog -R",
              "report keys", "ktadd a", "ktadd -norandkey a", "ktremove a all", "generate 1 2", "add_mkey", "use_mkey 1",
              "list_mkeys", "purge_mkeys -f", "stash", "update_princ_encryption -f"):
    run(words.split(), b"addprinc -nokey a\n")
    tell(f"files after {words or 'no words'}", os.listdir(work), [])

os.umask(0)
made()
run(["admin"], b"addprinc -nokey a\n")
modes = {name: oct(os.stat(os.path.join(work, name)).st_mode & 0o7777) for name in os.listdir(work)}
tell("permissions of new files", set(modes.values()), {"0o600"})
for name in modes:
    os.chmod(os.path.join(work, name), 0o644)
for _ in range(2):
    run(["admin"], b"modprinc -maxlife 1h a\n")
wide = {name for name in ("image.0", "log.0") if os.stat(os.path.join(work, name)).st_mode & 0o77}
tell("permissions of files that others could read, written", wide, set())

both = 0
for _ in range(40):
    clear()
    two = [subprocess.Popen([program, "create", "EXAMPLE.ORG"], cwd=work, stdout=subprocess.PIPE) for _ in range(2)]
    both += sum(it.wait() == 0 for it in two) != 1
tell("two creations at once, of which one is done", both, 0)

if shutil.which("strace"):
    traced = os.path.join(work, "..", os.path.basename(work) + ".trace")
    for way in [(), *WAYS]:
        made()
        before = ["strace", "-f", "-y", "-o", traced, "-e", "trace=pread64,pwrite64,ftruncate,fdatasync,fsync,flock,fchmod,read,write"]
        # strace itself keeps its streams; the program behind it is run by a shell that closes them.
        shut = " ".join({0: "<&-", 1: ">&-", 2: "2>&-"}[number] for number in way)
        subprocess.run([*before, "sh", "-c", f'exec "$0" "$@" {shut}', program, "admin"], cwd=work, input=b"addprinc -nokey a\n", capture_output=True)
        # The loader reads its own files under whatever numbers are free.
        low = [line for line in open(traced) if re.search(r"\b[a-z0-9]+\([012]<" + re.escape(os.path.realpath(work)), line)]
        tell(f"descriptors below 3, {' and '.join(STREAMS[number] for number in way) or 'none'} closed", low, [])
        if not way:
            calls = [re.search(r"\b([a-z0-9]+)\(", line)[1] for line in open(traced) if re.search(r"\b(pwrite64|fdatasync|fsync)\(", line)]
            tell("a sync after the last write of a change", calls[-1] if calls else "no call", "fdatasync")
    # Over a new database an empty input makes so many calls; each change makes four writes and four syncs more.
    counts = []
    for text in (b"", b"addprinc -nokey c\n", b"addprinc -nokey c\naddprinc -nokey d\n"):
        made()
        subprocess.run([*before, program, "admin"], cwd=work, input=text, capture_output=True)
        calls = [re.search(r"\b([a-z0-9]+)\(", line)[1] for line in open(traced) if re.search(r"\b(pwrite64|fdatasync)\(\d+<" + re.escape(os.path.realpath(work)), line)]
        counts.append((calls.count("pwrite64"), calls.count("fdatasync")))
    tell("writes and syncs of a change, and of the next", [(a[0] - b[0], a[1] - b[1]) for a, b in zip(counts[1:], counts)], [(4, 4), (4, 4)])
    clear()
    subprocess.run([*before, program, "create", "EXAMPLE.ORG"], cwd=work, capture_output=True)
    found = (re.search(r"\b(pwrite64|fdatasync|fsync)\(\d+<([^>]+)>", line) for line in open(traced))
    calls = [it.groups() for it in found if it]
    here = os.path.realpath(work)
    written = sorted({path for call, path in calls if call == "pwrite64" and path.startswith(here)})
    last = {path: max(at for at, it in enumerate(calls) if it == ("pwrite64", path)) for path in written}
    first = {path: calls.index(("pwrite64", path)) for path in written}
    tell("a creation writes files", len(written) >= 2, True)
    tell("files of a creation not synced behind their last write", [path for path in written if ("fdatasync", path) not in calls[last[path]:]], [])
    tell("files of a creation behind the folder's last sync", [path for path in written if ("fsync", here) not in calls[first[path]:]], [])
    os.remove(traced)
print("all as wanted" if not wrong else f"{wrong} wrong")
sys.exit(wrong != 0)
END
