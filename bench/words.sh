#!/bin/sh
# The seconds that words of kdb_tool take over great databases in a real folder: `update_princ_encryption` of 10000
# names, and `dump`, `load` and `report keys` of 100000 principals with two keys each; and how long a replica takes
# to load such a dump (iprop_bench). Each figure is the time by the clock of a whole run, and the best of three.
# That of an opening is the processor's time, beside that of reading the file of rows alone; and the most memory that
# it takes, with the index and the log, beside what the same rows take that krb_bench reads from their dump.
# Where MIT's kadmin.local and kdb5_util are installed, kdb5_util does the same over a realm of its own with an
# update log, and a ratio above 1 says that kdb_tool was the faster one.
# A database of 100000 rows has 1.6 GB, and a load needs twice that beside it.
# Usage: bench/words.sh [ROWS [NAMES]]   (100000 and 10000 unless given).
set -eu
root=$(CDPATH='' cd -- "$(dirname -- "$0")/.." && pwd)
program=${KDB_TOOL:-$root/crates/kdb_tool/out/kdb_tool}
replica=${IPROP_BENCH:-$root/crates/iprop_bench/out/iprop_bench}
holder=${KRB_BENCH:-$root/crates/krb_bench/out/krb_bench}
[ -x "$program" ] || { echo "build $program first: ./kdb_tool" >&2; exit 1; }
[ -x "$replica" ] || { echo "build $replica first: rt run in crates/iprop_bench" >&2; exit 1; }
[ -x "$holder" ] || { echo "build $holder first: rt run in crates/krb_bench" >&2; exit 1; }
exec python3 -B - "$program" "$replica" "$holder" "$root/bench" "${1:-100000}" "${2:-10000}" <<'END'
import os, subprocess, sys, tempfile, time

program, replica, holder = (os.path.abspath(word) for word in sys.argv[1:4])
sys.path.insert(0, sys.argv[4])
rows, names = int(sys.argv[5]), int(sys.argv[6])
import mit_realm

REALM = mit_realm.REALM
TURNS = 3
beside = mit_realm.is_installed()


def run(words, folder, source=None, to=subprocess.PIPE):
    """What was written, and the seconds that it took by the clock."""
    start = time.monotonic()
    done = subprocess.run([program, *words], cwd=folder, stdin=source or subprocess.DEVNULL, stdout=to)
    taken = time.monotonic() - start
    if done.returncode != 0:
        sys.exit("%s: status %d: %r" % (words[0], done.returncode, (done.stdout or b"")[-200:]))
    return done.stdout, taken


def run_to(words, folder, name):
    """The seconds of a run that writes into a file of the folder above."""
    with open(os.path.join(folder, "..", name), "wb") as file:
        return run(words, folder, to=file)[1]


def load(folder, dump):
    with open(dump, "rb") as source:
        return run(["load"], folder, source)[1]


def filled(room, count):
    """A database of so many principals n000000, n000001 and so on beside those of its creation, each with the keys of
    one, and its dump: their names are behind those of the creation."""
    folder, dump = os.path.join(room, "database"), os.path.join(room, "whole")
    os.mkdir(folder)
    run(["create", REALM], folder)
    subprocess.run([program, "admin"], cwd=folder, input=b"addprinc -randkey n000000\n", check=True, stdout=subprocess.DEVNULL)
    *lines, row, end = run(["dump"], folder)[0].decode().splitlines()
    name = ("n000000@" + REALM).encode().hex()
    assert name in row and end == "end %d" % (len(lines) - 2), row
    with open(dump, "w") as file:
        file.writelines(line + "\n" for line in lines)
        file.writelines(row.replace(name, ("n%06d@%s" % (number, REALM)).encode().hex(), 1) + "\n" for number in range(count))
        file.write("end %d\n" % (len(lines) - 3 + count))
    load(folder, dump)
    return folder, dump


def best(turn):
    return min(turn() for _ in range(TURNS))


def tell(name, ours, theirs=None):
    if theirs is None:
        print("%-44s %9.3f seconds" % (name, ours))
    else:
        print("%-44s %9.3f seconds, MIT %9.3f, ratio %6.2f" % (name, ours, theirs, theirs / ours))
    sys.stdout.flush()


def rekeyed(folder, count):
    """One roll: a new master key is made and becomes active, and all principals are moved under it."""
    version = run(["add_mkey"], folder)[0].split()[-1].decode()
    run(["use_mkey", version], folder)
    told, taken = run(["update_princ_encryption"], folder)
    assert int(told.split()[1]) >= count and b" 0 already current" in told, told
    return taken


def rekeyed_by_mit(realm):
    written = realm.run([mit_realm.program("kdb5_util"), "-r", REALM, "add_mkey"], b"secret\nsecret\n")[0]
    assert b"Re-enter" in written, written
    listed = realm.run([mit_realm.program("kdb5_util"), "-r", REALM, "list_mkeys"])[0].decode()
    newest = max(int(line.split()[1].rstrip(",")) for line in listed.splitlines() if line.startswith("KVNO:"))
    realm.util("use_mkey", str(newest))
    return realm.util("update_princ_encryption", "-f")


def used_by(words, folder, source=subprocess.DEVNULL):
    """What the system says that a run used."""
    child = subprocess.Popen(words, cwd=folder, stdin=source, stdout=subprocess.DEVNULL)
    _, status, used = os.wait4(child.pid, 0)
    if status != 0:
        sys.exit("%s: status %d" % (words, status))
    return used


def opened(folder):
    """The processor's seconds of an opening, every key unwrapped once."""
    used = used_by([program, "admin"], folder)
    return used.ru_utime + used.ru_stime


def held(folder, dump):
    """The most kilobytes of an opening, and of a program that has the rows of the dump alone."""
    with open(dump, "rb") as source:
        alone = used_by([holder, "rows"], folder, source).ru_maxrss
    return used_by([program, "admin"], folder).ru_maxrss, alone


def read_through(folder):
    """The processor's seconds of reading the file of rows in pieces of 64 KB."""
    start = time.process_time()
    image = max((os.path.join(folder, name) for name in ("image.0", "image.1")), key=os.path.getsize)
    with open(image, "rb", buffering=0) as file:
        while file.read(65536):
            pass
    return time.process_time() - start


def replicated(room, dump):
    """The seconds of a replica's load into an empty folder, by the clock of the program itself."""
    with tempfile.TemporaryDirectory(dir=room) as folder:
        done = subprocess.run([replica, dump, folder], capture_output=True)
    told = dict(line.split(" ")[:2] for line in done.stdout.decode().splitlines() if " " in line)
    if done.returncode != 0 or told.get("status") != "Done":
        sys.exit("iprop_bench: status %d: %r" % (done.returncode, done.stdout[-200:]))
    return float(told["clock"])


def mit_realm_of(room, count):
    """A realm of so many principals and its dump, where MIT's programs are installed."""
    if not beside:
        return None, None
    folder = os.path.join(room, "mit")
    os.mkdir(folder)
    realm = mit_realm.Realm(folder)
    return realm, realm.fill("-randkey", count)


with tempfile.TemporaryDirectory() as room:
    folder, _ = filled(room, names)
    realm, _ = mit_realm_of(room, names)
    theirs = realm and best(lambda: rekeyed_by_mit(realm))
    tell("update_princ_encryption of %d names" % names, best(lambda: rekeyed(folder, names)), theirs)

with tempfile.TemporaryDirectory() as room:
    # A database has at most 100000 rows, those of its creation among them.
    count = rows - 3
    folder, dump = filled(room, count)
    realm, other = mit_realm_of(room, count)
    taken, reading = best(lambda: opened(folder)), best(lambda: read_through(folder))
    print("%-44s %9.3f seconds, reading %.3f, without it %.3f" % ("opening of %d principals (processor)" % rows, taken, reading, taken - reading))
    whole, alone = held(folder, dump)
    print("%-44s %9.0f MB, its rows alone %.0f, ratio %.2f" % ("memory of that opening", whole / 1024, alone / 1024, whole / alone))
    sys.stdout.flush()
    out = os.path.join(room, "out")
    theirs = realm and best(lambda: realm.util("dump", out))
    tell("dump of %d principals" % rows, best(lambda: run_to(["dump"], folder, "written")), theirs)
    loaded = realm and best(lambda: realm.util("load", other))
    tell("load of %d principals" % rows, best(lambda: load(folder, dump)), loaded)
    theirs = realm and best(lambda: realm.util("tabdump", "-o", out, "keyinfo"))
    tell("report keys of %d principals" % rows, best(lambda: run_to(["report", "keys"], folder, "table")), theirs)
    tell("a replica's load of %d principals" % rows, best(lambda: replicated(room, dump)), loaded)
END
