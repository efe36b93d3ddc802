#!/bin/sh
# Lines a second of kdb_tool over a real folder: additions in databases of 1000, 10000 and 99000 principals, each with a
# log that is full (and once with a new one), new keys, getprinc and listprincs, and the opening of the greatest of them,
# beside reading its file. Each figure is what a line takes, the best of three runs: of changes by the clock from the
# first reply to the last, else by that of the whole run, of which that of a run over no lines is taken off (so of all
# lines of MIT's programs). Beside the additions stands what the four writes and syncs of one take by themselves.
# A file of 10000 rows has 160 MB.
# Where MIT's kadmin.local and kdb5_util are installed, they do the same lines over a realm of their own with
# an update log, in turn with kdb_tool, and a ratio above 1 says that kdb_tool was the faster one.
# Usage: bench/admin.sh [PRINCIPALS]   (10000 unless given; no database has more, and additions want room below 100000).
set -eu
root=$(CDPATH='' cd -- "$(dirname -- "$0")/.." && pwd)
program=${KDB_TOOL:-$root/crates/kdb_tool/out/kdb_tool}
[ -x "$program" ] || { echo "build $program first: ./kdb_tool" >&2; exit 1; }
exec python3 -B - "$program" "$root/bench" "${1:-10000}" <<'END'
import os, struct, subprocess, sys, tempfile, time

program, most = os.path.abspath(sys.argv[1]), int(sys.argv[3])
sys.path.insert(0, sys.argv[2])
import mit_realm

REALM = mit_realm.REALM.encode()
MOMENT = 1700000000
TURNS = 3
beside = mit_realm.is_installed()


def counted(text):
    return struct.pack(">H", len(text)) + text


def principal(number):
    name = b"n%06d@" % number + REALM
    modifier = struct.pack("<I", MOMENT) + b"admin/local@" + REALM + b"\0"
    items = struct.pack(">HHH", 2, 2, len(modifier)) + modifier + struct.pack(">HH", 8, 2) + struct.pack("<H", 1)
    return counted(name) + bytes(20) + items + struct.pack(">H", 0) + counted(b"") + struct.pack(">H", 0)


def database(folder, count):
    """A database of so many principals without keys beside those that `create` makes, a unit each."""
    subprocess.run([program, "create", REALM.decode()], cwd=folder, check=True, stdout=subprocess.DEVNULL)
    with open(os.path.join(folder, "image.0"), "ab") as rows:
        for number in range(count):
            row = principal(number)
            rows.write((b"\1" + counted(row)).ljust(16384, b"\0"))


def spoken(folder, lines):
    text = "".join(line + "\n" for line in lines).encode()
    done = subprocess.run([program, "admin"], cwd=folder, input=text, stdout=subprocess.PIPE)
    if done.returncode != 0:
        sys.exit("status %d: %r" % (done.returncode, done.stdout[-200:]))
    return done.stdout


def run(folder, lines):
    start = time.monotonic()
    spoken(folder, lines)
    return time.monotonic() - start


def changed(folder, lines):
    """The seconds from the first to the last of the changes, by the times that their replies have."""
    replies = spoken(folder, lines)
    times = [float(line.split()[2]) for line in replies.splitlines() if line.startswith(b"ok ")]
    if len(times) != len(lines):
        sys.exit("%d of %d changes: %r" % (len(times), len(lines), replies[-200:]))
    return (times[-1] - times[0]) / (len(times) - 1) * len(times)


def best(turns):
    return min(turns)


def per_line(turn, count):
    """The seconds of each of so many lines, without those of a run over none."""
    return (best(turn(number) for number in range(TURNS)) - best(turn(None) for _ in range(TURNS))) / count


def tell(name, ours, theirs):
    if theirs is None:
        print("%-40s %10.0f lines a second" % (name, 1 / ours))
    else:
        print("%-40s %10.0f lines a second, MIT %8.0f, ratio %6.2f" % (name, 1 / ours, 1 / theirs, theirs / ours))
    sys.stdout.flush()


def figure(name, rows, lines_of, mark, are_changes=False, full=False):
    """A line of figures: `lines_of` gives the lines of a turn, and each answer of MIT's to one has `mark` once. `full` is
    whether the log is full before them, so that each change takes the place of the oldest. Gives the seconds of a
    line."""
    count = len(lines_of(0))
    with tempfile.TemporaryDirectory() as folder:
        here = os.path.join(folder, "ours")
        os.mkdir(here)
        database(here, rows)
        if are_changes:
            if full:
                spoken(here, FILLING)
            ours = best(changed(here, lines_of(number)) for number in range(TURNS)) / count
        else:
            ours = per_line(lambda number: run(here, [] if number is None else lines_of(number)), count)
        theirs = None
        if beside:
            there = os.path.join(folder, "theirs")
            os.mkdir(there)
            realm = mit_realm.Realm(there)
            realm.fill("-nokey", rows)
            if full:
                realm.admin(FILLING, "modified.")
            theirs = per_line(lambda number: realm.admin([] if number is None else lines_of(number), mark), count)
    tell(name, ours, theirs)
    return ours


def forgotten(path):
    """Has the system let go of what it has of this file in memory."""
    file = os.open(path, os.O_RDONLY)
    os.fsync(file)
    os.posix_fadvise(file, 0, 0, os.POSIX_FADV_DONTNEED)
    os.close(file)


def read_whole(path):
    """The seconds of reading a file in pieces of 64 KB."""
    start = time.monotonic()
    with open(path, "rb", buffering=0) as file:
        while file.read(65536):
            pass
    return time.monotonic() - start


def bare_changes(rows, count=300):
    """The seconds that the writes and syncs of an addition take, in a log that is full: a gate is closed, the entry is
    written, the gate is opened, and a unit is written behind all others."""
    with tempfile.TemporaryDirectory() as folder:
        log, units = (os.open(os.path.join(folder, name), os.O_RDWR | os.O_CREAT) for name in ("log.0", "image.0"))
        os.pwrite(log, bytes(2048 * 1001), 0)
        for unit in range(rows):
            os.pwrite(units, bytes(16384), unit * 16384)
        os.fsync(log)
        os.fsync(units)

        def turn(first):
            start = time.monotonic()
            for number in range(first, first + count):
                for file, text, place in ((log, b"\0", number * 2048), (log, bytes(2047), number * 2048 + 1), (log, b"\xa5", number * 2048), (units, bytes(16384), (rows + number) * 16384)):
                    os.pwrite(file, text, place)
                    os.fdatasync(file)
            return (time.monotonic() - start) / count

        taken = best(turn(number * count) for number in range(TURNS))
    print("%-40s %10.0f a second" % ("  the writes and syncs by themselves", 1 / taken))
    sys.stdout.flush()


def opening(rows):
    """The opening of so many rows by the clock, and reading their file in pieces of 64 KB, where the system has the file
    in memory and where it has not; and its greatest memory."""
    with tempfile.TemporaryDirectory() as folder:
        database(folder, rows)
        path = os.path.join(folder, "image.0")
        for where in ("in memory", "on the disk"):
            taken, reading = [], []
            for _ in range(TURNS):
                for seconds, turn in ((taken, lambda: run(folder, [])), (reading, lambda: read_whole(path))):
                    if where == "on the disk":
                        forgotten(path)
                    seconds.append(turn())
            print("%-40s %10.3f seconds, reading %.3f, ratio %.2f" % ("opening of %d rows %s" % (rows, where), best(taken), best(reading), best(taken) / best(reading)))
            sys.stdout.flush()
        child = subprocess.Popen([program, "admin"], cwd=folder, stdin=subprocess.DEVNULL, stdout=subprocess.DEVNULL)
        most_memory = os.wait4(child.pid, 0)[2].ru_maxrss
    print("%-40s %10d MB" % ("  its greatest memory", most_memory // 1024))
    sys.stdout.flush()


def added(option, count=300):
    return lambda turn: ["addprinc %s m%d_%d" % (option, turn, number) for number in range(count)]


def asked(rows, lines):
    return lambda turn: ["getprinc n%06d" % (number * 7 % rows) for number in range(lines)]


# As many changes as the log has places, of one row.
FILLING = ["modprinc +allow_tix n000000"] * 1000
few, middle = min(100, most), min(1000, most)
for option in ("-nokey", "-randkey"):
    figure("addprinc %s at %d principals, a new log" % (option, middle), middle, added(option), "created.", True)
    taken = [figure("addprinc %s at %d principals" % (option, rows), rows, added(option), "created.", True, True)
             for rows in (1000, 10000, 99000) if rows <= most]
    bare_changes(1000)
    if len(taken) > 1:
        print("%-40s %10.2f" % ("  a line at the most, by one at the fewest", taken[-1] / taken[0]))
figure("addprinc -pw at %d principals" % few, few, added("-pw secret", 50), "created.", True)
figure("cpw -pw at %d principals" % few, few, lambda turn: ["cpw -pw secret%d_%d n%06d" % (turn, number, number % few) for number in range(50)], "changed.", True)
figure("getprinc at %d principals" % middle, middle, asked(middle, 20000), "Principal: ")
figure("getprinc at %d principals" % most, most, asked(most, 20000), "Principal: ")
figure("listprincs of %d names" % middle, middle, lambda turn: ["listprincs"] * 100, "K/M@")
figure("listprincs *7@* of %d names" % most, most, lambda turn: ["listprincs *7@*"] * 50, "n000007@")
opening(most)
END
