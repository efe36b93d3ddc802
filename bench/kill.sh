#!/bin/sh
# Kills kdb_tool (SIGKILL) at random moments of creations, of long runs, of master keys rolled over, and of runs of one
# word (ktadd, load, stash, kproplog -R and the words of master keys), opens its folder again each time, and checks that
# the database is whole, holds every line that was answered by `ok`, and no more than one line beyond them. That it opens
# says that every key of it opens: an opening unwraps each of them.
# Usage: bench/kill.sh [KILLS]   (200 unless given). Prints the runs, the kills and the losses; status 1 after a loss.
set -eu
root=$(CDPATH= cd -- "$(dirname -- "$0")/.." && pwd)
program=${KDB_TOOL:-$root/crates/kdb_tool/out/kdb_tool}
[ -x "$program" ] || { echo "build $program first: ./kdb_tool" >&2; exit 1; }
work=$(mktemp -d)
trap 'rm -rf "$work"' EXIT
python3 - "$program" "$work" "${1:-200}" <<'END'
import os, random, subprocess, sys, time

program, room, wanted = os.path.abspath(sys.argv[1]), sys.argv[2], int(sys.argv[3])
# The folder of the database; what a killed run wrote lies beside it.
work = os.path.join(room, "database")
os.mkdir(work)
random.seed(1)
LINES = 3000
runs = kills = losses = 0

def admin(text):
    return subprocess.run([program, "admin"], cwd=work, input=text, capture_output=True).stdout.decode().splitlines()

def add(name):
    return f"addprinc -randkey {name}\n".encode()

def create():
    return subprocess.Popen([program, "create", "EXAMPLE.ORG"], cwd=work, stdout=subprocess.PIPE)

def additions():
    global runs, kills, losses
    for name in os.listdir(work):
        os.remove(os.path.join(work, name))
    # A creation that is killed leaves no database or the new one, and the new one where it was answered.
    process = create()
    time.sleep(random.uniform(0.0, 0.03))
    process.kill()
    answered = process.communicate()[0].startswith(b"ok ")
    runs += 1
    kills += process.returncode == -9
    there = admin(b"getprinc K/M\n")
    if there == ["err 20 NotADatabase"] and not answered:
        create().communicate()
    elif not there or there[0] != "- principal K/M@EXAMPLE.ORG":
        losses += 1
        print("not created whole:", answered, there[:1])
        return
    done = 0
    # Several kills in a row over one database, so that one crash comes behind another.
    for _ in range(random.randint(1, 8)):
        names = [f"n{number}" for number in range(done, done + LINES)]
        replies = open(os.path.join(room, "replies"), "w+b")
        process = subprocess.Popen([program, "admin"], cwd=work, stdin=subprocess.PIPE, stdout=replies)
        try:
            process.stdin.write(b"".join(add(name) for name in names))
            process.stdin.close()
        except BrokenPipeError:
            pass
        time.sleep(random.uniform(0.0, 0.25))
        process.kill()
        process.wait()
        runs += 1
        kills += process.returncode == -9
        replies.seek(0)
        acknowledged = done + replies.read().count(b"ok ")
        replies.close()
        # The names up to the last one acknowledged are there, and at most one more.
        probe = [f"n{number}" for number in range(acknowledged)]
        there = admin(b"".join(add(name) for name in probe))
        if there != ["err 3 Duplicate"] * acknowledged:
            losses += 1
            print("lost a line that was answered, or the database:", [line for line in there if line != "err 3 Duplicate"][:3])
            break
        reply = admin(add(f"n{acknowledged}"))
        if not reply or not (reply[0] == "err 3 Duplicate" or reply[0].startswith("ok ")):
            losses += 1
            print("not opened:", reply)
            break
        done = acknowledged + 1
        # No line behind the one in flight was done.
        for number in range(done, done + 2):
            if admin(add(f"n{number}"))[0] == "err 3 Duplicate":
                losses += 1
                print("more than one line beyond those answered")
            done += 1

# The lines of one roll, and what is listed behind each: versions, each with its activation or without one.
def roll(listed):
    version = max(listed) + 1
    yield "add_mkey", {**listed, version: False}
    listed = {**listed, version: False}
    yield f"use_mkey {version}", {**listed, version: True}
    listed = {**listed, version: True}
    yield "stash", listed
    yield "update_princ_encryption", listed
    yield "purge_mkeys", {version: True}

def master_keys(lines):
    return {int(line.split()[1]): line.split()[3] != "-" for line in lines if line.startswith("- ")}

def protected(count):
    lines = admin("".join(f"getprinc m{number}\n" for number in range(count)).encode())
    return {int(line.split()[2]) for line in lines if line.startswith("- mkvno ")}

# Master keys are rolled over again and again, and killed in it.
def rollovers():
    global runs, kills, losses
    for name in os.listdir(work):
        os.remove(os.path.join(work, name))
    create().communicate()
    count = 300
    admin(b"".join(add(f"m{number}") for number in range(count)))
    listed = {1: True}
    for _ in range(random.randint(1, 8)):
        states, lines = [listed], []
        while len(lines) < 60:
            for line, then in roll(states[-1]):
                lines.append(line)
                states.append(then)
        replies = open(os.path.join(room, "replies"), "w+b")
        process = subprocess.Popen([program, "admin"], cwd=work, stdin=subprocess.PIPE, stdout=replies)
        process.stdin.write("".join(line + "\n" for line in lines).encode())
        process.stdin.close()
        time.sleep(random.uniform(0.0, 1.5))
        process.kill()
        process.wait()
        runs += 1
        kills += process.returncode == -9
        replies.seek(0)
        said = replies.read().decode()
        replies.close()
        done = sum(line.startswith("ok") for line in said.splitlines(keepends=True) if line.endswith("\n"))
        there = admin(b"list_mkeys\n")
        found = master_keys(there)
        if there[-1:] != ["ok"] or found not in states[done:done + 2]:
            losses += 1
            print("another list of master keys:", there[-1:], found, states[done:done + 2])
            return
        # Behind an answered rekeying all keys are under the active version.
        newest = max(version for version, active in found.items() if active)
        if done and lines[done - 1] == "update_princ_encryption" and protected(count) != {newest}:
            losses += 1
            print("a principal was not rekeyed:", protected(count), newest)
            return
        # The roll that was cut is ended, and from there the next one begins.
        admin(f"use_mkey {max(found)}\nstash\nupdate_princ_encryption\npurge_mkeys\n".encode())
        listed = master_keys(admin(b"list_mkeys\n"))
        if list(listed.values()) != [True] or protected(count) != set(listed):
            losses += 1
            print("not ended:", listed, protected(count))
            return

# ---- runs of one word

def lose(what, *facts):
    global losses
    losses += 1
    print(what + ":", *facts)

def killed(words, source=None):
    """A run of this word that is killed. What it wrote, and whether it had ended."""
    global runs, kills
    with open(os.path.join(room, "replies"), "w+b") as replies:
        process = subprocess.Popen([program, *words], cwd=work, stdin=source or subprocess.DEVNULL, stdout=replies)
        time.sleep(random.uniform(0.0, 0.06))
        process.kill()
        process.wait()
        runs += 1
        kills += process.returncode == -9
        replies.seek(0)
        return replies.read(), process.returncode == 0

def answered(written):
    """The last line, where it is whole and says that all was done; else nothing."""
    lines = written.decode().splitlines(keepends=True)
    return lines[-1].split() if lines and lines[-1].startswith("ok") and lines[-1].endswith("\n") else []

def spoken(*words):
    return subprocess.run([program, *words], cwd=work, stdin=subprocess.DEVNULL, capture_output=True).stdout

def rows():
    """The rows of the database: its dump without the point."""
    return spoken("dump").decode().splitlines()[3:]

def keys(text):
    """The version, the type and the key of each entry of a keytab."""
    found, at = [], 2
    number = lambda place, size: int.from_bytes(text[place:place + size], "big", signed=size == 4)
    while at + 4 <= len(text) and number(at, 4) != 0:
        end = at + 4 + abs(number(at, 4))
        if number(at, 4) > 0:
            place = at + 6
            for _ in range(1 + number(at + 4, 2)):
                place += 2 + number(place, 2)
            # The type of the name and the time stand before the version, which stands again in more bytes at the end.
            kind, size = number(place + 9, 2), number(place + 11, 2)
            found.append((number(place + 13 + size, 4), kind, text[place + 13:place + 13 + size]))
        at = end
    return found

def versions(name):
    return {int(line.split()[2]) for line in admin(f"getprinc {name}\n".encode()) if line.startswith("- key ")}

# New keys are in the database before a byte of the keytab is written, and the keytab has them.
def new_keys(count):
    name = f"m{random.randrange(count)}"
    others = [row for row in rows() if f"{name}@".encode().hex() not in row]
    [before] = versions(name)
    written, ended = killed(["ktadd", name])
    after = versions(name)
    if after != {before + 1} and (written or ended or after != {before}):
        lose("new keys that were written are not there", before, after, len(written))
    if ended and keys(written) != keys(spoken("ktadd", "-norandkey", name)):
        lose("the keys that were written are others than those that are there", name)
    if [row for row in rows() if f"{name}@".encode().hex() not in row] != others:
        lose("new keys of one principal changed another", name)

# The rows of before stand or those of the dump.
def loading(number):
    dump = os.path.join(room, "dump")
    with open(dump, "wb") as file:
        file.write(spoken("dump"))
    then = rows()
    admin(add(f"x{number}"))
    before = rows()
    with open(dump, "rb") as source:
        point = answered(killed(["load"], source)[0])
    found = rows()
    if found != then and (point or found != before):
        lose("neither the rows of before nor those that were loaded", len(before), len(then), len(found), point)

# The log is as it was or begun anew, and the rows are as they were.
def log_anew():
    before, log = rows(), spoken("kproplog").decode().splitlines()
    point = answered(killed(["kproplog", "-R"])[0])
    there = spoken("kproplog").decode().splitlines()
    is_anew = len(there) == 5 and there[3] == "- " + there[0].split(" ", 2)[2] + " base" and there[0].startswith("- first 1 ")
    if rows() != before or not (is_anew or there == log and not point):
        lose("neither the log of before nor a new one", there[:5], point)
    if point and there[0].split()[2:] != point[1:]:
        lose("the log begins at another point than was answered", there[0], point)

# An answered stash has every version. (A stash of which no version is listed opens nothing.)
def stashing():
    admin(b"add_mkey\n")
    listed = set(master_keys(admin(b"list_mkeys\n")))
    point = answered(killed(["stash"])[0])
    stashes = [open(os.path.join(work, name), "rb").read() for name in ("stash.0", "stash.1") if os.path.exists(os.path.join(work, name))]
    if point and listed not in [{key[0] for key in keys(stash)} for stash in stashes]:
        lose("a stash that was answered lacks a version", listed)

# The versions are those of before or of behind the word.
def master_word(count):
    listed = master_keys(admin(b"list_mkeys\n"))
    newest = max(listed)
    word = random.choice(["add_mkey", "use_mkey", "update_princ_encryption", "purge_mkeys"])
    words, then = [word], listed
    if word == "add_mkey":
        then = {**listed, newest + 1: False}
    elif word == "use_mkey":
        words, then = [word, str(newest)], {**listed, newest: True}
    elif word == "purge_mkeys":
        admin(f"use_mkey {newest}\nupdate_princ_encryption\nstash\n".encode())
        listed = {**listed, newest: True}
        then = {newest: True}
    done = answered(killed(words)[0])
    found = master_keys(admin(b"list_mkeys\n"))
    if found != then and (done or found != listed):
        lose("another list of master keys", words, found, listed, then)
    active = max(version for version, is_active in found.items() if is_active)
    if done and word == "update_princ_encryption" and protected(count) != {active}:
        lose("a principal was not rekeyed", protected(count), active)

def words():
    for name in os.listdir(work):
        os.remove(os.path.join(work, name))
    create().communicate()
    count = 200
    admin(b"".join(add(f"m{number}") for number in range(count)))
    # At most 32 versions are listed, and a step adds one at most.
    for number in range(20):
        lost = losses
        step = random.randrange(5)
        if step == 0:
            new_keys(count)
        elif step == 1:
            loading(number)
        elif step == 2:
            log_anew()
        elif step == 3:
            stashing()
        else:
            master_word(count)
        there = admin(b"getprinc K/M\n")
        if there[-1:] != ["ok"]:
            lose("not opened", step, there[:1])
        if losses > lost or kills >= wanted:
            return

while kills < wanted:
    for some in (additions, rollovers, words):
        if kills < wanted:
            some()
print(f"{runs} runs, {kills} kills, {losses} losses")
sys.exit(1 if losses else 0)
END
