#!/bin/sh
# Runs kdb_tool with memory refused: each growth, one number after the other, is refused once alone and once with all
# behind it. The runs are a creation with a password, an `admin` run of changes and listings, a long entry that begins
# the log anew, a roll of the master key, and `dump` of 500 principals and `load` of it, whole, without its last line
# and with a byte behind it, each over a copy of one prepared folder. The status has to be that of the whole run, 70,
# or 73 where it was a call of the folder that wanted the memory (it takes some for the path of a file); what was
# written has to be a front of what the whole run writes (times apart), and the folder, opened again, has to hold what
# the answered lines made and nothing else, but for rekeyings of an `update_princ_encryption` that was not answered,
# and after 73 for the change of the line at which the run ended, which is there or not. A growth is a call of malloc,
# calloc, realloc (one that asks for more than before) or posix_memalign; a library that is loaded before the C
# library counts and refuses.
# Growths before main that end the process otherwise than the program would are counted apart; those of the loader, which
# come before the library, are neither counted nor refused.
# The folders lie in memory where the machine has a place for that: no sync is judged here.
# Usage: bench/growths.sh [STEP]   (each STEPth growth is tried, 1 unless given). Prints the runs, the refusals and the
# losses; status 1 after a loss. CC names the C compiler, `cc` unless given.
set -eu
root=$(CDPATH='' cd -- "$(dirname -- "$0")/.." && pwd)
program=${KDB_TOOL:-$root/crates/kdb_tool/out/kdb_tool}
[ -x "$program" ] || { echo "build $program first: ./kdb_tool" >&2; exit 1; }
place=${TMPDIR:-/dev/shm}
[ -w "$place" ] || place=/tmp
work=$(mktemp -d -p "$place")
trap 'rm -rf "$work"' EXIT
python3 -B - "$program" "$work" "${1:-1}" "${CC:-cc}" <<'END'
import collections, concurrent.futures, itertools, os, re, shutil, struct, subprocess, sys

program, room, step, compiler = os.path.abspath(sys.argv[1]), sys.argv[2], int(sys.argv[3]), sys.argv[4]

# Loaded before the C library. The growths GROWTHS_FIRST to GROWTHS_LAST, counted from 1, are refused. The file
# GROWTHS_TOLD is mapped, so that its numbers stand however the process ends.
LIBRARY = r"""
#define _GNU_SOURCE
#include <dlfcn.h>
#include <errno.h>
#include <fcntl.h>
#include <malloc.h>
#include <stdint.h>
#include <stdlib.h>
#include <string.h>
#include <sys/mman.h>
#include <unistd.h>

/* The C library's own, under their second names. */
void *__libc_malloc(size_t);
void *__libc_calloc(size_t, size_t);
void *__libc_realloc(void *, size_t);
void *__libc_memalign(size_t, size_t);

typedef int (*entry)(int, char **, char **);
typedef int (*starter)(entry, int, char **, void (*)(void), void (*)(void), void (*)(void), void *);

/* Growths that were asked for and refused, whether main began, and the growths before it. */
static struct told { uint64_t asked, refused, begun, before; } *told;
static uint64_t first, last;
static starter start;
static entry program_main;

__attribute__((constructor)) static void prepare(void) {
    const char *path = getenv("GROWTHS_TOLD"), *from = getenv("GROWTHS_FIRST"), *to = getenv("GROWTHS_LAST");
    start = (starter)dlsym(RTLD_NEXT, "__libc_start_main");
    if (!path || !from || !to)
        return;
    first = strtoull(from, NULL, 10);
    last = strtoull(to, NULL, 10);
    int file = open(path, O_RDWR | O_CLOEXEC);
    if (file < 0)
        _exit(99);
    void *mapped = mmap(NULL, sizeof *told, PROT_READ | PROT_WRITE, MAP_SHARED, file, 0);
    close(file);
    if (mapped == MAP_FAILED)
        _exit(99);
    told = mapped;
}

static int begin(int count, char **words, char **environment) {
    if (told) {
        told->before = told->asked;
        told->begun = 1;
    }
    return program_main(count, words, environment);
}

int __libc_start_main(entry main, int count, char **words, void (*init)(void), void (*fini)(void),
                      void (*loader_fini)(void), void *stack) {
    program_main = main;
    return start(begin, count, words, init, fini, loader_fini, stack);
}

static int is_refused(void) {
    if (!told)
        return 0;
    uint64_t number = __atomic_add_fetch(&told->asked, 1, __ATOMIC_RELAXED);
    if (number < first || number > last)
        return 0;
    __atomic_add_fetch(&told->refused, 1, __ATOMIC_RELAXED);
    errno = ENOMEM;
    return 1;
}

/* How many bytes were asked for stands in the last bytes of a block, behind them. */
static size_t *note(void *block) {
    return (size_t *)((char *)block + malloc_usable_size(block) - sizeof(size_t));
}

static size_t with_note(size_t size) {
    return size > SIZE_MAX - sizeof(size_t) ? SIZE_MAX : size + sizeof(size_t);
}

static void *noted(void *block, size_t size) {
    if (block)
        memcpy(note(block), &size, sizeof size);
    return block;
}

void *malloc(size_t size) {
    return is_refused() ? NULL : noted(__libc_malloc(with_note(size)), size);
}

void *calloc(size_t count, size_t size) {
    size_t whole;
    if (is_refused())
        return NULL;
    if (__builtin_mul_overflow(count, size, &whole))
        whole = SIZE_MAX;
    return noted(__libc_calloc(1, with_note(whole)), whole);
}

void *realloc(void *block, size_t size) {
    size_t before;
    if (!block)
        return malloc(size);
    if (size == 0) {
        free(block);
        return NULL;
    }
    memcpy(&before, note(block), sizeof before);
    if (size > before && is_refused())
        return NULL;
    return noted(__libc_realloc(block, with_note(size)), size);
}

void *memalign(size_t alignment, size_t size) {
    return is_refused() ? NULL : noted(__libc_memalign(alignment, with_note(size)), size);
}

void *aligned_alloc(size_t alignment, size_t size) {
    return memalign(alignment, size);
}

int posix_memalign(void **into, size_t alignment, size_t size) {
    void *block = memalign(alignment, size);
    if (!block)
        return ENOMEM;
    *into = block;
    return 0;
}
"""

library = os.path.join(room, "growths.so")
subprocess.run([compiler, "-O2", "-shared", "-fPIC", "-fno-builtin", "-x", "c", "-", "-o", library, "-ldl"],
               input=LIBRARY.encode(), check=True)

REALM = "EXAMPLE.ORG"
PRINCIPALS = 500
# What a run of the program may end with; a process that is ended by a signal has a negative status.
STATUSES = {0, 1, *range(70, 76)}
TIME = re.compile(rb"\d{10}\.\d{6}|\d{4}-\d\d-\d\dT\d\d:\d\d:\d\dZ")
Told = collections.namedtuple("Told", "asked refused begun before")
Done = collections.namedtuple("Done", "status written told")
numbers = itertools.count()


def run(words, folder, text=b"", first=0, last=0):
    """A run of which these growths are refused."""
    path = os.path.join(room, f"told.{next(numbers)}")
    with open(path, "wb") as file:
        file.write(bytes(32))
    environment = dict(os.environ, LD_PRELOAD=library, GROWTHS_TOLD=path, GROWTHS_FIRST=str(first), GROWTHS_LAST=str(last))
    done = subprocess.run([program, *words], cwd=folder, env=environment, input=text, capture_output=True)
    with open(path, "rb") as file:
        told = Told(*struct.unpack("=4Q", file.read()))
    os.remove(path)
    return Done(done.returncode, done.stdout, told)


def spoken(words, folder, text=b""):
    """What a run of the program writes that is left alone."""
    return subprocess.run([program, *words], cwd=folder, input=text, capture_output=True).stdout


def admin(folder, lines):
    return spoken(["admin"], folder, "".join(line + "\n" for line in lines).encode())


def new_folder():
    folder = os.path.join(room, f"folder.{next(numbers)}")
    os.mkdir(folder)
    return folder


def copy_of(prepared):
    folder = os.path.join(room, f"folder.{next(numbers)}")
    shutil.copytree(prepared, folder)
    return folder


def untimed(written):
    """Each digit of a time is a #."""
    return TIME.sub(lambda found: re.sub(rb"\d", b"#", found[0]), written)


def is_front(written, whole):
    """Whether these bytes are a front of the others, of which digits of times are not compared."""
    if len(written) > len(whole):
        return False
    is_same = lambda byte, other: byte == other or other == ord("#") and chr(byte).isdigit()
    pairs = list(itertools.zip_longest(written.split(b"\n"), whole[:len(written)].split(b"\n"), fillvalue=b"\n"))
    return all(line == other or len(line) == len(other) and all(map(is_same, line, other)) for line, other in pairs)


def answered(written):
    """How many lines have their whole reply."""
    return sum(line.startswith((b"ok", b"err ")) and line.endswith(b"\n") for line in written.splitlines(keepends=True))


# ---- what is seen of a folder

def files(folder):
    found = {}
    for name in sorted(os.listdir(folder)):
        with open(os.path.join(folder, name), "rb") as file:
            found[name] = file.read()
    return found


def stashed(folder):
    """The size of the stash that the database uses: each version has as many bytes in it as the others."""
    control = files(folder).get("control", b"")
    slots = [control[at:at + 64] for at in (0, 64) if control[at:at + 1] == b"\xa5" and len(control) >= at + 64]
    if len(slots) == 2 and (slots[0][7] + 1) % 3 == slots[1][7]:
        slots.reverse()
    name = {5: "stash.0", 6: "stash.1"}.get(slots[0][10]) if slots else None
    return os.path.getsize(os.path.join(folder, name)) if name else 0


def opened(folder):
    """What an opening finds, which unwraps every key."""
    return untimed(admin(folder, ["getprinc K/M"]))


def seen_by(lines):
    return lambda folder: (stashed(folder), untimed(admin(folder, lines)))


def created(folder):
    """Whether a database is there; where none is, one can be made."""
    found = opened(folder)
    again = untimed(spoken(["create", REALM], folder))
    return found, again


def rows(folder):
    """The dump without its point, and the opening."""
    return spoken(["dump"], folder).splitlines()[3:], opened(folder)


def unchanged(folder):
    return files(folder), opened(folder)


# ---- the courses

class Course:
    """A run over copies of one folder. What may be seen of it stands in `places`, and that behind so many lines at
    these numbers of `ends`; those between two belong to the line between them."""

    def __init__(self, name, words, prepared, look, text=b""):
        self.name, self.words, self.prepared, self.look, self.text = name, words, prepared, look, text
        self.places, self.ends = [look(copy_of(prepared))], [0]
        self.whole = run(words, copy_of(prepared), text)
        self.shape = untimed(self.whole.written)
        if self.whole.told.asked == 0 or not self.whole.told.begun:
            sys.exit(f"{name}: no growth of the program is seen")

    def end(self, *places):
        self.places += places
        self.ends.append(len(self.places) - 1)

    def ends_well(self, status, *last):
        """The whole run does what it is to do."""
        lines = self.whole.written.splitlines()
        if self.whole.status != status or not all(lines and lines[-1].startswith(text) for text in last):
            sys.exit(f"{self.name}: status {self.whole.status}, {lines[-1:]}")
        return self


def of_lines(name, prepared, lines, seen, status, last, rekeyed=()):
    course = Course(name, ["admin"], prepared, seen_by(seen), "".join(line + "\n" for line in lines).encode())
    folder = copy_of(prepared)
    for line in lines:
        parts = [f"{line} {principal}" for principal in rekeyed] if line == "update_princ_encryption" else []
        found = []
        for part in [*parts, line]:
            admin(folder, [part])
            found.append(course.look(folder))
        course.end(*found)
    return course.ends_well(status, last)


def creation():
    words = ["create", REALM, "-P", "masterpw"]
    course = Course("create with a password", words, new_folder(), created)
    folder = new_folder()
    spoken(words, folder)
    course.end(course.look(folder))
    return course.ends_well(0, b"ok 1 ")


def database(*lines):
    folder = new_folder()
    spoken(["create", REALM], folder)
    admin(folder, lines)
    return folder


def changes():
    lines = ["addpol -minlength 6 -history 2 -maxlife 90d std", "addprinc -policy std -pw first.word alice",
             "addprinc -randkey -expire 2030-01-01T00:00:00Z bob", "getprinc alice", "cpw -pw other.word alice",
             "addprinc -nokey alice", "setstr bob color blue", "getstrs bob", "modprinc -maxlife 1d +requires_preauth bob",
             "cpw -randkey -keepold bob", "purgekeys bob", "renprinc bob carol", "listprincs", "listpols", "getpol std",
             "modpol -minclasses 2 std", "delstr carol color", "modprinc -clearpolicy alice", "delpol std", "delprinc carol"]
    seen = ["listprincs", "listpols", "getpol std", *(f"{word} {name}" for name in ("alice", "bob", "carol") for word in ("getprinc", "getstrs"))]
    return of_lines("changes and listings", database(), lines, seen, 1, b"ok ")


def long_entry():
    # A version has two keys, and the entry of fifteen of them is as long as the first blocks take. No record has more
    # than the 32 of sixteen.
    line = "cpw -randkey -keepold svc"
    prepared = database("addprinc -randkey svc", *[line] * 14)
    course = of_lines("a log begun anew", prepared, [line, line], ["listprincs", "getprinc svc"], 1, b"err 28 KeysFull")
    if not course.whole.written.startswith(b"ok 2 "):
        sys.exit(f"{course.name}: {course.whole.written}")
    return course


def roll():
    names = ["alice", "bob", "kadmin/history", "krbtgt/" + REALM]
    prepared = database("addprinc -randkey alice", "addprinc -pw some.word bob")
    lines = ["add_mkey", "use_mkey 2", "list_mkeys", "update_princ_encryption", "stash", "purge_mkeys", "list_mkeys"]
    seen = ["list_mkeys", *(f"getprinc {name}" for name in names)]
    return of_lines("a roll of the master key", prepared, lines, seen, 0, b"ok", names)


def dump_and_load():
    start = database()
    prepared = copy_of(start)
    admin(prepared, [f"addprinc -randkey n{number:03}" for number in range(PRINCIPALS)])
    course = Course("dump", ["dump"], prepared, unchanged)
    yield course.ends_well(0, b"end %d" % (PRINCIPALS + 3))
    text = spoken(["dump"], prepared)
    lines = text.splitlines(keepends=True)
    for name, loaded, left, status, last in [
            ("load", text, prepared, 0, b"ok 1 "),
            ("load of a cut dump", b"".join(lines[:-1]), start, 1, b"err 24 DumpBad %d" % len(lines)),
            ("load with a byte behind", text + b"x", start, 1, b"err 24 DumpBad %d" % (len(lines) + 1))]:
        course = Course(name, ["load"], start, rows, loaded)
        course.end(rows(left))
        yield course.ends_well(status, last)


def courses():
    yield creation()
    yield changes()
    yield long_entry()
    yield roll()
    yield from dump_and_load()


# ---- the tries

Verdict = collections.namedtuple("Verdict", "told is_before is_disk has_part faults")


def judged(course, number, is_onward):
    """One run of the course, with this growth refused, or with it and all behind it."""
    folder = copy_of(course.prepared)
    status, written, told = run(course.words, folder, course.text, number, 2 ** 63 if is_onward else number)
    there = course.look(folder)
    shutil.rmtree(folder)
    faults = []
    is_before, is_disk = not told.begun and status not in STATUSES, status == 73
    if not is_before and status not in (course.whole.status, 70, 73):
        faults.append(f"status {status}")
    if not told.refused and status != course.whole.status:
        faults.append(f"status {status}, and nothing was refused")
    if not is_front(written, course.shape):
        faults.append(f"another text: {written[-200:]}")
    elif status == course.whole.status and len(written) != len(course.shape):
        faults.append("ended as the whole run does, and wrote less")
    lines = answered(written)
    begin = course.ends[lines] if lines < len(course.ends) else None
    end = course.ends[lines + 1] if lines + 1 < len(course.ends) else begin
    has_part = False
    if begin is None:
        faults.append(f"more than {len(course.ends) - 1} lines were answered")
    elif there != course.places[begin]:
        # Of a line with many changes, which is answered behind the last one, those that were made stay.
        has_part = end > begin + 1 and there in course.places[begin + 1:end + 1]
        if not has_part:
            if there == course.places[end] and not is_disk:
                faults.append("a change that was not answered is there")
            elif there != course.places[end]:
                faults.append(f"{lines} lines were answered, and they are not what is there: {str(there)[:300]}")
    return Verdict(told, is_before, is_disk, has_part, faults)


def tried(course, pool):
    """The runs, the growths that were refused, and the losses."""
    tries = [(number, is_onward) for number in range(1, course.whole.told.asked + 1, step) for is_onward in (False, True)]
    runs = refused = before = disk = parts = losses = 0
    for (number, is_onward), verdict in zip(tries, pool.map(lambda it: judged(course, *it), tries)):
        runs += 1
        refused += verdict.told.refused
        before += verdict.is_before
        disk += verdict.is_disk
        parts += verdict.has_part
        losses += bool(verdict.faults)
        for fault in verdict.faults:
            print(f"{course.name}, growth {number}{' and all behind it' if is_onward else ''}: {fault}")
    print(f"{course.name:<26} {course.whole.told.asked:>6} growths ({course.whole.told.before} before main), {runs} runs, {refused} refusals, "
          f"{before} ended before main, {disk} in a call of the folder, {parts} with a part of the rekeyings, {losses} losses")
    sys.stdout.flush()
    return runs, refused, losses


with concurrent.futures.ThreadPoolExecutor(len(os.sched_getaffinity(0))) as pool:
    found = [tried(course, pool) for course in courses()]
runs, refused, losses = map(sum, zip(*found))
print(f"{runs} runs, {refused} refusals, {losses} losses")
sys.exit(1 if losses else 0)
END
