"""What testing/record tries of allocators and programs that do what none should: bytes that two owners get, a block that is freed again,
what is no block; and of blocks that no call of the record handed out, of blocks far apart, and of what outlives the program."""

import pathlib
import random
import re
import sys

sys.path.insert(0, str(pathlib.Path(__file__).resolve().parent.parent / "record"))

import calls as recorded
import texts

# Each second block of 40 bytes lies so far behind the one before it, and nothing is taken back.
FAULTY = """#include <stddef.h>
static char room[1 << 20] __attribute__((aligned(64)));
static size_t used;
static char *last;
void *malloc(size_t size) {
    char *block = room + used;
    if (size == 40 && last) {
        block = last + BEHIND;
        last = 0;
        return block;
    }
    used += (size + 15) / 16 * 16;
    if (size == 40) last = block;
    return block;
}
void free(void *block) { (void)block; }
"""
KEEPS = "void free(void *block) { (void)block; }\n"
# At each thread's first call it keeps something for the thread, for which the C library allocates, and which it frees at the thread's end.
WITHIN = """#define _GNU_SOURCE
#include <dlfcn.h>
#include <pthread.h>
#include <stddef.h>
static __thread int is_known;
void *malloc(size_t size) {
    static void *(*next)(size_t);
    static pthread_key_t key;
    if (!next) {
        *(void **)&next = dlsym(RTLD_NEXT, "malloc");
        for (int i = 0; i < 64; i++) pthread_key_create(&key, 0);
    }
    if (!is_known) {
        is_known = 1;
        pthread_setspecific(key, &is_known);
    }
    return next(size);
}
"""


def record_of(entries, **more):
    return recorded.Record(1, len(entries), ["made"], b"".join(recorded.ENTRY.pack(*it) for it in entries), **more)


def library(tests, name, source, *options):
    (tests.scratch / f"{name}.c").write_text(source, encoding="ascii")
    built = tests.shell(f"cc -O1 -fno-builtin -shared -fPIC {' '.join(options)} {name}.c -o {name}.so")
    tests.expect(built.returncode == 0, f"{name}.c is not compiled: {built.stderr}")


def judged(tests, words, options=""):
    """The log of a program, the verdict on it, and what heap_record said."""
    ran = tests.shell(f"$R --log {options} --to log -- $P {words}; echo $?; $ROOT/heap_check < log")
    status, verdict = ran.stdout.split("\n", 1)
    return (tests.scratch / "log").read_text(encoding="ascii"), verdict, ran.stderr.rstrip("\n").split("\n")[-1], int(status)


def two_owners(tests):
    """A block that is handed out while it is live goes into a log as it came, and so does one that lies over a part of another."""
    for behind, count in ((0, 2), (16, 3)):
        library(tests, "faulty", FAULTY, f"-DBEHIND={behind}")
        log, verdict, said, _ = judged(tests, "blocks 4 40", "--preload ./faulty.so")
        tests.expect(re.match("differs 10: block .* lies over the live block .*, handed out at line 6\n", verdict) and "free" not in log, f"a block {behind} bytes behind another: {verdict}{log}")
        tests.expect(said == "heap_record: the log has all 4 calls of programs, in 13 commands; call 2 is the first to get bytes of a live block, "
                     f"that of call 1; {count} blocks handed out over live ones", f"a block {behind} bytes behind another: {said}")
    library(tests, "faulty", FAULTY, "-DBEHIND=0")
    ran = tests.shell("$R --preload ./faulty.so -- $P blocks 4 40")
    tests.expect("free c1" not in ran.stdout and ran.stdout.count("malloc c1 40") == 4 and ran.stderr.endswith("; 2 blocks handed out over live ones\n"), f"the trace of two owners: {ran}")


def freed_again(tests):
    """A free that the allocator took goes into a text: the pointer is in its slot still, or is one to no block."""
    library(tests, "keeps", KEEPS)
    log, verdict, said, status = judged(tests, "frees_twice", "--preload ./keeps.so")
    tests.expect((verdict, status) == ("differs 24: the answer must be trap freed, and the log says held 48\n", 0), f"a block that is freed twice: {verdict}{log}")
    tests.expect(said == "heap_record: the log has all 6 calls of programs, in 19 commands; call 5 is the first to free a block again, which call 3 freed; "
                 "1 free of what was freed before", f"freed twice: {said}")
    log, verdict, said, _ = judged(tests, "frees_none", "--preload ./keeps.so")
    tests.expect(verdict == "differs 11: the answer must be trap tag, and the log says held 0\n" and log.count("held 0") == 2, f"what is no block: {verdict}{log}")
    tests.expect(said == "heap_record: the log has all 4 calls of programs, in 11 commands; call 2 is the first to free what is no block; 2 frees of what is no block", f"no block: {said}")
    for options, traps in (("--sweep-at 200", ["freed"]), ("--sweep-at 0", ["tag"]), ("--clear", ["tag"]), ("--epochs --sweep-at 0", ["tag"])):
        ran = tests.shell(f"$R --preload ./keeps.so {options} --to trace -- $P frees_twice; $ROOT/heap_tool run < trace")
        tests.expect(re.findall("free trap (.*)", ran.stdout) == traps and "; 1 free of what was freed before\n" in ran.stderr, f"a trace of a block that is freed twice, {options}: {ran}")
    ran = tests.shell("$R --preload ./keeps.so --to trace -- $P frees_none; $ROOT/heap_tool run < trace")
    tests.expect(re.findall("free trap (.*)", ran.stdout) == ["tag", "tag"] and "; 2 frees of what is no block\n" in ran.stderr, f"a trace of what is no block: {ran}")
    log, verdict, said, status = judged(tests, "frees_at_once")
    tests.expect((log.count("free c1"), status) == (1, 134) and "no bytes that were freed are handed out again; a last call got no answer" in said, f"what the C library found: {said}{log}")


def with_slots(tests):
    """The slot of what is freed again is kept, and that of no other block."""
    a, b, c = 0x10000, 0x10040, 0x10080
    new, free = recorded.HANDED_OUT, recorded.FREED
    entries = [(new, 48, a, 0), (new, 48, b, 0), (free, 0, 0, b), (free, 0, 0, a), (new, 48, c, 0), (free, 0, 0, a), (free, 0, 0, c), (new, 48, c, 0), (free, 0, 0, a), (new, 16, b, 0)]
    text = texts.text_of(record_of(entries), texts.Options(is_log=True))
    stored = re.findall(r"setaddr c2 c31 (0x[0-9a-f]+) -> ok\nstorecap", text.written())
    tests.expect(stored == ["0x40000000", "0x40000010", "0x40000010", "0x40000010", "0x40000000"] and (text.slots, text.counts) == (2, {"twice": 2}),
                 f"the slots of what is freed again: {text.slots}, {text.counts}, {stored}")
    entries = [(new, 48, a, 0), (new, 48, a, 0), (free, 0, 0, a), (free, 0, 0, a), (free, 0, 0, a)]
    text = texts.text_of(record_of(entries), texts.Options())
    tests.expect((text.slots, text.counts) == (2, {"doubled": 1, "twice": 1}), f"what has two owners is freed twice: {text.slots}, {text.counts}")
    text = texts.text_of(record_of(entries), texts.Options(commands=12))
    tests.expect((text.calls, text.counts) == (3, {"doubled": 1}), f"what a text hasn't isn't counted: {text.calls}, {text.counts}")
    entries = [(free, 0, 0, a), (recorded.MOVED, 20, b, c), (free, 0, 0, a)]
    text = texts.text_of(record_of(entries, programs=0), texts.Options(is_log=True))
    tests.expect(text.counts == {"inherited": 2, "twice": 1}, f"blocks from before a fork: {text.counts}")
    text = texts.text_of(record_of(entries), texts.Options(is_log=True))
    tests.expect(text.counts == {"strays": 3}, f"no blocks: {text.counts}")


def random_record(chance):
    """Calls of an allocator that now and then hands out what is live or was freed, and of a program that frees what it shouldn't."""
    places = [0x10000 + 32 * it for it in range(chance.choice((6, 40)))]
    odds = chance.choice((0, 0.02, 0.2))
    live, freed, entries = [], [], []
    for _ in range(60):
        wrong = chance.random() < odds
        if live and chance.random() < 0.5:
            given_up = chance.choice((live + freed, [chance.choice(places) + 16])[chance.randrange(2)]) if wrong else chance.choice(live)
            if given_up in live:
                live.remove(given_up)
                freed.append(given_up)
            entries.append((recorded.FREED, 0, 0, given_up))
        else:
            fresh = places if wrong else [it for it in places if it not in live + freed]
            if fresh:
                live.append(chance.choice(fresh) + 16 * (wrong and chance.randrange(2)))
                entries.append((recorded.HANDED_OUT, chance.choice((1, 17, 32)), live[-1], 0))
    return record_of(entries)


def random_faults(tests):
    """Of random calls the first that goes wrong is told, and it is the one at which the log differs; the trace has a trap for each free
    that goes wrong, and for no other."""
    kinds = set()
    for seed in range(80):
        record = random_record(random.Random(seed))
        text = texts.text_of(record, texts.Options(is_log=True))
        (tests.scratch / "log").write_text(text.written(), encoding="ascii")
        verdict = tests.shell("$ROOT/heap_check < log").stdout
        line = int((re.match(r"differs (\d+)", verdict) or ["0", "0"])[1])
        calls = re.findall(r"^# call (\d+)$", "\n".join(text.written().split("\n")[:line]), re.M)
        told = (text.first or (0, "agree"))
        kinds.add(told[1].split(",")[0])
        tests.expect(text.calls == len(record) and (int(calls[-1]) if calls else 0) == told[0], f"random faults {seed}: {told}, and {verdict}")
        trace = texts.text_of(record, texts.Options(sweep_at=seed))
        (tests.scratch / "trace").write_text(trace.written(), encoding="ascii")
        report = tests.shell("$ROOT/heap_tool run < trace").stdout
        traps = len(re.findall("free trap (?:freed|tag)", report))
        tests.expect(report.count("trap") == traps == trace.counts["twice"] + trace.counts["strays"], f"random faults {seed}: a trace with {trace.counts}: {report}")
        tests.expect(trace.written().count("free c1") + trace.written().count("malloc c1") == len(record), f"random faults {seed}: a trace has other calls than the record")
    tests.expect(kinds >= {"agree", "get bytes of a live block", "get bytes that were freed", "free a block again", "free what is no block"}, f"random faults are of the kinds {kinds}")


def within(tests):
    """What is handed out within the allocator is freed by the C library, and is no stray."""
    library(tests, "within", WITHIN, "-ldl", "-lpthread")
    ran = tests.shell("$R --preload ./within.so --to trace -- $P threads 100")
    tests.expect(ran.returncode == 0 and "no block" not in ran.stderr and "before the record" not in ran.stderr, f"blocks of the allocator's own: {ran.stderr}")


def far(tests):
    """The block that lies apart is told, and not the one at which the log ends; without it the log has all."""
    ran = tests.shell("$R --log --cheri --to log -- $P far_first; $ROOT/heap_check < log")
    tests.expect(re.search(r"the first 1 of 21 calls \(4.7 %\) of programs, in 4 commands, and none from call 2 on; in it no bytes that were freed are handed out again; "
                           r"it ends there, since the block of 524,288 bytes at 0x[0-9a-f]+, of call 1, lies too far from the others for a heap of 4,194,304 bytes "
                           r"\(--at-most 524287 leaves it out\)\n", ran.stderr), f"a far block: {ran}")
    ran = tests.shell("$R --log --cheri --at-most 524287 --to log -- $P far_first; $ROOT/heap_check < log")
    tests.expect("the log has all 21 calls" in ran.stderr and ran.stdout.startswith("agrees ") and "in it no bytes" in ran.stderr and
                 "heap_check: the log has a part: all 21 calls of programs; 1 block of more than 524,287 bytes left out\n" in ran.stderr, f"without the far block: {ran}")
    ran = tests.shell("$R --log --at-most 4 --to log -- $P far_first")
    tests.expect("; it has none of their blocks; 21 blocks of more than 4 bytes left out\n" in ran.stderr, f"without all blocks: {ran}")
    entries = [(recorded.HANDED_OUT, 16, 0x10000 + 16 * it, 0) for it in range(9)] + [(recorded.HANDED_OUT, 16, 0x70000000, 0)] + [(recorded.HANDED_OUT, 16, 0x20000, 0)]
    text = texts.text_of(record_of(entries), texts.Options(is_log=True))
    tests.expect(str(text.ended) == "the block of 16 bytes at 0x70000000, of call 10, lies too far from the others for a heap of 4,194,304 bytes "
                 "(docs/REAL_PROGRAMS.md has what brings blocks together)", f"a far block: {text.ended}")
    ran = tests.shell("$R --log --to log -- $P far_first; $ROOT/heap_check < log")
    tests.expect("the log has none of the 21 calls of programs, in 1 command; it ends there, since" in ran.stderr and
                 "heap_check: the log has a part: none of the 21 calls" in ran.stderr, f"a log of no call: {ran}")


def survivors(tests):
    """Processes that outlive the program end nothing and leave nothing, and the recorder is there for them."""
    (tests.scratch / "place").mkdir()
    for options in ("", "--children texts"):
        ran = tests.shell(f"""export TMPDIR=$PWD/place; for i in 1 2 3 4 5 6 7 8; do
            $K {options} --to trace -- bash -c '(for i in 1 2 3 4 5 6 7 8 9; do ls > /dev/null; done) & exit 0' 2>&1; echo $?; done; sleep 1""")
        told = [it for it in ran.stdout.splitlines() if not it.startswith("heap_record: ")]
        tests.expect(told == ["0"] * 8, f"processes that outlive the program, {options}: {told}")
        tests.expect(list((tests.scratch / "place").iterdir()) == [], f"processes that outlive the program leave {list((tests.scratch / 'place').iterdir())}")


def preloaded(tests):
    """The library is loaded into the program alone; one that isn't there, or that the program unloads, is told."""
    ran = tests.shell("$R --preload no_such.so --to trace -- $P one")
    tests.expect(ran.returncode == 125 and "heap_record: no_such.so was not loaded into programs: " in ran.stderr, f"--preload of what isn't there: {ran}")
    library(tests, "crashes", '#include <stdlib.h>\nvoid *malloc(size_t size) { return size == 13 ? calloc(1, size) : (void *)16; }\n')
    ran = tests.shell("$R --preload ./crashes.so --to trace -- $P one")
    tests.expect(ran.returncode == 0 and "all 1 call of programs" in ran.stderr, f"--preload of a library with which Python crashes: {ran}")
    ran = tests.shell("$R --to trace -- env LD_PRELOAD= $P one")
    tests.expect(ran.returncode == 0 and "; only of env: programs took its place and isn't recorded, since it is linked statically or was started with "
                 "another LD_PRELOAD" in ran.stderr, f"a program without the recorder: {ran}")
    for command in ("env $P one", "$P killed", "bash -c 'kill -9 $$'", "bash -c 'exec true'"):
        ran = tests.shell(f"$R --to trace -- {command}")
        tests.expect("took its place and" not in ran.stderr, f"a program with the recorder: {ran}")


def all_of(tests):
    for test in (two_owners, freed_again, with_slots, random_faults, within, far, survivors, preloaded):
        test(tests)
