"""measure.py: measures the two programs: instructions and times by bench/calls.c, bench/days.c, bench/cables.c and bench/recodes.c, stack by harness/stack.c over the stored streams of cases.
Assumes the Rattle kit. Says on standard error what is done; if a program fails it ends with that program's message."""
import collections
import concurrent.futures
import lzma
import os
import platform
import subprocess
import sys
import time

ROOT = os.path.dirname(os.path.dirname(os.path.abspath(__file__)))
sys.path.insert(0, os.path.join(ROOT, "harness"))
import stream

SETS, DAYS, CABLES, RECODES = PROGRAMS = "calls", "days", "cables", "recodes"  # the programs of bench/: the calls on a set, those on a day file, those of the cable, recoding
FLOOR, MOVE = NO_PROGRAM = "byte_sum", "move"  # they stand among the calls on a set, and in the place of both programs
EACH = "judge"  # it stands among the calls on a day file: each of its sets is judged by itself
BOTH = "judge_both"  # it stands beside recoding: the set of each of the two calls is judged by itself, in their order
INTO = "to_437", "to_1252"  # the calls of recoding
JUDGED = "77x6", "512x40"  # the loads on which recoding is held to what judging takes
UMLAUTS = "77x6-umlauts", "512x40-umlauts"  # those with bytes over 7Fh in one line of four: this is shown beside it
STACK, JUDGING, LINEAR, MOVING, GROWTH, ENTRY = NO_LOADS = "stack", "judging", "linear", "moving", "growth", "entry"  # they stand among the loads of the bounds
REFUSED = "refused"  # the load of each program that has each refusal number once
LONGER, SHORTER = WAYS = "longer", "shorter"  # a correction makes a line so: the name of its load ends with it, after that of its set
VARIED = "varied"  # the name of each load that is given the stored stream of judge starts so
GROWING, LINES = ("lines6", "lines40"), (16, 32, 64, 128, 256, 512)  # loads of growing sets, and how many lines each input has
ENTRIES = 256, 4096  # of the large sheets
RUNS = 7  # for the times of a load
MACHINE = platform.machine()
EMULATED = MACHINE != "x86_64"
# The two ways to count instructions: by the processor's trap flag, which takes some ten microseconds for each, and by blocks (bench/blocks.h), which is held to the first.
BY_TRAP, BY_BLOCKS = "count", "blocks"
# The C library compares bytes by wider code on a processor that has AVX2, and moves and fills many of them by one instruction on one that has ERMS, which the trap flag
# counts once for each byte. Instructions are counted without both, so that they are nearly the same on every machine.
PLAIN_LIBRARY = {"GLIBC_TUNABLES": "glibc.cpu.hwcaps=-AVX2,-ERMS"}

Count = collections.namedtuple("Count", "no proved second")  # instructions for one input; no: the number of its refusal or 0
Stack = collections.namedtuple("Stack", "bytes case answer made longest")  # the most that a call took, in which case; calls made, longest case in bytes


def told(words, given=b"", **settings):
    """What a program writes, line by line."""
    ended = subprocess.run(words, input=given, stdout=subprocess.PIPE, check=False, env={**os.environ, **settings})
    if ended.returncode:
        sys.exit("%s ended with status %d" % (" ".join(words), ended.returncode))
    return ended.stdout.decode().splitlines()


def path(program):
    return os.path.join(ROOT, "target", "bench", program)


def run(program, *words, **settings):
    return told(["sh", os.path.join(ROOT, "tools", "x86run"), path(program), *words], **settings)


def varied_sets():
    """The stored stream of judge."""
    with lzma.open(os.path.join(ROOT, "harness", "streams", "judge.xz")) as file:
        return file.read()


def progress(what, since):
    print("%s: %.0f s" % (what, time.monotonic() - since), file=sys.stderr, flush=True)


def archives():
    """The archives of the proved library."""
    return told(["sh", os.path.join(ROOT, "tools", "library")])


def build():
    """Builds each program of bench/ over the proved library and the second program; for each the names of its loads."""
    since = time.monotonic()
    os.makedirs(path(""), exist_ok=True)
    archives()  # once, before several programs ask for them
    in_parallel(lambda program: told(["sh", os.path.join(ROOT, "tools", "both"), "-o", path(program), os.path.join(ROOT, "bench", program + ".c")]), PROGRAMS)
    progress("both programs built", since)
    return {program: run(program) for program in PROGRAMS}


def in_parallel(function, items):
    """The function's answer for each item, on all cores that this process may use."""
    with concurrent.futures.ThreadPoolExecutor(len(os.sched_getaffinity(0))) as workers:
        return list(workers.map(function, items))


def rows(how, program, load, *call, **settings):
    """The numbers that `PROGRAM HOW LOAD` prints, for each call or for one."""
    found, given = {}, varied_sets() if load.startswith(VARIED) else b""
    for line in run(program, how, load, *call, given=given, **settings):
        name, *numbers = line.split()
        found.setdefault(name, []).append([int(number) for number in numbers])
    return found


def counted(how, *place):
    """For each call that is made on a load, or for one, a Count for each input. The place is a program and a load, and a call if it is for one."""
    since, found = time.monotonic(), rows(how, *place, **PLAIN_LIBRARY)
    if how == BY_TRAP:
        progress("instructions of %s, by the trap flag" % " ".join(place), since)
    return {call: [Count(*numbers) for numbers in inputs] for call, inputs in found.items()}


def counts(loads, how):
    """For each program, load and call a Count for each input."""
    places = [(program, load) for program, names in loads.items() for load in names]
    found = dict(zip(places[::-1], in_parallel(lambda place: counted(how, *place), places[::-1])))  # the last ones take longest
    return {program: {load: found[program, load] for load in names} for program, names in loads.items()}


def ratio(inputs):
    """Instructions of the proved library over those of the second program, all inputs together."""
    return sum(count.proved for count in inputs) / sum(count.second for count in inputs)


def proved(inputs):
    """Instructions of the proved library, all inputs together."""
    return sum(count.proved for count in inputs)


def judging(days):
    """What building the index of the file of 64 sets takes over judging each of these sets by itself."""
    return proved(days["day64"]["day_build"]) / proved(days["day64"][EACH])


def recoding(recodes, call, loads):
    """For each of the loads what recoding takes over judging the same set."""
    at = INTO.index(call)
    return {load: proved(recodes[load][call]) / recodes[load][BOTH][at].proved for load in loads}


def linear(days):
    """What a lookup takes for each of 2,048 entries over what it takes for each of 256."""
    most, least = [proved(days["find%d" % entries]["day_find"]) / entries for entries in (2048, 256)]
    return most / least


def growth(sets, load):
    """What judging takes for each further line, from each size of a set to the next."""
    judged = [count.proved for count in sets[load]["judge"]]
    return [(judged[i + 1] - judged[i]) / (LINES[i + 1] - LINES[i]) for i in range(len(LINES) - 1)]


def entry(sets):
    """What a view takes for each further entry of a large sheet."""
    least, most = ENTRIES
    return (proved(sets["sheet%d" % most]["view"]) - proved(sets["sheet%d" % least]["view"])) / (most - least)


def moving(sets):
    """For each load of which the move is counted: its way, instructions of its corrections, and those of judging its set and moving the lines after the corrected one."""
    for load, calls in sets.items():
        if MOVE in calls:
            size, _, way = load.partition("-")
            judged = proved(sets[size]["judge"]) * len(calls["correct"])
            yield load, way or LONGER, proved(calls["correct"]), judged + proved(calls[MOVE])


def times(loads):
    """For each program, load and call the ratio of the times in each sample. There are some runs, since the places of a process's code and data move a ratio."""
    found = {program: {load: collections.defaultdict(list) for load in names} for program, names in loads.items()}
    for program, names in loads.items():
        for load in names:
            since = time.monotonic()
            for _ in range(RUNS):
                for call, samples in rows("time", program, load).items():
                    found[program][load][call] += [ours / theirs for ours, theirs in samples]
            progress("times of %s %s" % (program, load), since)
    return found


def stack_lines(name, data, cases):
    """For each call of a stream a Stack for each time that it was made."""
    since, found, answers = time.monotonic(), [], stream.answers("stack", data)
    answered = [line for line in answers.lines if not line.startswith("stack ")]
    if len(answered) != len(cases):
        sys.exit("harness/run stack answers %d of the %d cases of %s: %s" % (len(answered), len(cases), name, answers.message))
    at = 0
    for line in answers.lines:
        if line.startswith("stack "):
            _, call, size = line.split()
            found.append((call, Stack(int(size), "%d of %s" % (at + 1, name), answered[at], 1, len(stream.packed(cases[at])))))
        else:
            at += 1
    progress("stack over %s" % name, since)
    return found


def stacks():
    """The Stack of each call over all stored streams."""
    most = {}
    stream.answers("stack", stream.NOTHING)  # builds it once
    for found in in_parallel(lambda stored: stack_lines(*stored), list(stream.stored())):
        for call, new in found:
            old = most.get(call, new._replace(made=0))
            deeper = max(old, new, key=lambda stack: stack.bytes)
            most[call] = deeper._replace(made=old.made + 1, longest=max(old.longest, new.longest))
    return most


def bounds():
    """For each program and call the bounds of its table in bench/bounds.txt: a ratio for each load that the call is measured on, bytes of stack, and what
    else a call is held to. The table after those has the loads that few calls on a set are measured on, a line for each."""
    *tables, few, _ = bound_tables()
    found = {program: table_bounds(table) for program, table in zip(PROGRAMS, tables)}
    for load, calls in table_bounds(few).items():
        for call, most in calls.items():
            if load in found[SETS][call]:
                sys.exit("FAILED - bench/bounds.txt has two bounds for %s on %s" % (call, load))
            found[SETS][call][load] = most
    return found


def number_bounds():
    """What each refusal number by itself is held to: GDT_EMPTY, and the others."""
    most = table_bounds(bound_tables()[-1])["most"]
    return most["1"], most["others"]


def bound_tables():
    with open(os.path.join(ROOT, "bench", "bounds.txt")) as file:
        return "".join(line for line in file if not line.startswith("#")).split("\n\n")


def table_bounds(table):
    """For the first word of each line the numbers in it, by the words of the table's head."""
    head, *lines = [line.split() for line in table.strip().split("\n")]
    firsts = [line[0] for line in lines]
    wrong = [line[0] for line in lines if len(line) != len(head) or firsts.count(line[0]) > 1]
    if wrong:
        sys.exit("FAILED - bench/bounds.txt: the line %s has not a number for each word of its head, or is there twice" % wrong[0])
    return {first: {word: float(most) for word, most in zip(head[1:], numbers) if most != "-"} for first, *numbers in lines}
