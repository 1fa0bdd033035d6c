"""The must-fail edits and their controls: what stands in their files, and one of them tried. And what a check of a crate costs. For tools/loop, tools/logs, tools/controls and three tests.
A file of edits has one slip, of the file's name, or several, each after a line `slip: NAME`; `rt ci` tries a file as a whole, tools/logs each slip alone. A control is that of one slip.
Every path is from the repository's root, at which the caller stands."""
import concurrent.futures
import difflib
import functools
import hashlib
import os
import re
import shutil
import subprocess
import tempfile
import time

from contracts import of_traits

ROOT = os.path.dirname(os.path.dirname(os.path.abspath(__file__)))
LOGS = os.path.join("target", "loop")
SLIP_LOGS = os.path.join("target", "must-fail")  # what the prover said of each slip alone
CRATE_LOGS = os.path.join("target", "log")  # and of each crate as it is, from nothing
COST, MADE_OF = "cost: ", "made of: "  # the last two lines of these logs: megabytes and processor seconds, and the sum of all that it was made from
CONTROLS = os.path.join("tests", "controls")
PARTS = ("src", "specs", "proofs")  # of a crate
MEGABYTES = 2000  # what a check may take: tests/budget
CHANGED = ("src/", "specs/")  # where a slip may stand: a proof that is broken says nothing
# lines of a check that are no complaint of their own: what went well, counts, and what only rests on something that was complained of
QUIET = re.compile(
    r"rt: (chose|rt check|rt lemma|\S+: begins) |(fn|struct|enum|impl) .*: proved$|logic |library |statements |crate \S+: modules |note: no function with a body |note: finished |.*: error: \d+ declarations? that depends? on "
)


class NotTried(Exception):
    """What was asked for cannot be tried, and why."""


def step(name, text):
    print("%-8s  %s" % (name, text), flush=True)


def ran(*words, folder=ROOT):
    """Status, output and seconds of a command, run at the repository's root or in this folder."""
    started = time.monotonic()
    run = subprocess.run(words, cwd=folder, text=True, errors="replace", stdin=subprocess.DEVNULL, stdout=subprocess.PIPE, stderr=subprocess.STDOUT)
    return run.returncode, run.stdout.rstrip("\n"), "%.0f s" % (time.monotonic() - started)


def complaints(said):
    return "\n".join(line for line in said.split("\n") if not QUIET.match(line))


# ---- What there is -----------------------------------------------------------------------------------------------------------------


def crates():
    """Each crate of crates.txt with those that it cites."""
    lines = [line.split("#")[0].partition(":") for line in open("crates.txt")]
    return {head.split()[0]: cited.split() for head, colon, cited in lines if colon}


def archives():
    """The crates that are static libraries."""
    return re.findall(r"^(\w+) staticlib *:", open("crates.txt").read(), re.M)


def below(crate, known):
    """The crates of the repository that a crate rests on, each once, after those that it rests on itself."""
    found = []
    for cited in known[crate]:
        found += [one for one in [*below(cited, known), cited] if one not in found] if cited in known else []
    return found


def stored(folder, suffix):
    return sorted(name.removesuffix(suffix) for name in os.listdir(folder) if name.endswith(suffix)) if os.path.isdir(folder) else []


def edit_files(crate):
    return stored(os.path.join("crates", crate, "must-fail"), ".edit")


def controlled(crate):
    """The slips of a crate that have a control."""
    return stored(os.path.join(CONTROLS, crate), ".control")


def chosen(what, name, names):
    """The name, which must be one of these."""
    if name not in names:
        near = difflib.get_close_matches(name, names, 3) or list(names)
        raise NotTried("there is no %s %s%s" % (what, name, "; there is: " + ", ".join(near) if near else ""))
    return name


def file_lines(path):
    if not os.path.isfile(path):
        raise NotTried("there is no file %s" % path)
    with open(path, encoding="utf-8") as file:
        return file.read().splitlines()


def worded(line):
    """A line `word: text`, in two."""
    word, _, text = line.partition(":")
    return word, text.removeprefix(" ")


def slips_in(crate, file):
    """The slips of a file of edits by name, each with its pairs: a file of the crate, the text that stands in it once, and the new text."""
    path = os.path.join("crates", crate, "must-fail", file + ".edit")
    lines, found, name, values = file_lines(path), {}, file, {}
    several = any(line.startswith("slip:") for line in lines)
    for line in lines:
        word, text = worded(line)
        if word == "slip":
            if not re.fullmatch("[a-z_0-9]+", text) or text in found or values.get("old"):
                raise NotTried("%s: 'slip: %s' names no new slip, or stands within a pair" % (path, text))
            found[text], name, values = [], text, {}
        elif word in ("file", "old"):
            values[word] = text
        elif word == "new":
            if several and not found or not values.get("file", "").startswith(CHANGED) or not values.get("old"):
                raise NotTried("%s: a pair of %s has no 'file:' under src/ or specs/, no 'old:', or no 'slip:' before it" % (path, name))
            found.setdefault(name, []).append((values["file"], values.pop("old"), text))
    if not found or not all(found.values()):
        raise NotTried("%s: it has no pair of 'old:' and 'new:', or a slip of it has none" % path)
    return found


def slips(crate):
    """The slips of a crate by name, each with the file that it stands in and its pairs."""
    found = {}
    for file in edit_files(crate):
        for name, of in slips_in(crate, file).items():
            if name in found:
                raise NotTried("%s has two slips %s, in %s and in %s" % (crate, name, found[name][0], file))
            found[name] = (file, of)
    return found


def pairs(crate, slip):
    known = slips(crate)
    return known[chosen("slip of %s named" % crate, slip, known)][1]


def file_pairs(crate, file):
    """All pairs of a file of edits, in their order."""
    return [pair for of in slips_in(crate, file).values() for pair in of]


def control(crate, slip):
    """The stored control of a slip: for each of its pairs the text that is put in the place of its old text."""
    path, texts, why = os.path.join(CONTROLS, crate, slip + ".control"), [], False
    for line in file_lines(path):
        if line.startswith("new:"):
            texts.append(worded(line)[1])
        elif not line.startswith("#"):
            raise NotTried("%s: a line that starts with neither '#' nor 'new:': %s" % (path, line))
        why |= line.startswith("#") and bool(line.strip("# "))
    if not why:
        raise NotTried("%s: no line '# ..' says why it is harmless" % path)
    if len(texts) != len(pairs(crate, slip)):
        raise NotTried("%s: %d lines 'new:' for %d pair(s) of the slip" % (path, len(texts), len(pairs(crate, slip))))
    return texts


# ---- One tried ---------------------------------------------------------------------------------------------------------------------

PLACE = r"^(?:\./)?"  # how the prover begins a line about a place of a file


def changed(crate, edit, changes, controls=()):
    """The files of a crate that these pairs change, or the texts of a control in the place of their new ones, each with its new text."""
    texts = {}
    if len(controls) > len(changes):
        raise NotTried("%s has %d pair(s), and --control is given %d times" % (edit, len(changes), len(controls)))
    for number, (name, old, new) in enumerate(changes):
        path = os.path.join("crates", crate, name)
        if not os.path.isfile(path):
            raise NotTried("pair %d of %s names %s, which %s does not have" % (number + 1, edit, name, crate))
        text = texts[name] if name in texts else open(path, encoding="utf-8").read()
        if text.count(old) != 1:
            raise NotTried("the old text of pair %d of %s is in %s %d times, not once: %s" % (number + 1, edit, name, text.count(old), old))
        texts[name] = text.replace(old, controls[number] if number < len(controls) else new)
    return texts


@functools.lru_cache(None)
def kit():
    return os.path.dirname(ran("rt", "doc")[1])


def checker(crate, jobs=1):
    """The kit's check of a crate that stands in the folder where it is called, over the libraries that `rt check` and `rt lib` left of the crates that it cites: the words that rt gives it."""
    known, of_kit = crates(), os.path.join(kit(), "rlibs")
    rlib = lambda name: os.path.join(ROOT, "crates", name, "out", "rlib")
    source = next(name for name in ("src/main.rt", "src/lib.rt") if os.path.exists(os.path.join(ROOT, "crates", crate, name)))
    words = [os.path.join(kit(), "bin", "rattle"), "check", "--crate-name", crate, source]
    for cited in ["std"] + known[crate]:
        words += ["--extern", "%s=%s/%s.rlib" % (cited, rlib(cited) if cited in known else of_kit, cited)]
    for folder in [of_kit, *map(rlib, below(crate, known))]:
        words += ["-L", "dependency=" + folder]
    words += ["--antt-project", os.path.join(kit(), "rattle", "logic", "antt-project.json"), "--logic-built", os.path.join(kit(), "logic_built")]
    return words + ["--jobs", str(jobs), "--links", crate + "=", *(["--crate-type", "staticlib"] if crate in archives() else [])]


def linked(folder, to):
    """Copies what a check kept. What was proved gets a second name: a check replaces such a file, and never writes into it."""

    def copy(one, other):
        try:
            if one.endswith(".oantt"):
                return os.link(one, other)
        except OSError:
            pass
        return shutil.copy2(one, other)

    shutil.copytree(folder, to, copy_function=copy)


def checked(crate, texts, log, over=True):
    """Status, output and seconds of a check of the crate with these files changed, over what its last check left or from nothing. The output is kept in the log, and what it cost."""
    started, kept = time.monotonic(), os.path.join("crates", crate, "out", "incremental")
    room = tempfile.mkdtemp(prefix="check-")
    os.makedirs(os.path.dirname(log), exist_ok=True)
    try:
        for part in PARTS:
            if os.path.isdir(os.path.join("crates", crate, part)):
                shutil.copytree(os.path.join("crates", crate, part), os.path.join(room, part))
        for name, text in texts.items():
            with open(os.path.join(room, name), "w", encoding="utf-8") as file:
                file.write(text)
        if over and os.path.isdir(kept):
            linked(kept, os.path.join(room, "kept"))
        with open(log, "w", encoding="utf-8") as file:
            run = subprocess.Popen([*checker(crate), *(["--incremental", "kept"] if over else [])], cwd=room, stdin=subprocess.DEVNULL, stdout=file, stderr=subprocess.STDOUT)
            status, used = os.wait4(run.pid, 0)[1:]
            run.returncode = os.waitstatus_to_exitcode(status)
    finally:
        shutil.rmtree(room, ignore_errors=True)
    with open(log, encoding="utf-8", errors="replace") as file:
        said = file.read().replace(room + "/", "")
    with open(log, "w", encoding="utf-8") as file:
        file.write("%s%s%d %.1f\n" % (said, COST, used.ru_maxrss // 1024, used.ru_utime + used.ru_stime))
    return run.returncode, said.rstrip("\n"), "%.0f s" % (time.monotonic() - started)


def log_of(crate, edit):
    return os.path.join(LOGS, crate, edit + ".log")


def slip_log(crate, slip):
    return os.path.join(SLIP_LOGS, crate, slip + ".log")


@functools.lru_cache(None)
def files_sum(crate):
    """The sum of the files that a check of the crate reads, those of the crates below it too, and of the kit."""
    known, found = crates(), hashlib.sha256(repr((ran("rt", "version")[1], crate in archives())).encode())
    for name in [*below(crate, known), crate]:
        found.update(repr((name, known[name])).encode())
        for folder, folders, names in (step for part in PARTS for step in os.walk(os.path.join("crates", name, part))):
            folders.sort()
            for path in (os.path.join(folder, one) for one in sorted(names)):
                with open(path, "rb") as file:
                    found.update(repr((path, file.read())).encode())
    return found.hexdigest()


def slip_sum(crate, slip):
    """The sum of all that the log of a slip is made from."""
    return hashlib.sha256(repr((files_sum(crate), pairs(crate, slip))).encode()).hexdigest()


def crate_log(crate):
    return os.path.join(CRATE_LOGS, crate + ".log")


def sign(log, made_of):
    with open(log, "a", encoding="utf-8") as file:
        file.write(MADE_OF + made_of + "\n")


def told_in(log, made_of):
    """What the prover said in a log; nothing if it is not there, not whole, or made of other files than there are."""
    said, _, of = open(log, encoding="utf-8", errors="replace").read().rpartition(MADE_OF) if os.path.exists(log) else ("", "", "")
    return said if of.strip() == made_of and re.search(r"^logic=", said, re.M) else ""


def told_of_slip(crate, slip):
    return told_in(slip_log(crate, slip), slip_sum(crate, slip))


def told_of_crate(crate):
    return told_in(crate_log(crate), files_sum(crate))


def cost(said):
    """Megabytes and processor seconds of the check that said this; nothing if it does not tell."""
    found = re.search(r"^%s(\d+) ([\d.]+)$" % COST, said, re.M)
    return (int(found[1]), float(found[2])) if found else None


def crate_checked(crate):
    """Whether a crate is proved from nothing, and the line that says so. What the prover says is kept with the sum of what it was made from."""
    made_of, log = files_sum(crate), crate_log(crate)
    status, said, took = checked(crate, {}, log, over=False)
    good = status == 0 and re.search("^logic=proved ", said, re.M)
    if good:
        sign(log, made_of)
    return bool(good), "%s %s" % (crate, "is proved (%s)" % took if good else "is NOT PROVED, status %d, see %s" % (status, log))


GONE = PLACE + r"proofs/(?:\w+/)*(\w+)/\w+\.antt:\d+:\d+: error: .*: module `[^`]*` has no `([^`]+)` that can be named"
ASKED = r"^help: `\w+` has no `%s`; rattle asks for (.*)$"
UNPROVED = r"^note: .* \(`([^`]+)`\)"  # of any function, where the prover says no more
LOST = PLACE + r"proofs/(?:\w+/)*(\w+)/\w+\.antt:\d+:\d+: error: .*: record `[^`]*` has no field `([^`]+)` \(nearest: ([^)]*)\)"
BRANCH = r".*?(?:^|-)(?:then|else|if|loop)-"  # how the name of a goal goes on: the condition of a branch, by its words


def renamed(crate, said):
    """The answers of functions in which the prover names a goal or a fact by the words of a condition, where the changed code has other words: these files with the new names, so that the
    answers are tried there. For each pair of names, too, that it was put for another. A goal's new name begins as the old one, and no answer has it; a fact's is the old one with more words."""
    texts, pairs = {}, set()
    for function, gone in re.findall(GONE, said, re.M):
        begins = re.match(BRANCH, gone)
        asked = {name for some in re.findall(ASKED % re.escape(gone), said, re.M) for name in re.findall(r"`([^`]+)`", some)} or set(re.findall(UNPROVED, said, re.M))
        known = "".join(texts_of(crate, function).values())
        found = {name[begins.end() :] for name in asked if begins and name.startswith(begins[0]) and not re.search(r"^(?:pub )?%s(?![\w-])" % re.escape(name), known, re.M)}
        pairs |= {(function, r"(?<=-)%s(?![\w-])" % re.escape(gone[begins.end() :]), found.pop())} if len(found) == 1 else set()
    for function, lost, near in re.findall(LOST, said, re.M):
        found = [name for name in re.findall(r"\.([\w-]+)", near) if name.startswith(lost + "-")]
        pairs |= {(function, r"(?<=\.)%s(?![\w-])" % re.escape(lost), found[0])} if len(found) == 1 else set()
    for function, old, new in sorted(pairs):
        for path, text in {**texts_of(crate, function), **{path: text for path, text in texts.items() if "/%s/" % function in path}}.items():
            texts[path] = re.sub(old, new, text)
    return texts


def texts_of(crate, function):
    """The files of a function's proof, by their names in the crate."""
    folder = os.path.join("crates", crate)
    paths = [os.path.join(at, name) for at, _, names in os.walk(os.path.join(folder, "proofs")) for name in names if os.path.basename(at) == function]
    return {os.path.relpath(path, folder): open(path, encoding="utf-8").read() for path in sorted(paths)}


def tried(crate, edit, pairs_of, controls=()):
    """Whether a slip or a file of edits is refused, or a slip's control proved, and the line that says so; after it all complaints, if a control is not proved.
    The log of a slip alone is kept with the sum of what it was made from. If the changed code has other words for a condition, answers are tried by its words."""
    alone = pairs_of is pairs and not controls
    name, log = "the control of " + edit if controls else edit, slip_log(crate, edit) if alone else log_of(crate, edit)
    try:
        made_of = slip_sum(crate, edit) if alone else ""
        texts = changed(crate, edit, pairs_of(crate, edit), controls)
        status, said, took = checked(crate, texts, log)
        answers = renamed(crate, said) if pairs_of is pairs and status == 1 else {}
        if answers:
            status, said, took = checked(crate, {**texts, **answers}, log)
    except NotTried as why:
        return False, "NOT TRIED: %s" % why
    if alone and status == 1:
        sign(log, made_of)
    if status == 0 and re.search("^logic=proved", said, re.M):
        return bool(controls), "%s %s (%s)" % (name, "is proved" if controls else "is NOT REFUSED: the crate is proved with it", took)
    if status != 1 or not re.search("^logic=not-proved", said, re.M):
        return False, "%s DID NOT REACH THE PROVER, see %s: %s" % (name, log, said.split("\n")[0])
    place = re.search(r"^(\S+\.(?:rt|antt):\d+:\d+): error", said, re.M) or re.search(r"^(?:note: )?(\S+\.(?:rt|antt):\d+:\d+)", said, re.M)
    first = "first at %s (%s)" % (place[1] if place else "?", took)
    if controls:
        return False, "%s is NOT PROVED, see %s, %s\n%s" % (name, log, first, complaints(said))
    if senseless(said):
        return False, "%s is REFUSED FOR NO FACT, see %s: %s" % (name, log, senseless(said)[0])
    every, itself = failed(said, crate)
    return True, "%s is refused, %s; by itself failed: %s" % (name, first, shortened(sorted(itself or every)))


def shortened(names):
    return ", ".join(names[:4] + ["and %d more" % (len(names) - 4)] * (len(names) > 4))


def tried_all(wanted):
    """What became of each (crate, edit, pairs_of, controls), in their order."""
    yield from at_once(lambda one: tried(*one), wanted)


def at_once(call, wanted):
    """What a call that checks gives of each, in their order: as many at a time as there are cores, or as RT_JOBS says, and as find room in the memory that is free."""
    with open("/proc/meminfo") as file:
        free = int(re.search(r"^MemAvailable: *(\d+)", file.read(), re.M)[1]) // 1024
    most = int(os.environ.get("RT_JOBS") or len(os.sched_getaffinity(0)))
    with concurrent.futures.ThreadPoolExecutor(max(1, min(most, free // MEGABYTES))) as workers:
        yield from workers.map(call, wanted)


# ---- What the prover said ----------------------------------------------------------------------------------------------------------


DEPENDS = r"\d+ declarations? that depends? on `(\S+)`.*not checked: (.*)"  # what was not checked since it rests on what failed: the first three of it
NO_NAME = "is not in scope|has no `|has no field"  # a name that nothing has
BY_WORDS = r"record `Rattle\.\S*\.Lts\.[^`]*` has no field `if-|module `Rattle\.\S*\.Goals` has no `[^`]*-(?:then|else|if|loop)-"  # one that the prover makes by the words of a condition
CALLS = "it calls |which has no proof|its contract rests on "  # a function has no proof since it rests on another
OWN_GOALS = "did not prove|expected a measure|expected an invariant|expected answers"  # what of its own is not proved, beside that


def declared(lines):
    """Each declaration of these lines of a file, and of the modules in it, with its text: its signature and its equations, where a block begins at the least indentation."""
    indent = min((len(line) - len(line.lstrip()) for line in lines if line.strip()), default=0)
    blocks = []
    for line in lines:
        if line.strip() and len(line) - len(line.lstrip()) == indent:
            blocks.append([])
        if blocks:
            blocks[-1].append(line)
    for block in blocks:
        head = re.match(r"(?:(?:pub|abbrev|unfoldable|record|data) )*([^\s:=(){}]+)", block[0].lstrip())
        if head and head[1] == "module":
            yield from declared(block[1:])
        elif head and head[1] not in ("use", "mod", "open", "unfolding"):
            yield head[1], "\n".join(block)


def resting(crate, path, name):
    """The declarations of a file of a crate that name this one, and those that name these."""
    with open(os.path.join("crates", crate, path + ".antt"), encoding="utf-8") as file:
        lines = re.sub(r"--.*", "", file.read()).split("\n")
    texts, found, reached = {}, set(), {name}
    for one, text in declared(lines):
        texts[one] = texts.get(one, "") + text
    while reached:
        reached = {one for one, text in texts.items() if one not in found and reached & set(re.findall(r"[^\s(){},;]+", text)) - {one}}
        found |= reached
    return found


def failed(log, crate):
    """What failed in a prover's log: all of it by name, and what failed by itself, not because it rests on another that failed."""
    every, itself = set(), set()
    for module, name, why in re.findall(PLACE + r"(?:proofs|specs)/(\w+)\.antt:\d+:\d+: error: `(\S+)`: (.*)", log, re.M):
        label = "%s:%s.%s" % (crate, module, name)
        every.add(label)
        itself |= set() if "was not admitted" in why else {label}
    for path, name, names in re.findall(PLACE + r"((?:proofs|specs)/\w+)\.antt:\d+:\d+: error: " + DEPENDS, log, re.M):
        said = {one for one in re.split(", | and ", re.sub(r" \(via \S+\)", "", names)) if not re.fullmatch(r"\d+ more", one)}
        every |= {"%s:%s.%s" % (crate, os.path.basename(path), one) for one in said | (resting(crate, path, name) if names.endswith(" more") else set())}
    for full, name, why in re.findall(r"^fn (%s::(?:\w+::)*(\w+)): (not proved.*|no proof.*)$" % crate, log, re.M):
        label = full if full in of_traits() else "%s::%s" % (crate, name)
        own = re.findall(PLACE + r"proofs/(?:\w+/)*%s/\w+\.antt:\d+:\d+: error: `\S+`: (.*)" % name, log, re.M)
        every.add(label)
        rests = re.search(CALLS, why) and not re.search(OWN_GOALS, why)
        itself |= {label} if not rests or any("was not admitted" not in line for line in own) else set()
    return every, itself


def senseless(log):
    """What in a prover's log shows that an edit says nothing that could be wrong: an error in the changed definitions or code themselves, a name that nothing has, or an error
    of a whole file, as a name that it cannot import. A fact that does not hold is an error of one declaration of proofs/, or of what depends on one, or none in a file of it.
    A name that the prover makes by the words of a condition may be gone in the proof of a function that fails for a fact, too: an edit may exchange two conditions."""
    errors = re.findall(PLACE + r"(\S+?\.(?:rt|antt):\d+:\d+): error(.*)", log, re.M)
    fact = r": (`[^`]+`: |%s)" % DEPENDS
    wrong = [(place, why) for place, why in errors if not place.startswith("proofs/") or re.search(NO_NAME, why) or not re.match(fact, why)]
    by_fact = {os.path.dirname(place) for place, why in errors if (place, why) not in wrong}
    return [place + why for place, why in wrong if not (re.search(BY_WORDS, why) and os.path.dirname(place) in by_fact)]


def proved(crate):
    status, said, took = ran("rt", "check", folder=os.path.join(ROOT, "crates", crate))
    if status != 0:
        print(complaints(said))
    functions = re.findall(r"^logic=proved functions=(\d+)", said, re.M)  # of the crates below, too; the last is the crate's own
    step("proof", "%s is %s (%s)" % (crate, "proved, %s functions" % functions[-1] if functions and status == 0 else "NOT PROVED", took))
    return status == 0
