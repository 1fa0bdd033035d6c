"""programs.py: an example built over the proved library and over the second program, each run in a folder of its own, on outputs that can be written and that cannot; the second program as a
library; the commands and links of a page; and the lines of what is tried. Shared by tests/day, tests/cable, tests/example, tests/gdtlist, tests/header, tests/pipeline, tests/readme, tests/release
and tests/sets. Assumes gcc, for the proved library the Rattle kit, and that the working folder is the project's."""
import contextlib
import ctypes
import os
import platform
import re
import resource
import shlex
import shutil
import signal
import subprocess
import tempfile

NATIVE = platform.machine() == "x86_64"  # else the proved programs run under the kit's emulator
HEADERS = "errno.h fcntl.h poll.h signal.h stdbool.h stddef.h stdint.h stdio.h stdlib.h string.h sys/wait.h termios.h time.h unistd.h".split()
STRICT = ["-Wall", "-Wextra", "-Werror", "-I", "include"]
SANITIZED = ["-std=c11", "-fsanitize=address,undefined", "-fno-sanitize-recover"]
PATIENCE = 20  # seconds until a program that should go on is given up
# What the examples take from C's headers and tools/x86.h has not, by header.
MORE_NAMES = {
    "errno.h": "#define EINVAL 22\n#define ENAMETOOLONG 36\n",
    "fcntl.h": "#define F_GETFD 1\n",
    "stdio.h": "extern void *stdout;\nint ferror(void *);\nint fclose(void *);\n",
}
# Linked to an example over the second program. One thing is otherwise than the program may think, by the variable HARSH: what is printed is written `at once`, so that no last flush sees a
# failed write; or `close` of standard output, `fsync` of a file or of a `folder` fails, as on a disk that tells late that it is full.
HARSH = """
#include <errno.h>
#include <stdio.h>
#include <stdlib.h>
#include <string.h>
#include <sys/stat.h>
int __real_close(int number);
int __real_fclose(FILE *stream);
int __real_fsync(int number);
int __wrap_close(int number);
int __wrap_fclose(FILE *stream);
int __wrap_fsync(int number);
static int is_harsh(const char *what)
{
    const char *asked = getenv("HARSH");
    return asked != NULL && strcmp(asked, what) == 0;
}
static int failed(const char *what, int done)
{
    if (!is_harsh(what)) {
        return done;
    }
    errno = EIO;
    return -1;
}
int __wrap_close(int number) { return number == 1 ? failed("close", __real_close(number)) : __real_close(number); }
int __wrap_fclose(FILE *stream) { return failed("close", __real_fclose(stream)); }
int __wrap_fsync(int number)
{
    struct stat found;
    return failed(fstat(number, &found) == 0 && S_ISDIR(found.st_mode) ? "folder" : "fsync", __real_fsync(number));
}
__attribute__((constructor)) static void start(void)
{
    if (is_harsh("at once")) {
        setvbuf(stdout, NULL, _IONBF, 0);
    }
}
"""
WRAPPED = "-Wl,--wrap=close,--wrap=fclose,--wrap=fsync"


class Program:
    """The example over one of the two programs, the folder in which it runs, and how it is started."""

    def __init__(self, room, name, start, harsh=False):
        self.folder = os.path.join(room, name + ".files")
        self.command = [*start, os.path.join(room, name)]
        self.harsh = harsh  # HARSH is in it
        os.mkdir(self.folder)

    def start(self, *words, limit=None, ignored=False, full=False, broken=False, into=None, closed=(), harsh=""):
        """Starts it. It may write files of `limit` bytes: one byte more stops it, or if that is `ignored` the write fails. Standard output may be `full`, a `broken` pipe that nobody reads and
        whose signal is ignored, or go `into` an open file; the streams of these numbers may be `closed`. `harsh`: see HARSH."""

        def before():
            resource.setrlimit(resource.RLIMIT_CORE, (0, 0))
            if limit is not None:
                resource.setrlimit(resource.RLIMIT_FSIZE, (limit, limit))
            if ignored:
                signal.signal(signal.SIGXFSZ, signal.SIG_IGN)
            if broken:
                signal.signal(signal.SIGPIPE, signal.SIG_IGN)
            for number in closed:
                os.close(number)

        pipe = subprocess.PIPE
        surroundings = {**os.environ, "ASAN_OPTIONS": "detect_leaks=0", "HARSH": harsh}
        with open("/dev/full", "wb") as no_room, unread_pipe() as unread:
            out = no_room if full else unread if broken else into or pipe
            return subprocess.Popen([*self.command, *words], cwd=self.folder, env=surroundings, stdin=pipe, stdout=out, stderr=pipe, preexec_fn=before)

    def run(self, *words):
        return answer(self.start(*words))

    def path(self, name):
        return os.path.join(self.folder, name)

    def files(self):
        """What the folder holds: the bytes of each file, None for what is not a file."""
        found = {}
        for name in os.listdir(self.folder):
            found[name] = open(self.path(name), "rb").read() if os.path.isfile(self.path(name)) else None
        return found

    def put(self, files):
        """Makes the folder hold just these files; None is a folder."""
        for name in os.listdir(self.folder):
            (os.rmdir if os.path.isdir(self.path(name)) else os.remove)(self.path(name))
        for name, data in files.items():
            if data is None:
                os.mkdir(self.path(name))
            else:
                with open(self.path(name), "wb") as out:
                    out.write(data)


def unread_pipe():
    """The end to write of a pipe that nobody reads."""
    reading, writing = os.pipe()
    os.close(reading)
    return os.fdopen(writing, "wb")


def bad_outputs(program):
    """How this program is started so that nothing of what it prints can be written, and why that is so in the system's words. An emulator may have opened a file in the place of a closed stream."""
    yield {"full": True}, "No space left on device"
    yield {"broken": True}, "Broken pipe"
    if program.harsh:
        yield {"full": True, "harsh": "at once"}, "No space left on device"
    if NATIVE or program.harsh:
        yield {"closed": (1,)}, "Bad file descriptor"


def answer(process, given=b""):
    """The status of a started program, and what it prints."""
    try:
        out, told = process.communicate(given, timeout=PATIENCE)
    except subprocess.TimeoutExpired:
        process.kill()
        raise
    return process.returncode, (out or b"").decode("latin-1"), told.decode("latin-1")


def put_stand_ins(room):
    """Stand-ins in this folder for the headers of C that the kit's compiler has not."""
    os.mkdir(os.path.join(room, "sys"))
    for header in HEADERS:
        with open(os.path.join(room, header), "w") as stand_in:
            stand_in.write('#include "x86.h"\n' + MORE_NAMES.get(header, ""))


def archives():
    """The paths of the proved library's archives."""
    return subprocess.run(["sh", "tools/library"], check=True, stdout=subprocess.PIPE, text=True).stdout.split()


def built(room, example):
    """The example over the proved library, with the kit's compiler, and over the second program, with gcc, its headers and its sanitizers, and with HARSH."""
    put_stand_ins(room)
    own = ["-DX86_OWN_NAMES", "-I", room, *STRICT, "-o", os.path.join(room, "proved"), example]
    subprocess.run(["sh", "tools/x86cc", *own, *archives()], check=True)
    words = ["gcc", *SANITIZED, *STRICT, WRAPPED, "-o", os.path.join(room, "second"), example, "second/gdt.c", "-x", "c", "-"]
    subprocess.run(words, input=HARSH.encode(), check=True)
    return Program(room, "proved", ["sh", os.path.abspath("tools/x86run")]), Program(room, "second", [], harsh=True)


# ---- The commands and links of a page ------------------------------------------------------------------------------------------

COMPILERS = ("gcc", "g++", "rustc")
# What the programs of README.md and docs/RELEASE.md print, by the start of the command.
PRINTED = {
    "./gdtlist": "set 6300 51 4\n1 8000 7 4 0\n2 8100 20 5 0\n3 9218 34 5 0\n4 3000 48 1 0\n",
    "./correct": """1: 8000 6300
2: 8100 00051
3: 9218 02.10
4: 3000 0
01380006300\r
014810000055\r
014921802.10\r
014300010027\r
""",
    "./day add": "added set 1: type 6300 (root data request), 51 bytes from byte 0 on\n",
    "./day find": "sets of patient 0 in today.gdt: 1\nset 1: type 6300 (root data request), 51 bytes from byte 0 on\n",
    "./day check": "sets in today.gdt: 1, all accepted, 51 bytes\ntoday.gdt.idx agrees\n",
    "./cable": """    received count 0, B00, 21 bytes: taken, ACK 1
block 1 of 2, count 0, B00, 21 bytes: ACK 1, next block
    received 43 bytes: refused by 26 (the CRC is not the block's), ACK 0
block 2 of 2, count 1, B02, 43 bytes (damaged): ACK 0, same block again
    set of 51 bytes added to received.gdt
    received count 1, B02, 43 bytes: the set is whole, ACK 1
block 2 of 2, count 1, B02, 43 bytes: ACK 1, all sent
delivered: set.gdt
""",
    "./recode": "01380006300\r\n014810000061\r\n01092063\r\n014921802.10\r\n01030000\r\n",
    "./pipeline": """1: 8000 6310
2: 8100 00116
3: 9218 02.10
4: 3000 7
5: 3101 M\x81ller
6: 8402 EKG01
7: 8410 FEV1
8: 8420 -3.7
9: 8421 l
pending:
4: 3000 10027
8: 8420 -3.9
both corrections are kept: either order gives the same 120 bytes
added to archived.gdt as set 1; sets of patient 10027 there: 1
set 1: type 6310, 130 bytes from byte 0 on
""",
}
JUDGED = "type 6300, 51 bytes, 4 lines\n"  # by each `judge`; the one in C++ also prints the lines
JUDGED_LINES = JUDGED + "8000 6300\n8100 00051\n9218 02.10\n3000 0\n"


def ran(*words, **how):
    """Status, output and errors of a command."""
    done = subprocess.run(words, stdout=subprocess.PIPE, stderr=subprocess.PIPE, check=False, **how)
    return done.returncode, done.stdout.decode("latin-1"), done.stderr.decode("latin-1")


def makes(command):
    """The program that a compiler's command makes, as it is then called; None if it is another command."""
    words = shlex.split(command)
    if words[0] not in COMPILERS:
        return None
    if "-o" in words:
        return "./" + words[words.index("-o") + 1]
    return "./" + next((os.path.splitext(os.path.basename(word))[0] for word in words if word.endswith(".rs")), "a.out")


class Shell:
    """Gives the commands of a page in a folder: as they stand on x86-64, with this path; else C goes through the kit's compiler, and what it makes runs under the kit's emulator."""

    def __init__(self, folder, room, path=None):
        self.folder, self.path, self.missing = folder, path or os.environ["PATH"], set()
        self.headers = os.path.join(room, "headers")
        os.mkdir(self.headers)
        put_stand_ins(self.headers)

    def lacks(self, command):
        """The tool that is missing for this command, if one is that may be missing: without gcc the command fails."""
        words, program = shlex.split(command), makes(command)
        gone = [tool for tool in ("g++", "rustc", "pkg-config") if tool in words and not (NATIVE and shutil.which(tool, path=self.path))]
        if program:
            (self.missing.add if gone else self.missing.discard)(program)
        return next(iter(gone), None) or next((word for word in words if word in self.missing), None)

    def give(self, command):
        words = shlex.split(command)
        if not NATIVE and words[0] == "gcc":
            return ran("sh", os.path.abspath("tools/x86cc"), "-DX86_OWN_NAMES", "-I", self.headers, *words[1:], cwd=self.folder)
        for word in [] if NATIVE else words:
            self.emulate(os.path.join(self.folder, word))
        return ran("sh", "-c", command, cwd=self.folder, stdin=subprocess.DEVNULL, env={**os.environ, "PATH": self.path})

    @staticmethod
    def emulate(path):
        """Puts a script that runs the program under the kit's emulator in its place, if it is a program."""
        if not os.path.isfile(path) or open(path, "rb").read(4) != b"\x7fELF":
            return
        os.rename(path, path + ".x86")
        with open(path, "w") as script:
            script.write('#!/bin/sh\n%s "$@"\n' % shlex.join(["exec", "sh", os.path.abspath("tools/x86run"), path + ".x86"]))
        os.chmod(path, 0o755)


def page_of(path):
    with open(path, encoding="utf-8") as file:
        return file.read()


def anchors(text):
    """The anchors of a page's headings: small letters, and a hyphen for a space; other signs are left out."""
    headings = re.findall(r"^#+ +(.*?) *$", re.sub(r"^```.*?^```$", "", text, flags=re.M | re.S), re.M)
    return {re.sub(r"[^\w\- ]", "", heading.lower()).replace(" ", "-") for heading in headings}


def links(text):
    """The relative links of a page, as path and anchor; the path is empty in a link to the page itself. And what looks like a link in another form than [words](path)."""
    plain = re.sub(r"^```.*?^```$|`[^`\n]*`", "`", text, flags=re.M | re.S)
    form = r"\[[^\[\]]*\]\(([^()\s]+)\)"
    strange = re.findall(r"\][(\[][^)\]]*.?|^ *\[[^\]]+\]:.*|<a .*?>", re.sub(form, "", plain), re.M)
    return [(path, anchor) for path, _, anchor in (link.partition("#") for link in re.findall(form, plain)) if not re.match(r"\w+:", path)], strange


class Judged(ctypes.Structure):
    _fields_ = [(name, ctypes.c_size_t) for name in ("no", "place", "label", "length", "lines", "type")]


class Made(ctypes.Structure):
    _fields_ = [(name, ctypes.c_size_t) for name in ("no", "place", "label", "count")]


class Entry(ctypes.Structure):
    _fields_ = [(name, ctypes.c_size_t) for name in ("label", "place", "length", "header")]


def second_program(*more):
    """The second program as a library of this process, with more files of C."""
    with tempfile.TemporaryDirectory() as folder:
        path = os.path.join(folder, "second.so")
        subprocess.run(["gcc", "-std=c11", "-O2", "-shared", "-fPIC", "-I", "include", "second/gdt.c", *more, "-o", path], check=True)
        library = ctypes.CDLL(path)
    library.gdt_judge.restype = Judged
    library.gdt_index.restype = Made
    return library


class Trial:
    """The cases of a test: each prints a line with the test's name."""

    def __init__(self, name):
        self.name = name
        self.wrong = []  # what was not as expected in the case that is tried
        self.failed = False

    @contextlib.contextmanager
    def case(self, name):
        self.wrong.clear()
        try:
            yield
        except (OSError, subprocess.SubprocessError) as error:
            self.wrong.append(repr(error))
        print("%s - %s: %s" % ("FAILED" if self.wrong else "ok", self.name, name), flush=True)
        for line in self.wrong[:8]:
            print("  " + line[:1000])
        self.failed |= bool(self.wrong)

    def not_tried(self, name, why):
        """What cannot be tried on this machine is neither good nor bad."""
        print("not tried - %s: %s: %s" % (self.name, name, why), flush=True)

    def output(self, program, words, whole, status, told, given=b""):
        """All that the program prints comes out, through a pipe and into a file. If it cannot be written, or only the first half, or the last close fails, the status is this one, and what
        is told is this with the reason in it."""
        self.same("into a pipe", answer(program.start(*words), given), (0, whole, ""))
        half = len(whole) // 2
        for how, printed, wanted in (({}, whole, (0, "", "")), ({"limit": half, "ignored": True}, whole[:half], (status, "", told % "File too large"))):
            with tempfile.TemporaryFile() as into:
                self.same("into a file, %s" % how, answer(program.start(*words, into=into, **how), given), wanted)
                into.seek(0)
                self.same("the bytes of the file, %s" % how, into.read().decode("latin-1"), printed)
        for how, why in bad_outputs(program):
            self.same("output that is %s" % how, answer(program.start(*words, **how), given), (status, "", told % why))
        if program.harsh:
            self.same("a close that fails", answer(program.start(*words, harsh="close"), given), (status, whole, told % "Input/output error"))

    def same(self, what, got, expected):
        if got != expected:
            self.wrong.append("%s: got %r, expected %r" % (what, got, expected))
