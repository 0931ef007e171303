"""The tests of POSIX threads that glibc has: those of its folders nptl and sysdeps/pthread.

By hand, and only with a network, unless --sources has glibc's archive: it takes Debian's sources of glibc, builds glibc's own support for
tests, and each test that applies to this machine, unchanged, and runs it by guest/dthreads-exec with 1 and 4 workers. A test applies unless its
source names what a reason of REASONS looks for. It prints each test that fails, with what it said, how many pass, and how many don't apply, by
reason. What fails must be what docs/C-REFERENCE.md lists. DTHREADS names the program to run the tests with, or else ./dthreads.
"""
import glob
import os
import re
import subprocess
import tempfile
from collections import Counter, namedtuple

from dt_commands import guest_runs, lanes
from dt_commands.progress import Progress
from dt_commands.real_programs import Archives, Failure
from dt_commands.repository import TOP
from dt_commands.texts import contents

FOLDERS = ["nptl", "sysdeps/pthread"]
UNPACKED = ["*/nptl", "*/sysdeps/pthread", "*/support", "*/posix/tst-vfork*.c", "*/elf/tst-unwind-main.c",
            "*/test-skeleton.c", "*/include/intprops.h", "*/include/array_length.h", "*/include/scratch_buffer.h",
            "*/include/libc-pointer-arith.h", "*/include/libc-diag.h"]
WORKERS = (1, 4)
BOUND, SECONDS = "4000000000", 1800
# Files of glibc's support for tests that are for other tests.
LEFT_OUT = re.compile(r"tst-|links-dso|-container|resolv|dns|net|chroot|addr|xdl|_fuse|time64|test-driver|openpty|hostent|herrno|_main$|"
                      r"copy_file|descriptor|stack_alloc|small_stack|process_state")
PATHS = "OBJDIR OBJDIR_ELF_LDSO SLIBDIR SRCDIR INSTDIR ROOTSBINDIR LIBDIR BINDIR SBINDIR SYSCONFDIR COMPLOCALEDIR".split()
# Why a test doesn't apply: what its source names. The first that it has is told.
REASONS = {
    "processes": r"\b(x?fork|vfork|x?waitpid|exec[lv]\w*|posix_spawn\w*|popen|system|clone|support_capture\w*|support_isolate\w*|call_system)\b *\(",
    "shared libraries": r"\bx?dl(open|sym|mopen)\b|dlfcn\.h|RTLD_|audit-threads",
    "glibc's own headers": r"internaltypes\.h|tst-stack-align\.h|ldsodefs|lowlevellock|futex-internal|pthreadP?\.h\"|<(atomic|tls|libc-internal|kernel-features|"
                           r"nptl/\w+|libio/\w+|internal-signals|mcheck|execinfo|thread_state|malloc-internal|stackinfo|stap-probe|"
                           r"libc-symbols|shlib-compat|resolv|sys/prctl|sys/single_threaded|gnu/lib-names|elf/\w+|descr|not-cancel)\.h>",
    "files mapped, shared memory": r"MAP_SHARED|shm_open|\bmmap *\(",
    "sockets and message queues": r"socketpair|\bx?socket *\(|mqueue\.h|mq_open|msgrcv",
    "asynchronous input, timers, clocks of processes": r"aio\.h|timer_create|clock_getcpuclockid|pthread_getcpuclockid|signalfd|eventfd",
    "users and priorities": r"set(re|res)?[ug]id *\(|sched_setscheduler|SCHED_FIFO|SCHED_RR|setpriority|tst-tpp\.h",
    "processors of a thread": r"affinity|sched_getcpu|rseq",
    "locales and other files of the host": r"/proc/|/usr/|newlocale|setlocale *\([^)]*\"\w\w_",
}
# The page with the table of the tests that fail, and why; and a row of it.
PAGE, SECTION = f"{TOP}/docs/C-REFERENCE.md", "## glibc's tests of threads"
ROW = re.compile(r"^\| (`.*`) \| (.*) \|$", re.M)

Test = namedtuple("Test", "name file text")


def arguments(parser):
    parser.add_argument("names", nargs="*", metavar="NAME", help="the tests, as tst-cond1 (default: all)")
    parser.add_argument("--sources", metavar="FOLDER", help="a folder that keeps the fetched archive, and has it from an earlier call")
    parser.add_argument("--lanes", type=int, default=2, metavar="N", help="how many at a time (default: 2)")
    guest_runs.with_share(parser)


def read(file):
    with open(file, encoding="utf-8", errors="replace") as it:
        return it.read()


def with_included(file, folder):
    """Returns the text of a test, with those of the tests that it includes."""
    text = read(file)
    for name in re.findall(r'^ *# *include [<"]((?:\w+/)*tst-[\w-]+\.[ch])[>"]', text, re.M):
        places = [f"{os.path.dirname(file)}/{name}", f"{folder}/{name}", *(f"{folder}/{at}/{os.path.basename(name)}" for at in FOLDERS)]
        found = [it for it in places if os.path.exists(it)]
        text += with_included(found[0], folder) if found else ""
    return text


def failing():
    """Returns why each of the tests fails that the page names, by their names."""
    rows = ROW.findall(read(PAGE).partition(SECTION)[2])
    return {f"tst-{name}": why for names, why in rows for name in re.findall(r"`([\w-]+)`", names)}


def tests(folder):
    """Returns the tests that the makefiles name, but for those that need options of their own."""
    found = {}
    for at in FOLDERS:
        makefile = read(f"{folder}/{at}/Makefile").replace("\\\n", " ")
        for names in re.findall(r"^tests *\+?= *([^#\n]*)", makefile, re.M):
            for name in names.split():
                files = [it for it in (f"{folder}/{at}/{name}.c", *(f"{folder}/{it}/{name}.c" for it in FOLDERS)) if os.path.exists(it)]
                if files:
                    found[name] = Test(name, files[0], with_included(files[0], folder))
    return [found[it] for it in sorted(found)]


def reason(test):
    """Returns why a test doesn't apply, or None."""
    return next((it for it, pattern in REASONS.items() if re.search(pattern, test.text)), None)


def words(folder):
    """Returns the words for the compiler of each file."""
    paths = [f'-D{it}_PATH="/"' for it in PATHS]
    return ["-O1", "-w", "-std=gnu11", "-D_GNU_SOURCE", "-DTIMEOUTFACTOR=1", '-DOBJPFX="/tmp/"', *paths, "-include", f"{TOP}/tools/guests/glibc.h",
            f"-I{folder}", f"-I{folder}/support", f"-I{folder}/apart", *(part for it in FOLDERS for part in ("-iquote", f"{folder}/{it}"))]


def support(folder):
    """Builds glibc's support for tests, as far as it builds, and returns the archive."""
    os.makedirs(f"{folder}/objects", exist_ok=True)
    os.makedirs(f"{folder}/apart", exist_ok=True)
    for it in glob.glob(f"{folder}/include/*.h"):
        os.replace(it, f"{folder}/apart/{os.path.basename(it)}")
    for name in ("config.h", "stackinfo.h"):
        open(f"{folder}/apart/{name}", "w", encoding="utf-8").close()
    for file in sorted(glob.glob(f"{folder}/support/*.c")):
        name = os.path.basename(file)[:-2]
        if name == "support_test_main" or not LEFT_OUT.search(name):
            guest_runs.compiled([*words(folder), "-c", file], f"{folder}/objects/{name}.o")
    archive = f"{folder}/libsupport.a"
    subprocess.run(["riscv64-unknown-elf-ar", "rcs", archive, *sorted(glob.glob(f"{folder}/objects/*.o"))], check=True)
    return archive


def is_wanted(text, status):
    """Says whether a test may end so: it names another status than 0, or a signal, if it is to end by that."""
    named = re.search(r"^#\s*define\s+EXPECTED_STATUS\s+(\d+)", text, re.M)
    if re.search(r"^#\s*define\s+EXPECTED_SIGNAL\b", text, re.M):
        return status > 128
    return status == (int(named[1]) if named else 0)


def run(elf, workers, room):
    """Runs a test. Returns its status and text, or None if it didn't end."""
    command = [f"{guest_runs.KIT}/dthreads-exec", elf, "--workers", str(workers), "--bound", BOUND, "--digest", f"{room}/digest", "--", "--direct"]
    return guest_runs.ended_within(SECONDS, command)


def tried(test, folder, archive):
    """Builds and runs a test. Returns what is wrong with it, or nothing."""
    with tempfile.TemporaryDirectory() as room:
        elf, digests = f"{room}/{test.name}.elf", set()
        said = guest_runs.compiled([*words(folder), test.file, archive, "-lm"], elf)
        if said is not None:
            told = [it for it in said.split("\n") if re.search("error|undefined|dthreads-cc: ", it) and "ENOSYS" not in it]
            return f"doesn't build: {(told or [said])[0][-150:]}"
        for workers in WORKERS:
            ran = run(elf, workers, room)
            if ran is None:
                return f"no end within {SECONDS} seconds"
            if not is_wanted(test.text, ran[0]):
                return f"status {ran[0]}: {' '.join(ran[1].split())[-150:]}"
            digests.add(contents(f"{room}/digest"))
        return "" if len(digests) == 1 else "another digest"


def unpacked(sources, room):
    archives = Archives(sources)
    try:
        archive = archives.fetch("glibc")[0]
    except Failure as failure:
        raise SystemExit(str(failure)) from failure
    subprocess.run(["tar", "xf", archive, "-C", room, "--strip-components=1", "--wildcards", *UNPACKED], check=True)
    return room


def test(options):
    """Builds and runs glibc's own tests of threads, as far as they apply, with 1 and 4 workers."""
    tally, told, failed = guest_runs.Tally(), failing(), []
    with tempfile.TemporaryDirectory() as room:
        folder = unpacked(os.path.abspath(options.sources or f"{room}/sources"), room)
        archive, every = support(folder), tests(folder)
        applying = [it for it in every if not reason(it)]
        chosen = guest_runs.share(options.share, [it for it in applying if not options.names or it.name in options.names])
        with Progress("tests", len(chosen)) as progress:

            def ended(one, wrong):
                progress.done += 1
                tally.tried += 1
                if wrong:
                    failed.append(one.name)
                    print(f"{one.name}: {told.get(one.name, '')}: {wrong}", flush=True)
                if bool(wrong) != (one.name in told):
                    tally.fail(f"{one.name}: {'fails, and the page lacks it' if wrong else 'passes, and the page has it'}")
                return []

            lanes.tasks_in_lanes(options.lanes, [(it, lambda it=it: tried(it, folder, archive)) for it in chosen], ended)
    for why, count in Counter(reason(it) for it in every if reason(it)).most_common():
        print(f"{count} don't apply: {why}")
    return tally.status("tests of glibc that apply", f", {tally.tried - len(failed)} of which pass with 1 and 4 workers")
