"""What ./caf answers by itself, what it reads and writes, and where it finds its home."""

import os
import sys

from checks.comparing import HOME, LAUNCHER, Checks, call, folder, read, started, with_status, write

HELP_WORDS = """run judge replay check make -n -w --order --steps --fail --trace --vars --why --every --made FILE TRACE
--try --prove --which --explain --version --message-format Statuses"""
NEIGHBOUR = ["run", "-n", "4", "--order", "0", "examples/neighbour.f90"]
# A program whose trace is long, and which ends by a fault in its last statement.
TRACED = b"integer :: i, x[*]\ndo i = 1, 20000\nx = i\nend do\nx = x / (x - x)\nend\n"
TRACED_WORDS = ["run", "-n", "4", "--order", "0", "--trace"]
# A stand-in for the program, which writes 96 MB and then a fault; and what runs a command and prints its status and its
# memory.
WRITES = """import os, sys
line = b"1: " + b"x" * 60 + b"\\n"
for _ in range(100):
    os.write(1, line * 15000)
os.write(1, b"fault image 1 line 1 Bounds\\n")
sys.exit(8)
"""
MEASURES = """import resource, subprocess, sys
status = subprocess.run(sys.argv[1:], stdout=subprocess.DEVNULL).returncode
print(status, resource.getrusage(resource.RUSAGE_CHILDREN).ru_maxrss)
"""
# Words that need no program, behind a word of the launcher.
ANSWERED_BEFORE = (
    ("", ""),
    ("", "check"),
    ("--try", "run"),
    ("--prove", "run -n"),
    ("", "check absent.f90"),
    ("", "judge -n 2"),
    ("", "judge absent.trace examples/empty.f90"),
    ("--prove", "replay examples/deadlock.trace docs"),
    ("--prove", "check docs"),
)
MOST_KILOBYTES = 60000
NEEDED = b"caf needs Python 3.8 or a later one\n"


def check_launcher(checks: Checks) -> None:
    """What the launcher answers by itself, and how it passes on what the program writes."""
    _check_words(checks)
    _check_without_a_program(checks)
    _check_standard_input(checks)
    _check_other_sources(checks)
    _check_traces_by_pipes(checks)
    _check_standard_output(checks)
    _check_long_text(checks)
    _check_much_text(checks)
    _check_home(checks)
    _check_python(checks)


def stand_in(folder_of_it: str, text: str) -> str:
    """Writes a program in Python that stands in for the program, and returns its path."""
    path = write(f"{folder_of_it}/program", f"#!{sys.executable}\n{text}")
    os.chmod(path, 0o755)
    return path


def _check_words(checks: Checks) -> None:
    """The words that ./caf answers itself."""
    told = call([LAUNCHER, "--help"])
    for word in HELP_WORDS.split():
        checks.holds(f"./caf --help has {word}", word.encode() in told.text)
    lines = [line.split()[:1] for line in told.text.split(b"Statuses:")[-1].splitlines()]
    for status in range(16):
        checks.holds(f"./caf --help has the status {status}", lines.count([b"%d" % status]) == 1)
    for word in ("-h", "help"):
        checks.same(f"./caf {word}", with_status(told), with_status(call([LAUNCHER, word])))
    version = call([LAUNCHER, "--version"])
    checks.holds("./caf --version", version.status == 0 and version.text.startswith(b"caf "))
    checks.holds("./caf --explain nothing: status 2", call([LAUNCHER, "--explain", "nothing"]).status == 2)
    checks.holds("./caf --explain: status 2", call([LAUNCHER, "--explain"]).status == 2)
    real = call([LAUNCHER, "--explain", "real"])
    checks.holds("./caf --explain real", real.text.startswith(b"in the place of REAL\n"))
    checks.same("./caf --which", checks.program + "\n", call([LAUNCHER, "--which"]).text)
    checks.same("./caf --try", b"1: 4\n", call([LAUNCHER, "--try", *NEIGHBOUR]).text)
    checks.same("./caf without words", b"usage: word 1\nstatus 2\n", with_status(call([LAUNCHER])))


def _check_without_a_program(checks: Checks) -> None:
    """Words that are wrong, and a file that can't be read, are answered without a program, and without any proof."""
    places = [it for it in os.environ["PATH"].split(":") if not os.path.exists(f"{it}/rt")]
    nothing = {**os.environ, "CAF_PROGRAM": "/nonexistent", "PATH": ":".join(places)}
    for way, words in ANSWERED_BEFORE:
        wanted = call([checks.program, *words.split()])
        got = call([LAUNCHER, *way.split(), *words.split()], env=nothing)
        checks.same(f"./caf {way} {words} is answered without a program", with_status(wanted), with_status(got))
    checks.same("a program that isn't there", b"status 1\n", with_status(call([LAUNCHER, *NEIGHBOUR], env=nothing)))


def _check_standard_input(checks: Checks) -> None:
    """A source from standard input is read once, and its lines are shown."""
    source = read(f"{HOME}/examples/undeclared.f90")
    wanted = call([LAUNCHER, "check", "examples/undeclared.f90"])
    for name, shown in (("-", b"<stdin>"), ("/dev/stdin", b"/dev/stdin"), ("/dev/fd/0", b"/dev/fd/0")):
        got = call([LAUNCHER, "check", name], given=source)
        checks.same(f"a source by {name}", with_status(wanted), with_status(got))
        said = wanted.said.replace(b"examples/undeclared.f90", shown).replace(LAUNCHER.encode(), b"./caf")
        checks.same(f"what is said of a source by {name}", said, got.said.replace(LAUNCHER.encode(), b"./caf"))
        with open(f"{HOME}/examples/undeclared.f90", "rb") as file:
            got = call([LAUNCHER, "check", name], given=file)
        checks.same(f"a source by {name} from a file", with_status(wanted), with_status(got))
        got = call([LAUNCHER, "check", name], given=b"\n" * 3000000)
        checks.same(f"a source by {name} that is too long", b"too long\nstatus 13\n", with_status(got))
        got = call([LAUNCHER, "check", name], given=b"")
        checks.same(f"no source by {name}", b"refused 7 at 1:1\nstatus 3\n", with_status(got))


def _check_other_sources(checks: Checks) -> None:
    """What is no regular file is read once as well; what can't be read is told."""
    wanted = call([LAUNCHER, "check", "examples/undeclared.f90"])
    with folder() as work:
        os.mkfifo(f"{work}/pipe")
        writer = started(["sh", "-c", f"cat examples/undeclared.f90 >{work}/pipe"])
        got = call([LAUNCHER, "check", f"{work}/pipe"])
        checks.same("a source by a named pipe", with_status(wanted), with_status(got))
        writer.wait()
    got = call(["sh", "-c", f"exec {LAUNCHER} check /dev/stdin <&-"])
    checks.same("a closed standard input", b"read fault\nstatus 10\n", with_status(got))


def _check_traces_by_pipes(checks: Checks) -> None:
    """A kept trace, its source, and both, from standard input or a pipe; and a trace that is too long."""
    trace, source = "examples/deadlock.trace", "examples/deadlock.f90"
    judged, replayed = b"core run\nstatus 0\n", b"stuck image 1 line 9 lock\nstuck image 2 line 12 lock\nstatus 6\n"
    for name in ("-", "/dev/stdin"):
        got = call([LAUNCHER, "judge", "-n", "2", name, source], given=read(f"{HOME}/{trace}"))
        checks.same(f"a trace by {name}", judged, with_status(got))
        got = call([LAUNCHER, "replay", "-n", "2", trace, name], given=read(f"{HOME}/{source}"))
        checks.same(f"the source of a trace by {name}", replayed, with_status(got))
        wanted = b"held by image 2 since line 11"
        checks.holds(f"what is said of a replay by {name}", wanted in got.said)
    with folder() as work:
        for name in ("trace", "source"):
            os.mkfifo(f"{work}/{name}")
        writer = started(["sh", "-c", f"cat {trace} >{work}/trace; cat {source} >{work}/source"])
        got = call([LAUNCHER, "replay", "-n", "2", f"{work}/trace", f"{work}/source"])
        checks.same("a trace and its source by two pipes", replayed, with_status(got))
        writer.wait()
    got = call([LAUNCHER, "judge", "-n", "2", "-", source], given=b"\n" * 67108865)
    checks.same("a trace that is too long", b"too long\nstatus 13\n", with_status(got))
    checks.same("what is said of it", b"caf: <stdin> has more than 67,108,864 bytes\n", got.said)
    got = call([LAUNCHER, "judge", "-", "-"], given=b"")
    checks.same("a trace and its source by one standard input", b"usage: word 3\nstatus 2\n", with_status(got))


def _check_standard_output(checks: Checks) -> None:
    """Where standard output takes no more the status is 11, and a reader that goes away is no trouble."""
    with open("/dev/full", "wb") as full:
        for words in (NEIGHBOUR, ["--help"], ["check"], ["--explain", "32"]):
            checks.same(f"{words} to /dev/full", b"status 11\n", with_status(call([LAUNCHER, *words], stdout=full)))
    got = call(["sh", "-c", f"exec {LAUNCHER} {' '.join(NEIGHBOUR)} >&-"])
    checks.same("a closed standard output", b"status 11\n", with_status(got))
    checks.holds("a closed standard output is told", got.said.startswith(b"caf: standard output took no more"))
    with folder() as work:
        path = write(f"{work}/traced.f90", TRACED)
        for words in (f"{' '.join(TRACED_WORDS)} {path}", "--help"):
            got = call(["sh", "-c", f"{LAUNCHER} {words} | head -n 1 >/dev/null"])
            checks.same(f"{words} | head -n 1", b"", got.said)
    got = call(["sh", "-c", f"{LAUNCHER} {' '.join(NEIGHBOUR)} 2>&-"])
    checks.same("a closed standard error", b"1: 4\nstatus 0\n", with_status(got))


def _check_long_text(checks: Checks) -> None:
    """A long text is passed on byte for byte, and its end is told."""
    with folder() as work:
        path = write(f"{work}/traced.f90", TRACED)
        own = call([checks.program, *TRACED_WORDS, path])
        got = call([LAUNCHER, *TRACED_WORDS, path])
        checks.holds("the long text is long", len(own.text) > 2000000)
        checks.holds("a long text is the program's", with_status(own) == with_status(got))
        checks.holds("the end of a long text is told", b":5:9: error: `(x - x)` is 0 on image 1" in got.said)


def _check_much_text(checks: Checks) -> None:
    """A text of 96 MB isn't held in memory."""
    with folder() as work:
        env = {**os.environ, "CAF_PROGRAM": stand_in(work, WRITES)}
        got = call([sys.executable, "-c", MEASURES, LAUNCHER, *NEIGHBOUR], env=env)
        status, kilobytes = (int(it) for it in got.text.split())
        checks.holds(f"96 MB of text need {kilobytes} kB, status {status}", status == 8 and kilobytes < MOST_KILOBYTES)


def _check_home(checks: Checks) -> None:
    """The launcher finds its home by links, in a folder with blanks, from elsewhere, and without a checkout."""
    with folder() as work:
        home = f"{work}/a tree/share/caf"
        os.makedirs(f"{home}/docs/use")
        os.makedirs(f"{work}/a tree/bin")
        for name in ("caf", "share", "docs/use/REFUSALS.md"):
            call(["cp", "-r", f"{HOME}/{name}", f"{home}/{name}"])
        os.symlink("../share/caf/caf", f"{work}/a tree/bin/caf")
        os.symlink(f"{work}/a tree/bin/caf", f"{work}/linked")
        env = {"PATH": os.environ["PATH"], "CAF_PROGRAM": checks.program}
        for command in (f"{work}/a tree/bin/caf", f"{work}/linked", f"{home}/caf"):
            got = call([command, "check", f"{HOME}/examples/undeclared.f90"], folder="/", env=env)
            checks.same(command, b"refused 20 at 1:1\nstatus 3\n", with_status(got))
            checks.holds(f"{command} tells its name", f"help: {command} --explain 20".encode() in got.said)
        env["PATH"] = f"{work}/a tree/bin:{env['PATH']}"
        got = call(["sh", "-c", "caf run " + " ".join(NEIGHBOUR[1:])], env=env)
        checks.same("caf on the path", b"1: 4\nstatus 0\n", with_status(got))
        got = call([f"{work}/linked", "--version"], env=env)
        checks.same("--version of an installed tree", b"caf 0.2", got.text[:7])


def _check_python(checks: Checks) -> None:
    """Where python3 isn't there, or too old, that is told."""
    with folder() as work:
        for name in ("sh", "readlink"):
            os.symlink(call(["sh", "-c", f"command -v {name}"]).text.decode().strip(), f"{work}/{name}")
        got = call([f"{work}/sh", LAUNCHER, "--help"], env={"PATH": work})
        checks.holds("no python3: status 1", got.status == 1)
        checks.same("no python3", b"caf: there is no python3 on the path; " + NEEDED, got.said)
    older = f"import runpy, sys; sys.version_info = (3, 7, 2); runpy.run_path({HOME + '/share/launcher/__main__.py'!r})"
    got = call([sys.executable, "-c", older])
    checks.holds("an old python3: status 1", got.status == 1)
    checks.same("an old python3", b"caf: python3 is Python 3.7, and " + NEEDED, got.said)
