"""Tests, scripts and a server, as they are built, with each of their allocations refused in turn.

A library that is loaded before the C library refuses the Nth allocation of a process and counts them all (`refuse.c`). The runs of a test,
of a script or of the server go up from N = 1 until one makes fewer than N: then nothing was refused in it.

The tests are those whose names begin with `growth_`. Each of them calls again what was refused, so a run passes, or ends with an error that
says that there was no memory, where that came while it was being prepared.
"""
import os
import pathlib
import re
import shutil
import signal
import subprocess
import tempfile

from clients import counted
from servers import ask, ends_its_side, expect, first_line
from started import Failed, check, outcome, run, start

ROOT = pathlib.Path(__file__).resolve().parent.parent
# More allocations than any run makes.
MOST = 1_000
BUSY = b"HTTP/1.1 503 Service Unavailable\r\n"
MEMORY = re.compile(r"^(error|room): .*\b(NoMemory|AllocError|AllocFailed|OutOfMemory)\b", re.M)


def clang():
    """The toolchain's compiler, which lies beside `rt`."""
    found = shutil.which("rt")
    check(found, "rt is on the path")
    return pathlib.Path(found).resolve().parent.parent / "toolchain/bin/clang"


def library(room):
    """The library that refuses, made in this folder."""
    made = room / "refuse.so"
    words = ["-O2", "-fPIC", "-shared", "-nostdlib", "-fuse-ld=lld", "-o", made, ROOT / "checks/refuse.c"]
    _, err, status = run(clang(), *words)
    check(status == 0, f"refuse.c is compiled: {err.decode()[-2000:]}")
    return made


def callers(program):
    """At which address a program's code that asks for memory was linked, and how long it is, of each part."""
    out, err, status = run("llvm-nm", "--defined-only", "--print-size", program, executable=clang())
    check(status == 0, f"the names of {program} are listed: {err.decode()[-2000:]}")
    found = re.findall(r"^(\w+) (\w+) \w (rattle_alloc|rattle_realloc)$", out.decode(), re.M)
    is_whole = len(found) == 2 and all(int(length, 16) > 0 for _, length, _ in found)
    check(is_whole, f"{program} asks for memory at two places: {found}")
    return " ".join(f"{at} {length}" for at, length, _ in found)


class Refusing:
    """A program, of each run of which one allocation is refused."""

    def __init__(self, program, room):
        check(program.is_file(), f"rt ci has built {program}")
        self.program, self.counted = program, room / "counted"
        self.told = {"LD_PRELOAD": str(library(room)), "CALLERS": callers(program), "COUNTED": str(self.counted)}

    def start(self, *words, number):
        """A run, which is started."""
        self.counted.write_bytes(bytes(8))
        pipes = {"stdin": subprocess.PIPE, "stdout": subprocess.PIPE, "stderr": subprocess.PIPE}
        return start(self.program, *words, env={**os.environ, **self.told, "REFUSED": str(number)}, **pipes)

    def made(self):
        """How many allocations the run has made."""
        return int.from_bytes(self.counted.read_bytes(), "little")

    def run(self, *words, number, given=b""):
        """What a run writes to standard output and standard error, its status, and how many allocations it made."""
        out, err, status = outcome(self.start(*words, number=number), given)
        return out.decode(), err.decode(), status, self.made()


def libraries(module):
    """The repository's libraries that a module uses."""
    return [it for it in sorted(set(re.findall(r"^use (\w+)::", module, re.M))) if (ROOT / "crates" / it).is_dir()]


def calls_that_take_memory(module):
    """How many public calls of the libraries of a module are handed the allocator, or can answer that there was no memory."""
    sources = [path.read_text() for it in libraries(module) for path in (ROOT / "crates" / it / "src").rglob("*.rt")]
    faults = [name for text in sources for name in re.findall(r"\benum (\w+) \{[^}]*\bNoMemory\b", text)]
    tells = re.compile(rf"\balloc: Global\b|->[^{{;]*\b({'|'.join(['NoMemory', 'NoMemoryForSeat', 'AllocError', *faults])})\b", re.S)
    heads = [it for text in sources for it in re.findall(r"\bpub fn \w+.*?(?=\n\s*(?:requires|ensures|\{)|\{)", text, re.S)]
    return sum(bool(tells.search(it)) for it in heads)


def ended(said, status):
    """How the run of a test ended: it passed; it told that there was no memory, by its result or where it stopped; or neither."""
    if status == 0 and re.search("^test result: ok$", said, re.M):
        return "passed"
    is_told = status == 101 and "the test failed: its result" in said or status == -signal.SIGABRT and "test stopped at" in said
    return "no memory" if is_told and MEMORY.search(said) else "neither"


def check_test(refusing, test):
    """The runs of one test. Returns how many met a refusal."""
    for number in range(1, MOST):
        out, err, status, made = refusing.run(test, number=number)
        end = ended(out + err, status)
        is_well = end == "passed" or end == "no memory" and made >= number
        check(is_well, f"{test}: allocation {number} of {made} refused: status {status}: {(out + err)[-2000:]}")
        if made < number:
            check(number > 1, f"{test} makes no allocation")
            return number - 1
    raise Failed(f"{test} makes more than {MOST} allocations")


def check_module(refusing, module, tests):
    """Runs the tests of growths of a module. Returns how many runs met a refusal."""
    refused, wanted = sum(check_test(refusing, it) for it in tests), calls_that_take_memory(module)
    check(refused >= wanted > 0, f"{tests}: {refused} allocations were refused, and the libraries there have {wanted} calls that take memory")
    return refused


def check_tests(name, room):
    """Runs the tests of growths of a crate. Returns how many runs met a refusal."""
    refusing, folder = Refusing(ROOT / "crates" / name / "out" / f"{name}_tests", room), ROOT / "crates" / name / "src"
    listed, _, status = run(refusing.program, "--list")
    tests = re.findall(r"^((?:\w+::)*growth_\w+): test$", listed.decode(), re.M)
    modules = {}
    for source in (folder / "growth.rt", *folder.glob("growth/**/*.rt")):
        own = [it for it in tests if it.split("::")[:-1] == list(source.relative_to(folder).with_suffix("").parts)]
        check(len(own) == source.read_text().count("#[test]"), f"{name} lists all tests of {source.name}: {own}")
        if own:
            modules[source.read_text()] = own
    check(status == 0 and tests and sum(map(len, modules.values())) == len(tests), f"the tests of growths of {name} are in growth: {tests}")
    return sum(check_module(refusing, *it) for it in modules.items())


def fronts_of(refusing, name, lines):
    """The runs of each front of a script, in which no allocation is refused: what it prints, its status, and how many allocations it
    makes."""
    fronts = []
    for count in range(len(lines) + 1):
        out, _, status, made = refusing.run("script", number=0, given="".join(lines[:count]).encode())
        check(not fronts or made >= fronts[-1][2], f"{name}: {count} lines make {made} allocations, and fewer lines more")
        fronts.append((out, status, made))
    return fronts


def check_script(refusing, name, script):
    """The runs of a script whose first allocation, second and so on is refused. Returns how many there were.

    The nth allocation is made during the first line whose front makes so many, or before the first line. It is told at this line, as 6,
    after all that the lines before it print; or nothing has changed, as where room that was asked for ahead is asked for again. Of each
    line that makes allocations one is told."""
    fronts, told = fronts_of(refusing, name, script.splitlines(True)), set()
    whole, final, most = fronts[-1]
    for number in range(1, most + 1):
        out, _, status, made = refusing.run("script", number=number, given=script.encode())
        line = next(count for count, (_, _, until) in enumerate(fronts) if until >= number)
        check(made >= number, f"{name}: allocation {number} of {made}, refused during line {line}, was made")
        if (out, status) != (whole, final):
            wanted = f"{fronts[max(line - 1, 0)][0]}refused {line} 6\n"
            check((out, status) == (wanted, 1), f"{name}: allocation {number} refused, during line {line}: got {out} and {status}, expected {wanted}")
            told.add(line)
    beyond = refusing.run("script", number=most + 1, given=script.encode())
    check(beyond == (whole, "", final, most), f"{name}: {most} allocations are made, and with none refused: {beyond}")
    taking = {line for line, (_, _, made) in enumerate(fronts) if made > (fronts[line - 1][2] if line else 0)}
    check(len(taking) > 1 and told == taking, f"{name}: the lines {sorted(taking)} make allocations, and refusals are told at {sorted(told)}")
    return most


def check_scripts(refusing):
    """Runs the scripts of the folder refused_memory by the program. Returns how many runs met a refusal."""
    scripts = sorted((ROOT / "checks/refused_memory").iterdir())
    check(scripts, "there are scripts")
    return sum(check_script(refusing, it.name, it.read_text()) for it in scripts)


def are_counted(first, second):
    """Of two replies one at most is a 503, of 136 bytes. Where that is the first, the second one counts it; else the second one counts the
    first reply, of 707 bytes. Returns whether one is."""
    if second.startswith(BUSY):
        check((len(first), len(second)) == (707, 136), f"behind a scrape the reply is {second}")
    elif first.startswith(BUSY):
        check(len(first) == 136 and second.endswith(counted(1, 136, {503: 1})), f"behind a 503 the reply is {second}")
    else:
        check(len(first) == 707 and second.endswith(counted(1, 707, {200: 1})), f"behind a scrape the reply is {second}")
    return BUSY in (first[: len(BUSY)], second[: len(BUSY)])


def check_server(refusing):
    """The runs of a server whose first allocation, second and so on is refused: before it listens to anybody, which is told as 6; or
    later, which is replied, and counted, as a 503. Returns how many met a refusal.

    Of five connections the first and the last one ask for a scrape, and are answered by one thread."""
    early, busy = 0, 0
    for number in range(1, MOST):
        it = refusing.start("serve", "0", "5", number=number)
        told = first_line(it.stdout)
        if told == "refused 0 6\n":
            expect(it, (b"", b"", 1))
            check(refusing.made() >= number, f"allocation {number} of a server was made, and it tells want of memory")
            early += 1
            continue
        check(re.fullmatch(r"listening \d+\n", told), f"allocation {number} refused: a server tells {told}")
        port = int(told.split()[1])
        first, silent = ask(port), [ends_its_side(port) for _other in range(3)]
        check(silent == [b""] * 3, f"who asks nothing is replied {silent}")
        is_busy = are_counted(first, ask(port))
        busy += is_busy
        expect(it, (b"served 2\n", b"", 0))
        check(is_busy or refusing.made() < number, f"allocation {number} of a server was refused, and nothing came of it")
        if refusing.made() < number:
            check(not is_busy and busy and early, "a scrape that wants memory is a 503, and no other is")
            return number - 1
    raise Failed(f"a server makes more than {MOST} allocations")


def check_all(program):
    """Returns how many runs met a refusal, and prints so of each crate and each way to run the program."""
    names = sorted(it.name for it in (ROOT / "crates").iterdir() if (it / "src/growth.rt").is_file())
    check(names, "some crate has tests of growths")
    with tempfile.TemporaryDirectory() as room:
        room = pathlib.Path(room)
        refused = {name: check_tests(name, room) for name in names}
        refusing = Refusing(program, room)
        refused["metrics_run script"] = check_scripts(refusing)
        refused["metrics_run serve"] = check_server(refusing)
    for name, count in refused.items():
        print(f"refused memory: {name}: {count} allocations refused in turn", flush=True)
    return sum(refused.values())
