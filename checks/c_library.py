"""The library for C: it is built and installed by two commands, and by both compilers; its header and the archives name the same functions, and its
tests and its first program are compiled without a warning, and run."""
import pathlib
import re
import shutil
import tempfile

from refused_memory import ROOT
from started import Skipped, check, run

HERE = ROOT / "bindings/c"
STRICT = ("-Wall", "-Wextra", "-Werror", "-pedantic", "-O2")
LIBRARIES = ("dirgwako", "dirgwako16", "dirgwako32")
TESTS = [HERE / f"test{it}.c" for it in ("", "_replies", "_numbers", "_boards", "_texts", "_refusals", "_scrapers", "_crowd", "_shared")]
HELLO = "# HELP visits_total Visits so far.\n# TYPE visits_total counter\nvisits_total 3\n"


def done(*words, seconds=120):
    """What a program prints that ends well."""
    out, err, status = run(*words, seconds=seconds)
    check(status == 0, f"{' '.join(map(str, words))}: status {status}: {(out + err).decode(errors='replace')[-2000:]}")
    return out.decode()


def names(prefix):
    """The functions that the header declares for other languages are those that each archive defines."""
    declared = set(re.findall(r"^(?:uint32_t|size_t) (dirgwako_c_\w+)\(", (prefix / "include/dirgwako.h").read_text(), re.M))
    for library in LIBRARIES:
        defined = set(re.findall(r" T (dirgwako_c_\w+)", done("nm", "-g", prefix / f"lib/lib{library}.a")))
        check(declared and declared == defined, f"the header declares {sorted(declared)}, {library} has {sorted(defined)}")
    return len(declared) * len(LIBRARIES)


def refusals(prefix):
    """The last number that the header names, up to which each has its words (test_numbers.c), is the last of docs/REFUSALS.md."""
    numbers = [int(it) for it in re.findall(r"^\| (\d+) \|", (ROOT / "docs/REFUSALS.md").read_text(), re.M)]
    named = [int(it) for it in re.findall(r"^    DIRGWAKO_\w+ = (\d+),?$", (prefix / "include/dirgwako.h").read_text(), re.M)]
    check(numbers == list(range(1, max(named) + 1)), f"the header names {named}, docs/REFUSALS.md {numbers}")
    return 1


def flags(prefix, library="dirgwako"):
    """What a compiler is told to find a library, by pkg-config where the machine has it."""
    if not shutil.which("pkg-config"):
        print("c library: no pkg-config on this machine: its files are not tried", flush=True)
        return [f"-I{prefix}/include", f"-L{prefix}/lib", f"-l{library}"]
    path = f"PKG_CONFIG_PATH={prefix}/lib/pkgconfig"
    return done("env", path, "pkg-config", "--cflags", "--libs", library).split()


def hello(prefix, room):
    """The first program, which the README and the guide show, with the shared library."""
    done("cc", "-std=c99", *STRICT, HERE / "hello.c", "-o", room / "hello", *flags(prefix))
    check(done("env", f"LD_LIBRARY_PATH={prefix}/lib", room / "hello") == HELLO, "hello.c prints its counter")
    return 1


def languages(prefix, room):
    """The header is C99 and C++11, and what it has inline has no warning where it is used, also without labels."""
    source = """#include "dirgwako.h"
int main() {
    static const uint64_t bounds[11] = DIRGWAKO_SECONDS_DEFAULT;
    dirgwako_registry registry = {0, 0};
    dirgwako_counter_family counters;
    dirgwako_gauge_family gauges;
    dirgwako_counter counter;
    dirgwako_gauge gauge;
    dirgwako_histogram histogram;
    if (dirgwako_counter_family_new(&registry, "a", "A.", NULL, 0, 6, 1, &counters)) return 1;
    if (dirgwako_gauge_family_new(&registry, "b", "B.", NULL, 0, 6, 1, &gauges)) return 1;
    if (dirgwako_counter_of(&registry, &counters, NULL, 0, &counter) || dirgwako_gauge_of(&registry, &gauges, NULL, 0, &gauge)) return 1;
    return (int)dirgwako_histogram_seconds_new(&registry, "c", "C.", bounds, 11, &histogram);
}
"""
    count = 0
    for compiler, standard, suffix in (("cc", "c99", "c"), ("c++", "c++11", "cc")):
        if not shutil.which(compiler):
            print(f"c library: no {compiler} on this machine: {standard} is not tried", flush=True)
            continue
        file = room / f"header.{suffix}"
        file.write_text(source.replace("main()", "main(void)") if suffix == "c" else source)
        done(compiler, f"-std={standard}", *STRICT, f"-I{prefix}/include", "-c", file, "-o", room / "header.o")
        count += 1
    return count


def passes(program, *words, seconds=300):
    """How many tests a program tells that passed, where none failed."""
    told = re.fullmatch(r"(\d+) passed, 0 failed\n", done(*words, program, seconds=seconds))
    check(told, f"{program.name} passes")
    return int(told[1])


def tests(prefix, room, *more):
    """The tests, with the archive; returns how many passed."""
    done("cc", "-std=c99", "-D_POSIX_C_SOURCE=200809L", *STRICT, *more, *TESTS, f"-I{prefix}/include", prefix / "lib/libdirgwako.a",
         "-lpthread", "-o", room / "test")
    return passes(room / "test")


def shared(prefix, room):
    """The tests with the shared library of most threads, which pkg-config finds."""
    done("cc", "-std=c99", "-D_POSIX_C_SOURCE=200809L", *STRICT, *TESTS, "-o", room / "test_shared", *flags(prefix, "dirgwako32"), "-lpthread")
    return passes(room / "test_shared", "env", f"LD_LIBRARY_PATH={prefix}/lib")


def memory(prefix, room):
    """Each allocation of each call refused in turn, and each of a script."""
    wraps = "-Wl,--wrap=malloc,--wrap=realloc,--wrap=free"
    done("cc", "-std=c99", "-D_POSIX_C_SOURCE=200809L", *STRICT, wraps, HERE / "test_memory.c", HERE / "test_growth.c", HERE / "test_shared.c",
         f"-I{prefix}/include", prefix / "lib/libdirgwako.a", "-o", room / "test_memory")
    return passes(room / "test_memory")


def heap(prefix, room):
    """A program's own memory in the place of malloc."""
    done("cc", "-std=c99", "-D_POSIX_C_SOURCE=200809L", *STRICT, HERE / "test_heap.c", HERE / "test_shared.c", f"-I{prefix}/include",
         prefix / "lib/libdirgwako.a", "-o", room / "test_heap")
    return passes(room / "test_heap")


def sanitized(prefix, room):
    """The tests again, with the sanitizers of addresses and of undefined behaviour, where the machine has them."""
    probe = room / "probe.c"
    probe.write_text("int main(void) { return 0; }\n")
    if run("cc", "-fsanitize=address,undefined", probe, "-o", room / "probe")[2] != 0:
        print("c library: no sanitizers on this machine: they are not tried", flush=True)
        return 0
    return tests(prefix, room, "-fsanitize=address,undefined", "-fno-sanitize-recover=all")


def check_all(prefix):
    """Installs the libraries below `prefix`, where the checks of other languages find them. Returns how many things were as they should be."""
    if not shutil.which("cc"):
        raise Skipped("there is no cc")
    done(HERE / "build.sh", "--proved", seconds=3600)
    done(HERE / "build.sh", "install", prefix)
    with tempfile.TemporaryDirectory() as made:
        room = pathlib.Path(made)
        other = room / "by rattle"
        count = names(prefix) + refusals(prefix) + hello(prefix, room) + languages(prefix, room) + tests(prefix, room)
        count += shared(prefix, room) + memory(prefix, room) + heap(prefix, room) + sanitized(prefix, room)
        done(HERE / "build.sh", "--proved", "--compiler", "4", "64", "8", "8", seconds=3600)
        done(HERE / "build.sh", "install", other)
        return count + tests(other, room)
