"""The library for C++: its header is installed beside that of C, and found by CMake and by pkg-config; its tests are compiled without a warning by each
compiler that the machine has, and run, also with the sanitizers; the README's program and the examples do what they say."""
import concurrent.futures
import functools
import os
import pathlib
import re
import shutil
import socket
import subprocess
import tempfile

from c_library import HELLO, LIBRARIES, done, passes
from refused_memory import ROOT
from started import LIMIT, Skipped, check, end, run, start

HERE = ROOT / "bindings/cpp"
COMPILERS = ("g++", "clang++")
STRICT = ("-std=c++17", "-Wall", "-Wextra", "-Wpedantic", "-Wshadow", "-Wconversion", "-Werror")
SANITIZERS = ("address,undefined", "thread")
CMAKE = """cmake_minimum_required(VERSION 3.13)
project(hello CXX)
find_package(dirgwako 1 REQUIRED COMPONENTS %s)
foreach(it %s)
    add_executable(hello_${it} hello.cc)
    target_link_libraries(hello_${it} PRIVATE dirgwako::${it})
endforeach()
"""
FLOATS = """#include <dirgwako.hpp>
void count(const dirgwako::Counter &counter) { counter.Increment(%s); }
"""
ALONE = """#include <%s>
#include <%s>
int main() { return 0; }
"""


def lacks(what):
    """Tells what is not there, and that nothing was checked."""
    print(f"c++ library: no {what}: it is not tried", flush=True)
    return 0


@functools.lru_cache
def compilers():
    """Those that the machine has; those that it lacks are told."""
    for it in COMPILERS:
        if not shutil.which(it):
            lacks(it)
    return [it for it in COMPILERS if shutil.which(it)]


def has(compiler, sanitizer, room):
    """Whether a program with this sanitizer is linked and runs."""
    probe = room / f"probe_{compiler}_{sanitizer}"
    source = room / "probe.cc"
    source.write_text("int main() { return 0; }\n")
    built = run(compiler, f"-fsanitize={sanitizer}", source, "-o", probe)[2] == 0
    return built and run(probe)[2] == 0


def flags(compiler, sanitizer):
    """What is optimized is tried by g++ alone, since the templates of the standard library take the compilers long; and g++ takes three times as long
    to optimize what looks for undefined behaviour."""
    level = "-O1" if compiler == "g++" and sanitizer in ("", "thread") else "-O0"
    return (level, f"-fsanitize={sanitizer}", "-fno-sanitize-recover=all") if sanitizer else (level,)


def told_by(compiler, *words):
    """What a compiler answers, and what it tells; for the threads of the pool, which `started` is not."""
    made = subprocess.run([compiler, *map(str, words)], capture_output=True, text=True, timeout=5 * LIMIT)
    return made.returncode, made.stderr


def compiled(compiler, *words):
    """Compiles something without a warning."""
    status, told = told_by(compiler, *STRICT, *words)
    check(status == 0, f"{compiler} {' '.join(map(str, words))}: {told[-2000:]}")


def units(room):
    """The translation units of the tests: what the files share, and a file that includes all others; and one that includes all, whose headers are
    read once."""
    shared, *others = sorted(HERE.glob("test*.cc"))
    rest, whole = room / "rest.cc", room / "whole.cc"
    rest.write_text("".join(f'#include "{it}"\n' for it in others))
    whole.write_text("".join(f'#include "{it}"\n' for it in (shared, *others)))
    return (shared, rest), (whole,)


def tests(prefix, room, pool):
    """The tests by each compiler, plainly and with each sanitizer. They are run one after the other, while the pool compiles those behind them. The
    plain ones are linked of two translation units: what a header has to define once is one thing in both."""
    kinds = []
    for compiler in compilers():
        kinds.append((compiler, ""))
        for sanitizer in SANITIZERS:
            if has(compiler, sanitizer, room):
                kinds.append((compiler, sanitizer))
            else:
                lacks(f"-fsanitize={sanitizer} of {compiler}")
    parts = {}
    two, one = units(room)
    for compiler, sanitizer in kinds:
        objects = {source: room / f"{compiler}_{sanitizer}_{source.stem}.o" for source in (one if sanitizer else two)}
        words = (*flags(compiler, sanitizer), f"-I{prefix}/include", "-c")
        parts[compiler, sanitizer] = list(objects.values()), [
            pool.submit(compiled, compiler, *words, source, "-o", part) for source, part in objects.items()]

    def passed(kind, library):
        objects, begun = parts[kind]
        for it in begun:
            it.result()
        program = room / f"test_{'_'.join(kind)}_{library}"
        done(kind[0], *flags(*kind), *objects, prefix / f"lib/lib{library}.a", "-lpthread", "-o", program)
        # (ThreadSanitizer is told of the one place where it cannot see how threads are ordered)
        told = ("env", f"TSAN_OPTIONS=suppressions={prefix}/share/dirgwako/tsan.supp") if kind[1] == "thread" else ()
        return passes(program, *told)

    def finish():
        count = sum(passed(kind, "dirgwako") for kind in kinds)
        if (prefix / "lib/libdirgwako32.a").is_file():
            return count + passed(next((it for it in kinds if "undefined" in it[1]), kinds[0]), "dirgwako32")
        return count + lacks("libdirgwako32.a")

    return finish


def readme_program():
    """The README's first program is the example of that name."""
    shown = re.search(r"^```cpp\n(.*?)^```$", (HERE / "README.md").read_text(), re.M | re.S)
    check(shown and shown[1] == (HERE / "examples/hello.cc").read_text(), "the README shows examples/hello.cc")
    return 1


def by_pkg_config(prefix, room):
    """The README's program, with the flags that pkg-config tells."""
    if not shutil.which("pkg-config"):
        return lacks("pkg-config")
    words = done("env", f"PKG_CONFIG_PATH={prefix}/lib/pkgconfig", "pkg-config", "--cflags", "--libs", "dirgwako").split()
    for compiler in compilers():
        done(compiler, *STRICT, HERE / "examples/hello.cc", *words, "-o", room / "hello")
        check(done("env", f"LD_LIBRARY_PATH={prefix}/lib", room / "hello") == HELLO, "the README's program prints its counter")
    return len(compilers())


def by_cmake(prefix, room):
    """The same by CMake, from a prefix that was moved, with each library that is there; and what is told where one that is asked for is not."""
    if not shutil.which("cmake"):
        return lacks("cmake")
    moved, project = room / "moved", room / "project"
    shutil.copytree(prefix, moved, symlinks=True)
    there = [it for it in LIBRARIES if (moved / f"lib/lib{it}.a").is_file()]
    project.mkdir()
    shutil.copy(HERE / "examples/hello.cc", project)
    (project / "CMakeLists.txt").write_text(CMAKE % (" ".join(there), " ".join(there)))
    done("cmake", "-S", project, "-B", project / "out", f"-DCMAKE_PREFIX_PATH={moved}", "-DCMAKE_BUILD_TYPE=Release")
    done("cmake", "--build", project / "out")
    for it in there:
        check(done(project / f"out/hello_{it}") == HELLO, f"the program that CMake has linked with {it} prints its counter")
    (moved / f"lib/lib{there[-1]}.a").unlink()
    shutil.rmtree(project / "out")
    out, err, status = run("cmake", "-S", project, "-B", project / "out", f"-DCMAKE_PREFIX_PATH={moved}")
    check(status != 0 and b"bindings/c/build.sh install" in out + err, "CMake tells that the library is not there")
    return len(there) + 1


def installed(prefix, room):
    """The header is installed; and what is told where the C library is not there."""
    done(HERE / "install.sh", prefix)
    out, err, status = run(HERE / "install.sh", room / "nowhere")
    check(status != 0 and b"bindings/c/build.sh install" in out + err, "install.sh tells that the C library is not there")
    return 1


def headers(prefix, room, pool):
    """Each header compiles by itself, and twice."""
    begun = []
    for at, header in enumerate(sorted(it.relative_to(prefix / "include") for it in prefix.glob("include/**/*.hpp"))):
        source = room / f"alone_{at}.cc"
        source.write_text(ALONE % (header, header))
        begun.append(pool.submit(compiled, compilers()[0], "-fsyntax-only", f"-I{prefix}/include", source))
    return lambda: len([it.result() for it in begun])


def floats(prefix, room, pool):
    """A float does not compile, and what the compiler says tells why; a whole number does."""
    begun = []
    for at, (number, is_taken) in enumerate((("0.5", False), ("1.0f", False), ("2", True))):
        source = room / f"floats_{at}.cc"
        source.write_text(FLOATS % number)
        for compiler in compilers():
            words = ("-std=c++17", "-fsyntax-only", f"-I{prefix}/include", source)
            begun.append((f"{compiler}: Increment({number})", is_taken, pool.submit(told_by, compiler, *words)))

    def finish():
        for what, is_taken, told in begun:
            status, why = told.result()
            check((status == 0) == is_taken, f"{what}: status {status}")
            check(is_taken or "numbers are whole" in why, f"{what}: the compiler says why it is not taken")
        return len(begun)

    return finish


def examples(prefix, room, pool):
    """The examples, compiled without a warning: scrapes of one moment, the bench in a few batches, and the service, which answers two connections."""
    begun = []
    for it in ("one_moment", "bench", "service"):
        words = ("-O1", "-DDIRGWAKO_NO_PEER", HERE / f"examples/{it}.cc", f"-I{prefix}/include", prefix / "lib/libdirgwako.a")
        begun.append(pool.submit(compiled, compilers()[0], *words, "-lpthread", "-o", room / it))

    def finish():
        for it in begun:
            it.result()
        check(done(room / "one_moment", "2000") == "2000 scrapes, 0 torn\n", "no scrape of one_moment is torn")
        check("| Counter::Increment | " in done(room / "bench", "quick"), "the bench tells its times")
        return 2 + service(room)

    return finish


def service(room):
    """The example's server, asked by plain sockets."""
    program = start(room / "service", "0", "2", stdout=subprocess.PIPE)
    try:
        port = int(re.search(rb":(\d+)/metrics\n", program.stdout.readline())[1])
        text = asked(port, b"GET /metrics HTTP/1.1\r\nHost: a\r\n\r\n")
        jobs = re.search(rb"^job_seconds_count (\d+)$", text, re.M)
        ends = sum(int(it) for it in re.findall(rb"^jobs_total\{.*\} (\d+)$", text, re.M))
        check(text.startswith(b"HTTP/1.1 200 ") and jobs and int(jobs[1]) == ends, "the service shows as many times as ends")
        check(asked(port, b"GET / HTTP/1.1\r\nHost: a\r\n\r\n").startswith(b"HTTP/1.1 404 "), "the service has no other page")
        check(program.wait(LIMIT) == 0, "the service ends after its connections, and no count was refused")
    finally:
        end(program)
    return 3


def asked(port, request):
    """The reply to a request."""
    with socket.create_connection(("127.0.0.1", port), timeout=10) as connection:
        connection.sendall(request)
        reply = b""
        while more := connection.recv(65536):
            reply += more
    return reply


def check_all(prefix):
    """Returns how many things were as they should be; `prefix` has the C library, as bindings/c/build.sh install puts it there."""
    if not any(shutil.which(it) for it in COMPILERS):
        raise Skipped("there is no C++ compiler")
    with tempfile.TemporaryDirectory() as made:
        room = pathlib.Path(made)
        own = room / "installed"
        shutil.copytree(prefix, own, symlinks=True)
        for it in own.glob("lib/pkgconfig/*.pc"):
            it.write_text(re.sub(r"^prefix=.*$", f"prefix={own}", it.read_text(), flags=re.M))
        count = installed(own, room) + readme_program()
        with concurrent.futures.ThreadPoolExecutor(len(os.sched_getaffinity(0))) as pool:
            begun = [part(own, room, pool) for part in (tests, headers, floats, examples)]
            count += sum(finish() for finish in begun)
        return count + by_pkg_config(own, room) + by_cmake(own, room)
