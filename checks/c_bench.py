"""The bench in C: it is built from each installed library, by each compiler, without a warning; its short run, its scrapes, and its server are tried,
also under sanitizers; and what is built is there for the checks of exit statuses and of texts."""
import pathlib
import re
import shutil
import socket
import subprocess
import tempfile

from c_library import LIBRARIES, STRICT, done, flags
from refused_memory import ROOT
from started import LIMIT, Skipped, check, end, run, start

HERE = ROOT / "bindings/c/bench"
C11 = ("-std=c11", "-D_POSIX_C_SOURCE=200809L")
OF = {"dirgwako": "4,64,8,8", "dirgwako16": "16,256,32,64", "dirgwako32": "32,256,32,64"}
SANITIZERS = ("address,undefined", "thread")
REQUESTS = ((b"GET /metrics HTTP/1.1\r\nHost: a\r\n\r\n", b"HTTP/1.1 200 "), (b"GET / HTTP/1.1\r\nHost: a\r\n\r\n", b"HTTP/1.1 404 "))


def compiled(compiler, program, *words):
    """Compiles the bench."""
    done(compiler, *C11, *STRICT, *words[:-1], *sorted(HERE.glob("*.c")), *words[-1], "-lpthread", "-o", program)
    return program


def built(prefix, library):
    """The bench over an installed library, which is built where it is not yet."""
    if not shutil.which("cc"):
        raise Skipped("there is no cc")
    program = prefix / "bench" / library
    program.parent.mkdir(parents=True, exist_ok=True)
    return program if program.is_file() else compiled("cc", program, (f"-I{prefix}/include", prefix / f"lib/lib{library}.a"))


def short(program, library, *words):
    """The run of one round a batch prints one line."""
    told = done(*words, program, "0")
    check(told == f"measured {OF[library]}: updates, lists, tallies, reads and scrapes\n", f"bench 0 over {library}: {told}")
    return 1


def shared(prefix, room):
    """The bench over a shared library, which pkg-config finds."""
    return short(compiled("cc", room / "shared", flags(prefix)), "dirgwako", "env", f"LD_LIBRARY_PATH={prefix}/lib")


def others(prefix, room):
    """The other compiler."""
    if not shutil.which("clang"):
        print("bench: no clang on this machine: it is not tried", flush=True)
        return 0
    return short(compiled("clang", room / "clang", (f"-I{prefix}/include", prefix / "lib/libdirgwako.a")), "dirgwako")


def served(program):
    """The server answers as many connections as it is asked for, two by each thread, and tells the bytes of its text."""
    server = start(program, "serve", "0", "2", "small", stdout=subprocess.PIPE, stderr=subprocess.PIPE)
    try:
        port = int(re.fullmatch(rb"listening (\d+)\n", server.stderr.readline())[1])
        for request, wanted in REQUESTS * 4:
            check(asked(port, request).startswith(wanted), f"bench serve replies {wanted.decode()} to {request}")
        out, err = server.communicate(timeout=LIMIT)
        check(server.returncode == 0 and out == b"10008 bytes\n" and not err, f"bench serve ends: {server.returncode}, {out}, {err}")
    finally:
        end(server)
    return 2 * len(REQUESTS) + 1


def asked(port, request):
    """The reply to a request."""
    with socket.create_connection(("127.0.0.1", port), timeout=LIMIT) as connection:
        connection.sendall(request)
        reply = b""
        while more := connection.recv(65536):
            reply += more
    return reply


def torn(program):
    """Scrapes beside a thread that counts are of one moment."""
    count = 0
    for how, most in (("apart", 1), ("together", 0)):
        texts = done(program, "torn", "200", how).split("---\n")[1:]
        check(len(texts) == 200, f"bench torn 200 {how}: {len(texts)} scrapes")
        for text in filter(None, texts):
            series = dict(line.rsplit(" ", 1) for line in text.splitlines() if not line.startswith("#"))
            chain = [int(series[it]) for it in ("a_total", "b_total", "c_bytes_count", 'd_total{child="1"}', 'd_total{child="2"}')]
            check(chain == sorted(chain, reverse=True) and chain[0] - chain[-1] <= most, f"a scrape is of one moment: {chain}")
            count += 1
    check(count, "some scrapes were not given up")
    return 2


def sanitized(prefix, room):
    """A short run of what the bench does, with each sanitizer that the machine has."""
    count = 0
    probe = room / "probe.c"
    probe.write_text("int main(void) { return 0; }\n")
    for it in SANITIZERS:
        if run("cc", f"-fsanitize={it}", probe, "-o", room / "probe")[2] != 0 or run(room / "probe")[2] != 0:
            print(f"bench: no sanitizer of {it} on this machine: it is not tried", flush=True)
            continue
        more = (f"-fsanitize={it}", "-fno-sanitize-recover=all")
        program = compiled("cc", room / it.replace(",", "_"), *more, (f"-I{prefix}/include", prefix / "lib/libdirgwako.a"))
        for words in ("updates 10", "gather 1 small", "gather 1 large", "page 2 one", "scrapers 20"):
            done(program, *words.split())
            count += 1
        count += short(program, "dirgwako") + torn(program) + served(program)
    return count


def check_all(prefix):
    """Returns how many things were as they should be; `prefix` has the libraries, as bindings/c/build.sh install puts them there."""
    count = sum(short(built(prefix, it), it) for it in LIBRARIES)
    with tempfile.TemporaryDirectory() as made:
        room = pathlib.Path(made)
        count += shared(prefix, room) + others(prefix, room) + sanitized(prefix, room)
    return count + torn(built(prefix, "dirgwako")) + served(built(prefix, "dirgwako"))
