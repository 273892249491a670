"""Runs scripts by the built program, and compares what it prints and its exit status.

The cases are those of the folder scripts/ (its README.md says how they are written), long ones that are made here, and one script whose
input or output fails after each of its bytes. Each run has 60 seconds."""
import json
import pathlib
import resource
import socket
import subprocess
import tempfile

from started import Failed, check

SECONDS = 60
MOST_LINES = 1_000_000
FOLDER = pathlib.Path(__file__).resolve().parent / "scripts"


def cases_in(text):
    """The cases of a file: the name, the script, what it prints and the exit status of each."""
    cases = []
    for line in text.split("\n"):
        if line.startswith("== "):
            cases.append([line[3:], "", "", 0])
        elif cases and (line == ">" or line.startswith("> ")):
            cases[-1][1] += line[2:] + "\n"
        elif cases and line.startswith("< "):
            cases[-1][2] += line[2:] + "\n"
        elif cases and line.startswith("status "):
            cases[-1][3] = int(line[len("status ") :])
    return [(name, script.encode(), output.encode(), status) for name, script, output, status in cases]


def refused(line, number):
    return f"refused {line} {number}\n".encode()


def long_cases():
    """Scripts that are at a limit, or are no text."""
    value = "v" * 200
    samples = "".join(f'a{{l="{value}{number}"}} 0\n' for number in range(10, 60))
    children = "".join(f"child a {value}{number}\n" for number in range(10, 60))
    gauges = "".join(f"child g {n}\n" for n in range(16))
    found_again = f"gauge g l\n{gauges}{gauges}"
    windows = "window 64\nwindow 3\nscrape\nwindow 1024\nscrape\nwindow 1024\nwindow 0\n"
    return [
        ("70 scrapes", ("scrape\n" * 70 + windows).encode(), b"kept 64\nkept 3\nkept 3\nkept 4\n" + refused(77, 31), 1),
        ("the 65th child", ("counter a l\n" + "".join(f"child a {n}\n" for n in range(65))).encode(), refused(66, 22), 1),
        ("the ninth histogram", ("histogram h l -\n" + "".join(f"child h {n}\n" for n in range(9))).encode(), refused(10, 22), 1),
        ("the 17th gauge", ("gauge g l\n" + "".join(f"child g {n}\n" for n in range(17))).encode(), refused(18, 22), 1),
        ("children that are found again where every slot is used", found_again.encode(), b"", 0),
        ("the 129th family", "".join(f"gauge g{n} -\n" for n in range(129)).encode(), refused(129, 23), 1),
        ("a long text", f"counter a l\n{children}scrape".encode(), f"# TYPE a counter\n{samples}".encode(), 0),
        ("a name of 128 bytes", f"counter {'a' * 128} -\n".encode(), b"", 0),
        ("a name of 129 bytes", f"counter {'a' * 129} -\n".encode(), refused(1, 3), 1),
        ("a value of 256 bytes", f"child a {'a' * 256}".encode(), refused(1, 20), 1),
        ("a value of 257 bytes", f"child a {'a' * 257}".encode(), refused(1, 3), 1),
        ("a last line without its end", b"counter a -\nchild a\nscrape", b"# TYPE a counter\na 0\n", 0),
        ("a line of 4,096 bytes", b"#" * 4_096, b"", 0),
        ("a line of 4,096 bytes and its end", b"#" * 4_096 + b"\n\n", b"", 0),
        ("a line of 4,097 bytes", b"#" * 4_097, refused(1, 27), 1),
        ("a line of 100,000 bytes", b"#" * 100_000, refused(1, 27), 1),
        ("a million lines", b"#\n" * MOST_LINES, b"", 0),
        ("a line more", b"#\n" * MOST_LINES + b"x", refused(MOST_LINES + 1, 27), 1),
        ("a comment that is no text", b"go\n# \xff\n", refused(2, 27), 1),
        ("a text that is cut", b"go\n# \xc3", refused(2, 27), 1),
        ("a carriage return", b"go\r\n", refused(1, 27), 1),
        ("a line of a carriage return", b"\r\n", refused(1, 27), 1),
        ("a blank after a line", b"go \n", refused(1, 27), 1),
    ]


def no_lines():
    """Texts that are no line, each as a script of its own."""
    texts = json.loads((FOLDER / "no_lines.json").read_text(encoding="utf-8"))
    return [(f"no line: {text!r}", f"{text}\n".encode(), refused(1, 27), 1) for text in texts]


def run(program, script):
    """What the program prints for a script, on both streams, and its exit status."""
    done = subprocess.run([program, "script"], input=script, capture_output=True, timeout=SECONDS)
    return done.stdout, done.stderr, done.returncode


# A script whose ends fail, and what it prints: a scrape of 21 bytes by each of the lines 5 and 6, and the numbers of the workers by line 7.
SCRIPT = b"counter a -\nchild a\ninc 0 0 5\ngo\nscrape\nscrape\nsettle\ngo\n"
OUTPUT = b"# TYPE a counter\na 5\n# TYPE a counter\na 5\nsettled 1 0 0 0\n"
FAULT = (b"fault\n", 3)


def run_with_failing_input(program, count):
    """The same of a script's first bytes, after which the reader fails: the other end of a socket resets it where it closes with unread
    bytes of its own."""
    ours, theirs = socket.socketpair()
    with theirs:
        with ours:
            theirs.sendall(b"unread")
            ours.sendall(SCRIPT[:count])
        done = subprocess.run([program, "script"], stdin=theirs, capture_output=True, timeout=SECONDS)
    return done.stdout, done.stderr, done.returncode


def run_with_failing_output(program, script, count):
    """The same of a writer that takes so many bytes: a file that may not be longer."""
    with tempfile.TemporaryFile() as file:
        done = subprocess.run(
            [program, "script"],
            input=script,
            stdout=file,
            stderr=subprocess.PIPE,
            timeout=SECONDS,
            restore_signals=False,
            preexec_fn=lambda: resource.setrlimit(resource.RLIMIT_FSIZE, (count, count)),
        )
        file.seek(0)
        return file.read(), done.stderr, done.returncode


def printed_before(count):
    """What the whole lines among a script's first bytes print."""
    lines = SCRIPT[:count].count(b"\n")
    return OUTPUT[: {5: 21, 6: 42}.get(lines, 58 if lines > 6 else 0)]


def failing_cases(program):
    """Each: its name, what it came to, and what it is to come to."""
    for count in range(len(SCRIPT)):
        yield f"a read fails after {count} bytes", run_with_failing_input(program, count), (printed_before(count), *FAULT)
    for script, output in ((SCRIPT, OUTPUT), (b"child a", refused(1, 20))):
        for count in range(len(output)):
            wanted = (output[:count], *FAULT)
            yield f"{len(output)} bytes, of which {count} can be written", run_with_failing_output(program, script, count), wanted


def all_cases(program):
    """The same of all."""
    for file in sorted(FOLDER.glob("*.txt")):
        for name, script, output, status in cases_in(file.read_text(encoding="utf-8")):
            yield f"{file.name}: {name}", run(program, script), (output, b"", status)
    for name, script, output, status in [*long_cases(), *no_lines()]:
        yield name, run(program, script), (output, b"", status)
    yield from failing_cases(program)


def check_all(program):
    """Returns how many cases were as they should be."""
    written = sum(file.read_text(encoding="utf-8").count("\n== ") for file in FOLDER.glob("*.txt"))
    made = len(long_cases()) + len(no_lines()) + len(SCRIPT) + len(OUTPUT) + len(refused(1, 20))
    count = 0
    try:
        for name, got, wanted in all_cases(program):
            check(got == wanted, f"{name}: got {str(got)[:300]}, expected {str(wanted)[:300]}")
            count += 1
    except subprocess.SubprocessError as fault:
        raise Failed(f"behind {count} cases: {fault}") from fault
    check(written and count == written + made, f"{count} cases were run of {written} in files and {made} made here")
    return count
