"""The exit statuses of the programs as they are built, and the first lines of what they write."""
from started import check, run

SCRIPT = b"counter a -\nchild a\ninc 0 0 7\ngo\nscrape\n"
REFUSED = b"\n# a comment\ncounter a -\n\ncounter a -\ncounter b -\n"
USAGE = (2, "", "usage: metrics_run script | metrics_run serve PORT COUNT")
SERVICE_USAGE = (1, "", "Error: usage: example_service PORT REPLIES")
BENCH_USAGE = (
    2,
    "",
    "usage: bench ROUNDS, at most 1000000000, or bench updates ROUNDS, or bench gather ROUNDS small|large, or bench torn SCRAPES apart|together,"
    " or bench serve PORT REPLIES small|large, or bench starved THREADS SPINS SCANS, or bench page SCRAPES one|whole|spread,"
    " or bench scrapers SCRAPES",
)
BENCH_UNASKED = (
    "", "x", "-1", "1000000001", "0 0", "updates", "updates x", "gather 1", "gather 1 tiny", "serve 0 0 64", "serve 65536 0 small", "torn 1", "torn x apart",
    "torn 1 beside", "starved 1 0", "starved x 0 9", "starved 1 0 9 small", "page 1 two", "page x one", "scrapers", "scrapers 0", "scrapers x",
)
# With so many kilobytes of addresses there is no room for a thread's stack.
SMALL = "ulimit -v 6000 && "


def found(words, given):
    """The status, and the first lines of standard output and of standard error."""
    out, err, status = run(*words, given=given)
    return status, *(it.decode().partition("\n")[0] for it in (out, err))


def shell(line, program):
    """The program, as `$0`, in a line of the shell."""
    return ("sh", "-c", line, program)


def table(program, service):
    """Words, standard input, and what is wanted; of a port that the system chooses nothing."""
    yield (program, "script"), SCRIPT, (0, "# TYPE a counter", "")
    yield (program, "script"), b"", (0, "", "")
    yield (program, "script"), REFUSED, (1, "refused 5 19", "")
    for words in ["", "scripts", "script script", "serve", "serve 0", "serve 0 0", "serve 0 1000001", "serve 65536 1"]:
        yield (program, *words.split()), SCRIPT, USAGE
    for words in ["serve 00 1", "serve 0 01", "serve -1 1", "serve 0 1 1", "serve x 1"]:
        yield (program, *words.split()), b"", USAGE
    yield shell(SMALL + 'exec "$0" script', program), SCRIPT, (1, "refused 4 30", "")
    yield shell('exec "$0" script </', program), b"", (3, "", "fault")
    yield shell('exec "$0" script >/dev/full', program), SCRIPT, (3, "", "fault")
    yield shell('exec "$0" serve 0 1 >/dev/full', program), b"", (3, "", "fault")
    for words in ["", "0", "0 0 0"]:
        yield (service, *words.split()), b"", SERVICE_USAGE


def bench_table(bench, bench16):
    """The same of the bench in C, over the library of 4 threads and over that of 16."""
    for words in BENCH_UNASKED:
        yield (bench, *words.split()), b"", BENCH_USAGE
    yield shell('exec "$0" 0 >/dev/full', bench), b"", (1, "", "standard output failed")
    for it in (bench, bench16):
        yield (it, "serve", "0", "0", "small"), b"", (0, "10008 bytes", None)
        yield (it, "serve", "0", "0", "large"), b"", (0, "69896 bytes", None)
    for how in ("apart", "together"):
        yield (bench, "torn", "3", how), b"", (0, "---", "")
    yield (bench, "starved", "1", "0", "9"), b"", (0, "no_scan 4,64,8,8 scans 0 given_up 0 scan 0.00 longest 0", "")
    yield (bench, "scrapers", "9"), b"", (0, "scrapers 4,64,8,8 scrapes 27 given_up 0 torn 0", "")
    yield (bench16, "page", "0", "one"), b"", (0, "# HELP requests_00_total Requests answered so far by service part 00.", "")


def check_all(program, service):
    """Returns how many runs were as they should be."""
    return check_rows(list(table(program, service)))


def check_bench(bench, bench16):
    """The same of the bench."""
    return check_rows(list(bench_table(bench, bench16)))


def check_rows(rows):
    for words, given, wanted in rows:
        got = found(words, given)
        if wanted[2] is None:
            got = (*got[:2], None)
        check(got == wanted, f"{' '.join(str(it) for it in words)}: got {got}, expected {wanted}")
    return len(rows)
