"""The package for Rust, against installed libraries: formatted, without a warning, its tests and those of its pages pass, its first program is the one
that its README shows, it says what to do where there is no library, and programs of the crate `prometheus` build with another import."""
import os
import pathlib
import re
import shutil
import subprocess
import tempfile
import urllib.request

from refused_memory import ROOT
from started import Failed, Skipped, check, end, outcome, run, start

HERE = ROOT / "bindings/rust"
DEBIAN = pathlib.Path("/usr/share/cargo/registry")
FROM_DEBIAN = ("--config", 'source.crates-io.replace-with="debian"', "--config", f'source.debian.directory="{DEBIAN}"')
HELLO = "# HELP visits_total Visits so far.\n# TYPE visits_total counter\nvisits_total 3\n"
# The feature that asks for a library, and the library.
FEATURES = {"": "dirgwako16", "threads4": "dirgwako", "threads32": "dirgwako32"}
# What is changed in the peer's examples: floats become whole numbers.
FLOATS = (("42.0", "42"), ("as f64", "as i64"))
EXAMPLES = ("custom_registry", "edition_2018", "embed", "hyper", "int_metrics")
MOST_CHANGED = 6
# Those that end well; the last one prints nothing, and has assertions.
ENDING = ("custom_registry", "embed", "int_metrics")


def left_out(what):
    print(f"rust library: {what}", flush=True)
    return 0


def surroundings(room, libraries):
    """The variables by which cargo builds in this room against the libraries of this folder, or of none."""
    known = {name: value for name, value in os.environ.items() if name not in ("DIRGWAKO_LIB", "DIRGWAKO_BUILD", "PKG_CONFIG_PATH")}
    found = {"DIRGWAKO_LIB": str(libraries)} if libraries else {"PKG_CONFIG_LIBDIR": str(room / "nothing")}
    return {**known, **found, "CARGO_TARGET_DIR": str(room / "target"), "CARGO_TERM_COLOR": "never"}


def cargo(words, where, environment, seconds=900):
    """What a call of cargo prints that ends well."""
    out, err, status = run("cargo", *words, cwd=where, env=environment, seconds=seconds)
    check(status == 0, f"cargo {' '.join(words)}: status {status}: {(out + err).decode(errors='replace')[-3000:]}")
    return out.decode()


def has(word):
    """Whether cargo has this word."""
    return subprocess.run(["cargo", word, "--version"], capture_output=True).returncode == 0


def styled(crate, environment, features):
    """The formatter changes nothing, and neither the compiler nor clippy nor rustdoc has a warning."""
    count = 0
    for word, words in (("fmt", ["fmt", "--check"]), ("clippy", ["clippy", "--offline", *features, "--all-targets", "--", "-D", "warnings"])):
        if has(word):
            cargo(words, crate, environment)
            if word == "fmt":
                cargo(words, crate / "examples_web", environment)
            count += 1
        else:
            left_out(f"cargo has no {word} on this machine")
    cargo(["doc", "--offline", *features, "--no-deps"], crate, {**environment, "RUSTDOCFLAGS": "-D warnings"})
    return count + 1


def tests(crate, environment, features):
    """The tests, those of the pages too; returns how many passed."""
    told = cargo(["test", "--offline", *features], crate, environment)
    counts = re.findall(r"^test result: ok\. (\d+) passed; 0 failed; 0 ignored;", told, re.M)
    check(len(counts) == told.count("test result:") > 0, f"all tests pass: {told[-3000:]}")
    alone = re.findall(r"^fork, \w+: as it should be$", told, re.M)
    check(len(alone) == 2, "the test of forks looks at both ways of lending")
    return sum(map(int, counts)) + len(alone)


def programs(crate, environment, features):
    """The first program is the README's, and prints its counter; and no scrape of the example of one moment is impossible."""
    text = (crate / "examples/hello.rs").read_text()
    check(f"```rust\n{text}```" in (crate / "README.md").read_text(), "the README shows examples/hello.rs")
    check(cargo(["run", "--offline", *features, "--example", "hello"], crate, environment) == HELLO, "hello prints its counter")
    moments = cargo(["run", "--offline", "--release", *features, "--example", "one_moment", "--", "0.5"], crate, environment)
    told = re.findall(r"^\w+: (\d+) scrapes, 0 of them impossible, (\d+) passes$", moments, re.M)
    check(len(told) == 2 and all(int(it) > 0 for both in told for it in both), f"no scrape is impossible: {moments}")
    sold = cargo(["run", "--offline", *features, "--example", "service"], crate, environment)
    check("\nitems_sold_total 40000\n" in sold and "\nitems_left 960000\n" in sold, f"the service sells all: {sold}")
    cargo(["run", "--offline", "--release", *features, "--example", "bench", "--", "1000"], crate, environment)
    return 5


def threads(crate, libraries, environment):
    """The first program with each library that is there."""
    count = 0
    for feature, library in FEATURES.items():
        if not (libraries / f"lib{library}.a").is_file():
            left_out(f"there is no {library}")
            continue
        features = ["--features", feature] if feature else []
        check(cargo(["run", "--offline", *features, "--example", "hello"], crate, environment) == HELLO, f"hello with {library}")
        count += 1
    return count


def missing(crate, room):
    """Where there is no library, or another one, the build says so, and what to do."""
    outside, inside = room / "outside", room / "repository/bindings/rust"
    for folder in (outside, inside):
        shutil.copytree(crate, folder)
    shutil.copytree(HERE.parent / "c", inside.parent / "c")
    empty, other = room / "empty", room / "other"
    for folder in (empty, other):
        folder.mkdir()
    (other / "libdirgwako.a").write_bytes(b"!<arch>\n")
    cases = [
        (outside, None, "is not installed"),
        (inside, None, "or set DIRGWAKO_BUILD=1,"),
        (outside, empty, "bindings/c/build.sh install PREFIX"),
        (outside, other, 'features = ["threads4"]'),
    ]
    for where, libraries, words in cases:
        _, err, status = run("cargo", "check", "--offline", cwd=where, env=surroundings(room / "missing", libraries), seconds=300)
        check(status != 0 and words in err.decode(), f"without a library: {words}: {err.decode()[-1000:]}")
    return len(cases)


def served(program):
    """What a service replies that has printed its address."""
    service = start(program, stdout=subprocess.PIPE, stderr=subprocess.DEVNULL)
    try:
        address = service.stdout.readline().decode().strip()
        check(address.startswith("http://"), f"{program.name} prints its address")
        with urllib.request.urlopen(address, timeout=30) as reply:
            return reply.read().decode()
    finally:
        end(service)


def web(crate, environment, features):
    """The programs over tokio, hyper, tiny_http and beside the peer, where the machine has them."""
    lacks = [it for it in ("hyper-0.14", "tokio-1", "tiny_http-0.12", "prometheus-0.13") if not any(DEBIAN.glob(f"{it}*"))]
    if lacks:
        return left_out(f"no {', '.join(lacks)} in {DEBIAN}: examples_web is not tried")
    folder, built = crate / "examples_web", pathlib.Path(environment["CARGO_TARGET_DIR"]) / "debug"
    cargo(["build", *FROM_DEBIAN, "--offline", *features], folder, environment)
    if has("clippy"):
        cargo(["clippy", *FROM_DEBIAN, "--offline", *features, "--", "-D", "warnings"], folder, environment)
    out, err, status = run(built / "tasks")
    check(status == 0 and out.decode().count(": 64320 and 64000, ") == 2, f"tasks that hop: {(out + err).decode()}")
    for name, series in (("hyper", 'requests_total{method="GET"} 1\n'), ("tiny", "requests_total 1\n")):
        check(f"\n{series}" in served(built / name), f"{name} serves its metrics")
    out, err, status = run(built / "beside", "1000")
    moments = re.findall(r"^\w+: of [1-9]\d* scrapes 0 show what never was", out.decode(), re.M)
    is_same = out.startswith(b"the texts are the same\n")
    check(status == 0 and is_same and len(moments) == 2, f"beside the peer texts are the same, and scrapes of one moment: {(out + err).decode()}")
    return 4


def changed(text):
    """A program of the peer's in whole numbers, and how many of its lines differ."""
    lines = text.splitlines(keepends=True)
    ours = []
    for line in lines:
        for old, new in FLOATS:
            line = line.replace(old, new)
        ours.append(line)
    return "".join(ours), sum(one != other for one, other in zip(lines, ours))


def port(room, name, sources, dependencies):
    """A crate of these programs, over these dependencies."""
    folder = room / name
    (folder / "src/bin").mkdir(parents=True)
    for program, text in sources.items():
        (folder / f"src/bin/{program}.rs").write_text(text)
    head = f'[package]\nname = "{name}"\nversion = "0.1.0"\nedition = "2021"\n\n[dependencies]\nlazy_static = "1"\n'
    (folder / "Cargo.toml").write_text(head + "".join(f"{it} = {{ {how} }}\n" for it, how in dependencies.items()))
    return folder


def moments(text):
    """A program's first scrape, and all that it prints without the numbers, which come by when its threads ran."""
    return text.partition("\n\n")[0], re.sub(r" \d+$", " N", text, flags=re.M)


def peer_examples(crate, room, environment, features):
    """The peer's own example programs, with another import: few lines change, and they print what they print over the peer."""
    found = sorted(DEBIAN.glob("prometheus-0.13*/examples"))
    lacks = [it for it in ("hyper-0.14", "tokio-1", "lazy_static-1") if not any(DEBIAN.glob(f"{it}*"))]
    if not found or lacks:
        return left_out(f"no prometheus 0.13 with its examples, hyper and tokio in {DEBIAN}: the peer's programs are not tried")
    theirs = {it: (found[0] / f"example_{it}.rs").read_text() for it in EXAMPLES}
    both = {it: changed(text) for it, text in theirs.items()}
    count, lines = sum(it[1] for it in both.values()), sum(text.count("\n") for text in theirs.values())
    left_out(f"of {lines} lines of the peer's programs {count} are changed")
    check(count <= MOST_CHANGED, f"{count} lines of the peer's programs are changed")
    asked = f', features = ["{features[1]}"]' if features else ""
    hyper = {"hyper": 'version = "0.14", features = ["server", "http1", "tcp"]', "tokio": 'version = "1", features = ["macros", "rt-multi-thread"]'}
    ours = port(room, "ours", {it: text for it, (text, _) in both.items()},
                {"prometheus": f'package = "dirgwako", path = "{crate}"{asked}', **hyper})
    peer = port(room, "theirs", {it: theirs[it] for it in ENDING}, {"prometheus": 'version = "0.13", default-features = false'})
    started = []
    for folder, target in ((ours, environment["CARGO_TARGET_DIR"]), (peer, room / "peer")):
        cargo(["build", *FROM_DEBIAN, "--offline"], folder, {**environment, "CARGO_TARGET_DIR": str(target)})
        started.append([start(pathlib.Path(target) / "debug" / it, stdout=subprocess.PIPE, stderr=subprocess.DEVNULL) for it in ENDING])
    for one, other in zip(*started):
        ends = [outcome(it) for it in (one, other)]
        texts = [out.decode() for out, _, status in ends if status == 0]
        check(len(texts) == 2 and moments(texts[0]) == moments(texts[1]), f"{one.args[0]} prints what it prints over the peer: {ends}")
    return len(EXAMPLES) + len(ENDING)


def check_all(prefix):
    """Returns how many things were as they should be."""
    if not shutil.which("cargo"):
        raise Skipped("there is no cargo")
    libraries = pathlib.Path(prefix).resolve() / "lib"
    there = [feature for feature, library in FEATURES.items() if (libraries / f"lib{library}.a").is_file()]
    if not there:
        raise Skipped(f"there is no library in {libraries}")
    wanted = re.search(r'^rust-version = "([\d.]+)"', (HERE / "Cargo.toml").read_text(), re.M)[1]
    version = run("cargo", "--version")[0].decode().split()[1]
    if [int(it) for it in version.split(".")[:2]] < [int(it) for it in wanted.split(".")]:
        raise Skipped(f"cargo {version} is older than {wanted}")
    features = ["--features", there[0]] if there[0] else []
    with tempfile.TemporaryDirectory() as made:
        room = pathlib.Path(made)
        crate = room / "rust"
        shutil.copytree(HERE, crate, ignore=shutil.ignore_patterns("target", "Cargo.lock"))
        environment = surroundings(room, libraries)
        count = styled(crate, environment, features) + tests(crate, environment, features) + programs(crate, environment, features)
        count += threads(crate, libraries, environment) + missing(crate, room) + web(crate, environment, features)
        return count + peer_examples(crate, room, environment, features)


if __name__ == "__main__":
    import sys

    try:
        print(f"rust library: {check_all(sys.argv[1])} as expected")
    except (Failed, Skipped) as why:
        sys.exit(f"rust library: {type(why).__name__}: {why}")
