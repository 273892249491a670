"""The programs that are compared: what is missing on this machine, how each is built, and its words."""
import os
import pathlib
import shutil
import subprocess

from checks.started import Failed, check, run

HERE = pathlib.Path(__file__).resolve().parent
ROOT = HERE.parent

# Where all is built. Git ignores it.
OUT = HERE / "out"
PYTHON = "/usr/bin/python3"
REGISTRY = pathlib.Path("/usr/share/cargo/registry")
GOPATH = pathlib.Path("/usr/share/gocode")
LIBRARIES = {"small": "dirgwako", "large": "dirgwako16"}
C_LIBRARY = ROOT / "bindings/out/libdirgwako16.a"
OURS, RUST, GO, PEER_PYTHON, BARE = "Dirgwako", "prometheus (Rust)", "client_golang (Go)", "prometheus_client (Python)", "a text made before"


def can_import(module, python=PYTHON):
    """Whether Debian's python3, or another one, has a module."""
    if not shutil.which(python):
        return False
    return subprocess.run([python, "-c", f"import {module}"], capture_output=True).returncode == 0


def needs():
    """What each program needs: whether it is there, what it is, and Debian's packages that have it."""
    has_crate = any(REGISTRY.glob("prometheus-0.13*"))
    has_go = (GOPATH / "src/github.com/prometheus/client_golang").is_dir()
    has_library = (shutil.which("rt") or C_LIBRARY.is_file(), "the toolchain's rt, or a built bindings/out", "")
    return {
        RUST: [(shutil.which("cargo"), "cargo", "cargo"), (has_crate, "the crate prometheus 0.13", "librust-prometheus-dev")],
        GO: [(shutil.which("go"), "go", "golang-go"), (has_go, "client_golang", "golang-github-prometheus-client-golang-dev")],
        PEER_PYTHON: [(can_import("prometheus_client"), "prometheus_client", "python3-prometheus-client")],
        "the package for Rust": [
            (shutil.which("cargo"), "cargo", "cargo"),
            (has_crate, "the crate prometheus 0.13", "librust-prometheus-dev"),
            *((any(REGISTRY.glob(f"{it}-*")), f"the crate {it}", f"librust-{it.replace('_', '-')}-dev") for it in ("hyper", "tokio", "tiny_http")),
            has_library,
        ],
        "the package for Python": [
            (can_import("prometheus_client"), "prometheus_client", "python3-prometheus-client"),
            (can_import("setuptools", "python3"), "setuptools", "python3-setuptools"),
            has_library,
        ],
        "the package for C++": [
            (shutil.which("g++"), "g++", "g++"),
            (pathlib.Path("/usr/include/prometheus/registry.h").is_file(), "prometheus-cpp", "prometheus-cpp-dev"),
            has_library,
        ],
        "requests a second": [(shutil.which("wrk"), "wrk", "wrk")],
        "the pictures": [(can_import("matplotlib"), "matplotlib", "python3-matplotlib")],
    }


def missing():
    """What cannot be made, and the line that says why."""
    lines = {}
    for what, wanted in needs().items():
        lacks = [(name, package) for is_there, name, package in wanted if not is_there]
        if lacks:
            names, packages = ", ".join(it for it, _ in lacks), " ".join(it for _, it in lacks if it)
            lines[what] = f"left out: {what}, for want of {names}{packages and ': apt-get install ' + packages}"
    return lines


def build(words, where, environment, seconds=300):
    """Builds a program, by one line of a shell's words."""
    out, err, status = run(*words, cwd=where, env={**os.environ, **environment}, seconds=seconds)
    check(status == 0, f"{words[0]} does not build {where.relative_to(ROOT)}:\n{(out + err).decode()[-2000:]}")


def is_older(made, crate, *files):
    """Whether what was made of a crate is missing, or older than its sources."""
    sources = [file for it in below(crate) for file in (ROOT / "crates" / it / "src").glob("**/*.rt")]
    return not made.is_file() or made.stat().st_mtime < max(it.stat().st_mtime for it in [*sources, *files])


def build_ours():
    """The bench over the library for C of 4 threads, and beside it the same over that of 16."""
    check(shutil.which("cc"), "no cc on the path, which builds bindings/c/bench: apt-get install gcc")
    bindings = ROOT / "bindings/c"
    if shutil.which("rt") and is_older(C_LIBRARY, "dirgwako_c", bindings / "dirgwako.h"):
        print("the library for C is proved and built first: minutes where all below it is proved", flush=True)
        build([bindings / "build.sh"], bindings, {}, seconds=7200)
    check(C_LIBRARY.is_file(), "no rt on the path, which proves and builds the library for C, and no bindings/out")
    sources = sorted(bindings.glob("bench/*.c"))
    for name in LIBRARIES.values():
        build(["cc", "-std=c11", "-D_POSIX_C_SOURCE=200809L", "-O2", *sources, f"-I{bindings}", ROOT / f"bindings/out/lib{name}.a", "-lpthread", "-o", OUT / f"bench_{name}"], HERE, {})
    return [OUT / f"bench_{LIBRARIES['small']}"]


def of_size(name, words, size):
    """The words by which a program is started that has a board for so many series."""
    return [OUT / f"bench_{LIBRARIES[size]}"] if name == OURS else words


def build_rust():
    target = OUT / "rust"
    build(["cargo", "build", "--offline", "--release", "--target-dir", target], HERE / "rust", {})
    return [target / "release/peer"]


def build_go():
    cache = {"GO111MODULE": "off", "GOPATH": str(GOPATH), "GOCACHE": str(OUT / "gocache")}
    build(["go", "build", "-o", OUT / "go_peer", "."], HERE / "go", cache)
    return [OUT / "go_peer"]


def build_python():
    return [PYTHON, "-B", HERE / "python/peer.py"]


def below(name):
    """A crate of the repository and all that it stands on."""
    lines = dict(line.split(":", 1) for line in (ROOT / "crates.txt").read_text().splitlines() if ":" in line and not line.startswith("#"))
    found, left = set(), [name]
    while left:
        crate = left.pop()
        if crate in lines and crate not in found:
            found.add(crate)
            left += lines[crate].split()
    return found


def build_all(lacks):
    """The words by which each program is started, in the order of the tables."""
    OUT.mkdir(exist_ok=True)
    makers = {OURS: build_ours, RUST: build_rust, GO: build_go, PEER_PYTHON: build_python}
    return {name: make() for name, make in makers.items() if name not in lacks}


def first_line(*words):
    """The first line that a program prints; what it is called where there is none."""
    try:
        out, _, status = run(*words)
    except (OSError, Failed):
        return f"no {words[0]}"
    return out.decode().partition("\n")[0] if status == 0 else f"no {words[0]}"


def package(name):
    return first_line("dpkg-query", "-W", "-f", "${Version}\n", name)


def versions():
    """What is compared, and in which version."""
    commit = first_line("git", "-C", ROOT, "rev-parse", "--short", "HEAD")
    is_changed = run("git", "-C", ROOT, "status", "--porcelain", "--", "crates", "bindings/c")[0]
    return [
        (OURS, f"commit {commit}{', with changes' if is_changed else ''}; {first_line('rt', 'version')}; {first_line('cc', '--version')}"),
        (RUST, f"librust-prometheus-dev {package('librust-prometheus-dev')}; {first_line('rustc', '--version')}"),
        (GO, f"golang-github-prometheus-client-golang-dev {package('golang-github-prometheus-client-golang-dev')}; {first_line('go', 'version')}"),
        (PEER_PYTHON, f"python3-prometheus-client {package('python3-prometheus-client')}; {first_line(PYTHON, '--version')}"),
        ("prometheus-cpp (C++)", f"prometheus-cpp-dev {package('prometheus-cpp-dev')}; {first_line('g++', '--version')}"),
        ("wrk", package("wrk")),
    ]
