"""The packages for Rust, Python and C++ beside what a service uses there now: each by the package's own bench, which does the same work over both
in one process, and prints it as a table."""
import os
import pathlib

from compare.programs import OUT, PYTHON, REGISTRY, ROOT
from checks.started import check, run

BINDINGS = ROOT / "bindings"
LIBRARIES = BINDINGS / "out"
FROM_DEBIAN = ("--config", 'source.crates-io.replace-with="debian"', "--config", f'source.debian.directory="{REGISTRY}"')
# Where no pkg-config finds another library than the one that is built here.
HERE_ALONE = {"PKG_CONFIG_LIBDIR": str(OUT / "nothing"), "PKG_CONFIG_PATH": ""}


def printed(*words, where=BINDINGS, environment=None, seconds=900):
    """What a program prints that ends well."""
    out, err, status = run(*words, cwd=where, env={**os.environ, **(environment or {})}, seconds=seconds)
    check(status == 0, f"{' '.join(map(str, words))}: status {status}:\n{(out + err).decode()[-2000:]}")
    return out.decode().strip()


def of_rust(is_quick):
    environment = {"DIRGWAKO_LIB": str(LIBRARIES), "CARGO_TARGET_DIR": str(OUT / "rust_package")}
    words = ("cargo", "run", *FROM_DEBIAN, "--offline", "--release", "--quiet", "--bin", "beside", "--", 100 if is_quick else 1)
    return printed(*words, where=BINDINGS / "rust/examples_web", environment=environment)


def of_python(is_quick):
    package, made = BINDINGS / "python", OUT / "python_package"
    build = ("python3", "setup.py", "-q", "build", "--build-base", made, "--build-lib", made / "lib")
    printed(*build, where=package, environment=HERE_ALONE)
    bench, environment = package / "bench.py", {"PYTHONPATH": str(made / "lib")}
    return "\n\n".join(printed(PYTHON, "-B", bench, *words, environment=environment) for words in ((), ("torn",), ("processes",))[: 1 if is_quick else 3])


def of_cpp(is_quick):
    bench = OUT / "cpp_package"
    words = ("-std=c++17", "-O2", BINDINGS / "cpp/examples/bench.cc", f"-I{BINDINGS}/cpp", f"-I{BINDINGS}/c", LIBRARIES / "libdirgwako.a")
    printed("g++", *words, "-lprometheus-cpp-core", "-lpthread", "-o", bench)
    return printed(bench, *(["quick"] if is_quick else []))


# What each is called, where its bench is, and what runs it.
PACKAGES = {
    "the package for Rust": ("bindings/rust/examples_web/src/bin/beside.rs", of_rust),
    "the package for Python": ("bindings/python/bench.py", of_python),
    "the package for C++": ("bindings/cpp/examples/bench.cc", of_cpp),
}


def measure(lacks, is_quick):
    """What each package's bench prints, where nothing lacks that it needs."""
    found = {}
    for name, (_bench, run_it) in PACKAGES.items():
        if name not in lacks:
            print(name, flush=True)
            found[name] = run_it(is_quick)
    return found


def lines(found):
    """The part of the page."""
    told = []
    for name, text in found.items():
        bench = pathlib.PurePosixPath(PACKAGES[name][0])
        told += [f"## {name[0].upper()}{name[1:]}", "", f"By [{bench.name}](../{bench}), in one process.", "", text, ""]
    return told
