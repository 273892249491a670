"""The package for Python: its C is compiled without a warning, a wheel is built over the installed C library, and each Python of the machine
installs it into an empty environment, and runs its tests and its first program."""
import concurrent.futures
import json
import os
import pathlib
import re
import shutil
import sys
import tempfile

from refused_memory import ROOT
from started import Skipped, check, run

HERE = ROOT / "bindings/python"
OLDEST = (3, 10)
STRICT = ("-std=c11", "-D_POSIX_C_SOURCE=200809L", "-O2", "-Wall", "-Wextra", "-Werror", "-fvisibility=hidden", "-DPy_LIMITED_API=0x030A0000")
PROBE = """
import importlib.util, json, os, sys, sysconfig
there = lambda name: bool(importlib.util.find_spec(name))
include = sysconfig.get_path("include")
print(json.dumps({"real": os.path.realpath(sys.executable), "version": sys.version_info[:3], "threads": bool(sysconfig.get_config_var("Py_GIL_DISABLED")),
    "headers": include if os.path.isfile(os.path.join(include, "Python.h")) else "", "lacks": [it for it in ("setuptools", "wheel") if not there(it)],
    "tools": [it for it in ("venv", "pip") if not there(it)], "name": sys.implementation.name}))
"""


def tell(what):
    print(f"python library: {what}", flush=True)


def done(*words, status=0, seconds=120, **how):
    """What a program prints that ends as it should."""
    out, err, ended = run(*words, seconds=seconds, **how)
    text = (out + err).decode(errors="replace")
    check((ended == 0) == (status == 0), f"{' '.join(map(str, words))}: status {ended}: {text[-2000:]}")
    return text


def surroundings(**more):
    """The environment of a program, without what would lead it to other libraries or modules."""
    own = ("DIRGWAKO_BUILD", "DIRGWAKO_LIB", "DIRGWAKO_LIBRARY", "DIRGWAKO_SHARED_LIBRARY", "PKG_CONFIG_PATH", "PYTHONPATH", "PYTHONHOME", "VIRTUAL_ENV")
    return {**{name: value for name, value in os.environ.items() if name not in own}, "PYTHONDONTWRITEBYTECODE": "1", **more}


def candidates():
    """Programs that may be a Python: of the path by their names, and those of pyenv and of the system."""
    names = ["python3", *(f"python3.{it}" for it in range(10, 20))]
    found = [pathlib.Path(folder, name) for folder in os.get_exec_path() for name in names]
    found += [*pathlib.Path.home().glob(".pyenv/versions/3.*/bin/python3"), pathlib.Path("/usr/bin/python3")]
    return [it for it in dict.fromkeys(found) if it.is_file() and os.access(it, os.X_OK)]


def pythons():
    """Each Python that the package is for, once, and what it has; what is lacking is told."""
    found = {}
    for program in candidates():
        out, _, status = run(program, "-c", PROBE, env=surroundings())
        if status:  # as those of pyenv's shims which are of no version that is chosen
            continue
        told = json.loads(out)
        if tuple(told["version"]) >= OLDEST and told["name"] == "cpython" and told["real"] not in found:
            found[told["real"]] = {**told, "program": program, "version": ".".join(map(str, told["version"]))}
    usable = []
    for it in sorted(found.values(), key=lambda it: it["version"]):
        lacks = ["the GIL"] if it["threads"] else it["tools"]
        if lacks:
            tell(f"{it['version']} ({it['program']}) lacks {', '.join(lacks)}: it is not tried")
        else:
            usable.append(it)
    return usable


def builder(found):
    """A Python that can build the wheel."""
    able = [it for it in found if it["headers"] and not it["lacks"]]
    if not able:
        raise Skipped("no Python from 3.10 on has headers, setuptools and wheel")
    return able[0]


def strict(prefix, found):
    """Each file of C, of both extensions, by the headers of each Python."""
    count = 0
    for it in found:
        if not it["headers"]:
            tell(f"{it['version']} has no headers: no C is compiled by them")
            continue
        for own in ([], ["-DDIRGWAKO_SHARED"]):
            files = sorted((HERE / "csrc").glob("*.c"))
            done("cc", *STRICT, *own, "-fPIC", "-fsyntax-only", f"-I{it['headers']}", f"-I{prefix}/include", *files)
            count += len(files)
    check(count, "some C is compiled")
    return count


def package(room):
    """A copy of the package, in which pip may write."""
    copy = room / "package"
    shutil.copytree(HERE, copy, ignore=shutil.ignore_patterns("build", "dist", "out", "*.egg-info", "__pycache__"))
    return copy


def wheel(python, prefix, copy, room):
    """The wheel, which is for all Pythons from 3.10 on, and of which the extension names nothing but its beginning."""
    done(python["program"], "-m", "pip", "wheel", "--no-index", "--no-build-isolation", "--no-deps", "-w", room, copy, seconds=300,
         env=surroundings(DIRGWAKO_LIB=f"{prefix}/lib"))
    made = list(room.glob("dirgwako-*.whl"))
    check(len(made) == 1 and "-cp310-abi3-" in made[0].name, f"one wheel of the limited API: {made}")
    shutil.unpack_archive(made[0], room / "wheel", "zip")
    extensions = sorted((room / "wheel/dirgwako").glob("*.so"))
    check(extensions, "the wheel has an extension")
    for it in extensions:
        named = re.findall(r" T (\w+)", done("nm", "-D", "--defined-only", it))
        check(named == [f"PyInit_{it.name.split('.')[0]}"], f"{it.name} names {named}")
    return made[0], 1 + len(extensions)


def killed(prefix, room):
    """4,000 processes that are killed while they count on boards that they share, and 400 that scrape them."""
    sources = [HERE / "tests/killed.c", *(HERE / f"csrc/{it}.c" for it in ("boards", "shared", "arena"))]
    include = f"-I{HERE}/csrc", f"-I{prefix}/include"
    done("cc", *STRICT, "-DDIRGWAKO_SHARED", *include, *sources, prefix / "lib/libdirgwako.a", "-lpthread", "-o", room / "killed")
    told = done(room / "killed", "4000", seconds=300)
    check(re.match(r"4000 killed while they counted, [1-9]\d* of them within a call: 20000 scrapes, none torn; 400 killed", told), told)
    tell(told.strip())
    return 1


def refusals(python, bare, copy, room):
    """What is missing is said, with what to do, by setup.py and by the backend that pip calls."""
    empty = room / "empty"
    empty.mkdir()
    build = (python["program"], "setup.py", "build_ext", "--build-lib", empty / "lib", "--build-temp", empty / "temp")
    path = surroundings(PATH=str(empty), PKG_CONFIG_PATH=str(empty))
    told = done(*build, status=1, cwd=copy, env=path)
    check("no archive of the C library is found" in told and "DIRGWAKO_LIB" in told, told)
    told = done(*build, status=1, cwd=copy, env=surroundings(DIRGWAKO_LIB=str(empty)))
    check(f"there is no {empty}/libdirgwako.a" in told, told)
    told = done(bare, "-c", "import build_backend", status=1, cwd=copy, env=surroundings())
    check("lacks" in told and "wheel" in told, told)
    return 3


def by_pkg_config(python, prefix, copy, room):
    if not shutil.which("pkg-config"):
        tell("no pkg-config on this machine: setup.py's way by it is not tried")
        return 0
    done(python["program"], "setup.py", "build_ext", "--build-lib", room / "by_pkg", "--build-temp", room / "temp", cwd=copy, seconds=300,
         env=surroundings(PKG_CONFIG_PATH=f"{prefix}/lib/pkgconfig"))
    check(list((room / "by_pkg/dirgwako").glob("*.abi3.so")), "an extension is built by what pkg-config tells")
    return 1


def environment(python, folder):
    """An empty one, without what the machine's Python has, and without a pip of its own."""
    done(python["program"], "-m", "venv", "--without-pip", folder, env=surroundings())
    return folder / "bin/python"


def suite(python, bare, copy):
    """How many tests of the package passed on this Python; those that it skipped are told."""
    told = done(bare, "-X", "faulthandler", "-m", "unittest", "discover", "-v", cwd=copy, seconds=300, env=surroundings())
    ran = re.search(r"^Ran (\d+) tests? in .*\n\nOK(?: \(skipped=(\d+)\))?$", told, re.M)
    check(ran, f"{python['version']}: the tests pass: {told[-2000:]}")
    for why, count in count_of(re.findall(r"skipped ['\"](.*)['\"]$", told, re.M)):
        tell(f"{python['version']}: {count} skipped: {why}")
    return int(ran[1]) - int(ran[2] or 0)


def count_of(reasons):
    return [(it, reasons.count(it)) for it in dict.fromkeys(reasons)]


def hello(bare, copy):
    """The first program, as the README shows it, counts one visit."""
    blocks = re.findall(r"^```python\n(.*?)^```$", (HERE / "README.md").read_text(), re.M | re.S)
    check((HERE / "hello.py").read_text() in blocks, "the README shows hello.py word for word")
    told = done(bare, copy / "hello.py", env=surroundings())
    check('\nvisits_total{page="/"} 1\n' in told and "\nanswer_seconds_count 1\n" in told, told)
    return 2


def tried(python, bare, file, copy):
    """The wheel is installed into an empty environment, by the Python's own pip, and tried there."""
    done(python["program"], "-m", "pip", "--python", bare, "install", "--no-index", "--no-deps", "--disable-pip-version-check", file, env=surroundings())
    return suite(python, bare, copy) + hello(bare, copy)


def check_all(prefix):
    """Returns how many things were as they should be, over what `bindings/c/build.sh install` put into this folder."""
    prefix = pathlib.Path(prefix)
    if not shutil.which("cc"):
        raise Skipped("there is no cc")
    found = pythons()
    maker = builder(found)
    with tempfile.TemporaryDirectory() as made:
        room = pathlib.Path(made)
        copy = package(room)
        count = strict(prefix, found) + killed(prefix, room)
        file, more = wheel(maker, prefix, copy, room)
        bares = [environment(it, room / str(at)) for at, it in enumerate(found)]
        count += more + by_pkg_config(maker, prefix, copy, room) + refusals(maker, bares[found.index(maker)], copy, room)
        shutil.rmtree(copy / "src")  # so that what is tried is what is installed
        with concurrent.futures.ThreadPoolExecutor(2) as two:
            return count + sum(two.map(lambda it: tried(*it, file, copy), zip(found, bares)))


if __name__ == "__main__":
    tell(f"{check_all(sys.argv[1])} as expected")
