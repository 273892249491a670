"""The library in another repository, by `vendor.sh`: all that a service there rests on is there, word for word, and what was there stays."""
import pathlib
import re
import tempfile

from refused_memory import ROOT, clang
from started import check, run

PARTS = ("src", "specs", "proofs")
OWN = "mine: dirgwako anyhow"


def vendored(folder):
    """What `vendor.sh` tells of a folder, and its status."""
    _, err, status = run("sh", ROOT / "vendor.sh", folder)
    return err.decode(), status


def listed(text):
    """The crates that a crates.txt lists, with the libraries of each."""
    lines = re.findall(r"^(\w+):(.*)$", text, re.M)
    check(len(lines) == len(dict(lines)), f"each crate is listed once: {lines}")
    return {name: below.split() for name, below in lines}


def texts(folder):
    """All files of the parts of a crate that are proved."""
    return {it.relative_to(folder): it.read_bytes() for part in PARTS for it in (folder / part).rglob("*") if it.is_file()}


def check_crate(top, name):
    """A crate is there, word for word."""
    files = texts(top / "crates" / name)
    check(files and files == texts(ROOT / "crates" / name), f"{name} is copied whole")
    return len(files)


def check_copied(top):
    """Returns how many files are there, of each crate that is listed; a library that is not is the toolchain's."""
    crates, kit = listed((top / "crates.txt").read_text()), clang().parents[2] / "rlibs"
    libraries = {it for below in crates.values() for it in below} - set(crates)
    check(all((kit / f"{it}.rlib").is_dir() for it in libraries), f"these are the toolchain's: {libraries}")
    check(crates.pop("mine") == OWN.split()[1:] and "dirgwako" in crates, f"both are listed: {crates}")
    check((top / "HANDLES").read_text() == (ROOT / "HANDLES").read_text(), "HANDLES is there")
    return sum(check_crate(top, it) for it in crates)


def check_refused(folder, words):
    """Nothing is copied to this folder, for this reason."""
    told, status = vendored(folder)
    check(status == 1 and words in told, f"vendor.sh {folder}: {status}, {told}")
    return 1


def check_all():
    with tempfile.TemporaryDirectory() as made:
        top = pathlib.Path(made)
        (top / "crates.txt").write_text(OWN)
        count = 0
        for _ in range(2):
            told, status = vendored(top)
            check(status == 0, f"vendor.sh: {told}")
            count += check_copied(top)
            # (what the library has no longer, goes)
            (top / "crates/dirgwako/src/left.rt").write_text("")
        return count + check_refused(top / "none", "usage") + check_refused(ROOT, "own repository")
