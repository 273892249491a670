"""Calls of workers, readers, tallies and recorders take no memory.

Two tests of a module make each of these calls, one of them once and the other one a thousand times. Both ask for memory equally often: for
what is made before the first call. It is the tests as they are built that are run, with a library that counts what they ask for.
"""
import pathlib
import re
import tempfile

from refused_memory import ROOT, Refusing
from started import check

CRATE = ROOT / "crates/library_tests"
ONCE, OFTEN = "each_call_once", "each_call_a_thousand_times"
# The modules of the tests, and the files whose calls each makes. Meetings make the three calls of a reader that are left out.
TRIED = {
    "tests::memory": ("snapshot_update/src/worker.rt", "snapshot_scan/src/reader.rt", "ledger_core/src/tally.rt"),
    "services::memory": ("dirgwako/src/recorder.rt", "page_crew/src/page_recorder.rt", "page_crew/src/publishing.rt"),
}
WITHIN_OTHERS = {"admit", "release", "tell"}


def calls_of(source):
    """The public calls of a file that change what they are made on."""
    return set(re.findall(r"pub fn (\w+)[^(]*\(\s*&mut self", (ROOT / "crates" / source).read_text())) - WITHIN_OTHERS


def check_calls(module):
    """The tests of a module make each call of its files. Returns how many these are."""
    text = (CRATE / "src" / f"{module.replace('::', '/')}.rt").read_text()
    calls = {call for source in TRIED[module] for call in calls_of(source)}
    missing = {call for call in calls if not re.search(rf"\.{call}(::<\d+>)?\(", text)}
    check(calls and not missing, f"{module} makes each of the calls {sorted(calls)}, but {sorted(missing)}")
    return len(calls)


def asked(refusing, test):
    """How often a test asks for memory. It passes."""
    listed = refusing.run("--list", number=0)[0].splitlines()
    check(listed.count(f"{test}: test") == 1, f"{refusing.program} has one test {test}: {listed}")
    out, err, status, made = refusing.run(test, number=0)
    check(status == 0 and re.search("^test result: ok$", out + err, re.M), f"{test} passes: {status}, {(out + err)[-2000:]}")
    return made


def check_module(refusing, module):
    """A thousand calls ask for memory as often as one. Returns how many calls were tried."""
    calls, once, often = check_calls(module), *(asked(refusing, f"{module}::{it}") for it in (ONCE, OFTEN))
    check(once == often > 0, f"{module}: one round of calls asks for memory {once} times, a thousand rounds {often} times")
    print(f"no memory: {module}: {calls} calls a thousand times ask for memory as often as once, {once} times", flush=True)
    return calls


def check_all():
    """Returns how many calls were tried."""
    with tempfile.TemporaryDirectory() as room:
        refusing = Refusing(CRATE / "out" / f"{CRATE.name}_tests", pathlib.Path(room))
        return sum(check_module(refusing, it) for it in TRIED)
