"""What the toolchain's gate cannot do, on the programs that `rt ci` has built. The last line is 'N passed, M failed'."""
import pathlib
import sys
import tempfile
import time

import aside
import c_bench
import c_library
import clients
import cpp_library
import definitions
import exit_statuses
import no_memory
import page_text
import pages
import python_library
import refused_memory
import rust_library
import scripts
import servers
import shifted
import vendored
import web
from started import Failed, Skipped, check

ROOT = pathlib.Path(__file__).resolve().parent.parent


def built(name):
    program = ROOT / "crates" / name / "out" / name
    check(program.is_file(), f"rt ci has built {name}")
    return program


def checks_of(prefix):
    """The names of all checks and what each does, in order. The libraries for C are installed below `prefix` by theirs."""
    program, service = built("metrics_run"), built("example_service")
    printed = ROOT / "crates/example_service/stdout"

    def bench(library="dirgwako"):
        return c_bench.built(prefix, library)

    return [
        ("pages", lambda: pages.check_all(ROOT)),
        ("definitions", lambda: definitions.check_all(ROOT)),
        ("wrong bodies", lambda: aside.check_all(ROOT)),
        ("vendor.sh", vendored.check_all),
        ("shifted numbers", lambda: shifted.check_exact(ROOT)),
        ("Prometheus' parser for Python", lambda: shifted.check_python(ROOT)),
        ("promtool", lambda: shifted.check_promtool(ROOT)),
        ("texts of a page", lambda: page_text.check_exact(page_text.texts_of(ROOT))),
        ("texts of a page by Prometheus' parser for Python", lambda: page_text.check_python(page_text.texts_of(ROOT))),
        ("texts of a page by promtool", lambda: page_text.check_promtool(page_text.texts_of(ROOT))),
        ("exit statuses", lambda: exit_statuses.check_all(program, service)),
        ("scripts", lambda: scripts.check_all(program)),
        ("servers", lambda: servers.check_all(program, service, printed)),
        ("clients", lambda: clients.check_all(program)),
        ("web service", lambda: web.check_all(built("example_web"))),
        ("refused memory", lambda: refused_memory.check_all(program)),
        ("no memory", no_memory.check_all),
        ("c library", lambda: c_library.check_all(prefix)),
        ("bench", lambda: c_bench.check_all(prefix)),
        ("exit statuses of bench", lambda: exit_statuses.check_bench(bench(), bench("dirgwako16"))),
        ("texts of 40 boards", lambda: page_text.check_exact(page_text.texts_by(bench("dirgwako16")))),
        ("texts of 40 boards by Prometheus' parser for Python", lambda: page_text.check_python(page_text.texts_by(bench("dirgwako16")))),
        ("texts of 40 boards by promtool", lambda: page_text.check_promtool(page_text.texts_by(bench("dirgwako16")))),
        ("c++ library", lambda: cpp_library.check_all(prefix)),
        ("rust library", lambda: rust_library.check_all(prefix)),
        ("python library", lambda: python_library.check_all(prefix)),
    ]


def main():
    with tempfile.TemporaryDirectory() as made:
        return run_all(checks_of(pathlib.Path(made) / "installed"))


def run_all(checks):
    """Prints what came of each check, and how many passed. The status of the program."""
    passed, failed, skipped = 0, 0, 0
    for name, it in checks:
        since = time.monotonic()
        try:
            count = it()
            check(count > 0, "something was checked")
            passed += count
            print(f"{name}: {count} as expected, in {time.monotonic() - since:.0f} s", flush=True)
        except Skipped as why:
            skipped += 1
            print(f"{name}: SKIPPED: {why}", flush=True)
        except (Failed, OSError, ValueError) as why:
            failed += 1
            print(f"{name}: FAILED: {why if isinstance(why, Failed) else repr(why)}", flush=True)
    if skipped:
        print(f"{skipped} skipped")
    print(f"{passed} passed, {failed} failed")
    return 1 if failed else 0


if __name__ == "__main__":
    sys.exit(main())
