"""Tries the wrong bodies of crates that stand aside, many at once: `python3 -B checks/trial.py CRATE..`. In a clone, bodies of functions that
are apart are made together, and one check tells of each function whether it is proved. One that only waits for the proof of a function that
it calls is tried again without that one. Where each is refused, `tried.txt` has the digest of what they were tried at."""
import os
import pathlib
import re
import shutil
import subprocess
import sys
import tempfile

import aside

ROOT = aside.ROOT
FUNCTION = re.compile(r"^[ \t]*(?:pub(?:\([a-z]+\))? )?(?:const )?(?:unsafe )?(?:extern \"C\" )?fn (\w+)", re.M)


def functions_of(crate, files):
    """The functions in which the texts of these files differ from those of the crate, or in whose proofs, by name; None alone where it is in none."""
    found = set()
    for path, text in files.items():
        if path.startswith("proofs/"):
            found.add(pathlib.Path(path).parent.name)
            continue
        was = (crate / path).read_text()
        first = next(at for at, (one, other) in enumerate(zip(was, text)) if one != other)
        before = [it for it in FUNCTION.finditer(was) if it.start() <= first]
        # A bracket at a line's beginning behind the last function ends it.
        found.add(before[-1][1] if before and was[before[-1].end() : first].count("\n}") == 0 else None)
    return found - {None} or found


def next_group(crate, left):
    """Bodies of functions that are apart, and the files that they make together."""
    group, taken, texts = [], set(), {}
    for body in left:
        names = functions_of(crate, aside.changed(crate, body))
        if None in names:
            if not group:
                return [(body, names)], aside.changed(crate, body)
            continue
        said = re.findall(r"^(?:file: (.*)|old: (.*)\nnew: ?(.*))$", body.read_text(), re.M)
        made, path = dict(texts), ""
        for file, old, new in said:
            path = file or path
            text = made.get(path) or (crate / path).read_text()
            if old and text.count(old) != 1:
                break
            made[path] = text.replace(old, new) if old else text
        else:
            if not names & taken:
                group.append((body, names))
                taken |= names
                texts = made
    return group, texts


def refused_in(told, name):
    """Whether a function or a closure of it, or any where it has no name here, is refused by itself: True or False; None where it waits for one that
    it calls."""
    end = rf"(?:\b|fn::){name}(?:::[\w:+]*)?" if name else ""
    lines = re.findall(rf"^fn [\w:+#<>=,. ]*{end}: (.*)$", told, re.M)
    bad = [line for line in lines if not re.match(r"proved|no holes", line)]
    if not bad:
        return False
    return True if any(not line.startswith("no proof: it calls") for line in bad) else None


def told_by(place, crate, texts):
    """What a check says of the crate with these files."""
    folder = place / "crates" / crate.name
    for path, text in texts.items():
        (folder / path).write_text(text)
    run = subprocess.run(["rt", "check"], cwd=folder, capture_output=True, text=True, env=os.environ | {"RT_JOBS": "1"}, check=False)
    for path in texts:
        shutil.copyfile(crate / path, folder / path)
    return run.stdout + run.stderr, run.returncode


def trial(place, crate):
    """Tries all wrong bodies of a crate that stand aside, and tells those that are not refused. One whose check says nothing of its function is none
    that was tried: it does not compile, or the check broke off."""
    left, bad = sorted((crate / "wrong-bodies").glob("*.edit")), []
    while left:
        group, texts = next_group(crate, left)
        told, status = told_by(place, crate, texts)
        ends = {body: [refused_in(told, name) for name in names] for body, names in group}
        if len(group) > 1 and not any(True in it for it in ends.values()):
            # None of them is told by itself: the first one alone.
            body, names = group[0]
            told, status = told_by(place, crate, aside.changed(crate, body))
            ends = {body: [refused_in(told, name) for name in names]}
        for body, its in ends.items():
            if None in its and True not in its and len(ends) > 1:
                continue
            word = "is refused" if True in its else "is NOT REFUSED" if not status else "was NOT TRIED"
            print(f"{crate.name}: {body.name} {word}", flush=True)
            bad += [] if True in its else [body]
            left.remove(body)
    return bad


def main():
    if len(sys.argv) < 2:
        print("usage: trial.py CRATE..")
        return 2
    bad = 0
    with tempfile.TemporaryDirectory() as folder:
        place = pathlib.Path(folder) / "clone"
        subprocess.run(["git", "clone", "-q", str(ROOT), str(place)], check=True)
        for name in sys.argv[1:]:
            crate = ROOT / "crates" / name
            through = trial(place, crate)
            bad += len(through)
            if not through:
                (crate / "wrong-bodies/tried.txt").write_text(aside.digest(crate) + "\n")
    return 1 if bad else 0


if __name__ == "__main__":
    sys.exit(main())
