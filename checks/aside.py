"""Wrong bodies. Each can be made still, of those that the gate tries and of those that stand aside in a folder `wrong-bodies/`. Those that
stand aside were tried at the clauses and definitions that their crate has now, and at the definitions and types of the crates below that these
cite: the file `tried.txt` beside them has the digest of all. `python3 -B checks/trial.py CRATE` tries those of a crate, and writes it."""
import hashlib
import pathlib
import re

from started import check

ROOT = pathlib.Path(__file__).resolve().parent.parent

# What a source is read as: comments, texts, letters, lifetimes, words of Rust and of clauses, and single signs.
TOKEN = re.compile(
    r"""(?P<comment>//[^\n]*|/\*.*?\*/)|b?"(?:\\.|[^"\\])*"|b?'(?:\\.[^']*|[^'\\])'|'\w+|[\w◌]+'*|[^\s\w]""",
    re.S,
)
OPENING, CLOSING = "([{", ")]}"
CLAUSES = ("requires", "ensures")


def tokens_of(source):
    return [it[0] for it in TOKEN.finditer(source) if not it["comment"]]


def end_of_group(tokens, at):
    """The place behind the bracket that closes the one at this place."""
    depth = 0
    for place in range(at, len(tokens)):
        depth += (tokens[place] in OPENING) - (tokens[place] in CLOSING)
        if depth == 0:
            return place + 1
    raise ValueError("a bracket is not closed")


def end_of(tokens, at, sign):
    """The place behind the next such sign that stands in no bracket."""
    while tokens[at] != sign:
        at = end_of_group(tokens, at) if tokens[at] in OPENING else at + 1
    return at + 1


def clauses_in(tokens):
    """The clauses of a body's closures."""
    told = []
    for at, word in enumerate(tokens):
        if word in CLAUSES:
            told += tokens[at : end_of_group(tokens, tokens.index("{", at))]
    return told


def function(tokens, at):
    """What a function promises, with its signature, if it has a clause; and the place behind its body."""
    begin, has_clause = at, False
    while tokens[at] not in ("{", ";"):
        if tokens[at] in CLAUSES:
            has_clause = True
            at = tokens.index("{", at)
        at = end_of_group(tokens, at) if tokens[at] in OPENING else at + 1
    end = end_of_group(tokens, at) if tokens[at] == "{" else at + 1
    return (tokens[begin:at] if has_clause else []) + clauses_in(tokens[at:end]), end


def outline(source, has_calls=True):
    """A source without its comments, attributes, imports of code, and bodies: its types with what is true of them, its constants, and its
    functions that have clauses, with these, or no function."""
    tokens, told, at = tokens_of(source), [], 0
    while at < len(tokens):
        word = tokens[at]
        if word == "fn":
            promise, at = function(tokens, at)
            told += promise if has_calls else []
        elif word == "pub":
            at = end_of_group(tokens, at + 1) if tokens[at + 1] == "(" else at + 1
        elif word == "#":
            at = end_of_group(tokens, tokens.index("[", at))
        elif word == "mod" or word == "use" and told[-1:] != ["ghost"]:
            at = end_of(tokens, at, ";")
        else:
            told.append(word)
            at += 1
    return told


def definitions(source):
    """A file of definitions, without its comments."""
    return re.sub(r"\{-.*?-\}|--[^\n]*", "", source, flags=re.S).split()


def own(crate):
    """The files with the clauses and definitions of a crate."""
    return {*crate.glob("src/**/*.rt"), *crate.glob("specs/**/*.antt")}


def file_of(crates, module):
    """The file of a crate's module of definitions, or of its source that declares a type; None where it is none of this repository."""
    name, _specs, *path = module.rstrip(".").split(".")[1:]
    folder, end = (crates / name / "src", ".rt") if path[:1] in (["declared"], ["contracts"]) else (crates / name / "specs", ".antt")
    path = path[1:] if end == ".rt" else path
    tried = ["/".join(path[:long]) for long in range(len(path), 0, -1)] + (["lib"] if end == ".rt" else [])
    return next((file for file in (folder / f"{it}{end}" for it in tried) if file.is_file()), None)


def cited(crate):
    """The files of the crates below with the definitions and types that those of a crate cite, and those that these cite in turn."""
    found, left = set(), own(crate)
    while left:
        modules = set(re.findall(r"\bRattle\.\w+\.specs\.[\w.]+", left.pop().read_text()))
        files = {file_of(crate.parent, it) for it in modules} - {None} - own(crate) - found
        found |= files
        left |= files
    return found


def digest(crate):
    """The sum of all clauses and definitions of a crate, and of the definitions and types below that they cite, in the order of their files."""
    told, mine = hashlib.sha256(), own(crate)
    for file in sorted(mine | cited(crate)):
        source = file.read_text()
        words = outline(source, file in mine) if file.suffix == ".rt" else definitions(source)
        # A list that is broken into lines ends with a sign which one of a single line has not.
        part = re.sub(r" ?[,;] ([)\]}>])", r" \1", " ".join(words))
        told.update(f"{file.relative_to(crate.parent).as_posix()}\n{part}\n".encode())
    return told.hexdigest()


def changed(crate, body):
    """The files that a wrong body of a crate makes, by their paths. Each line that it changes has to stand once in the file that it names last,
    one after the other."""
    texts, path, said = {}, "", body.read_text()
    parts = re.findall(r"^(?:file: (.*)|old: (.*)\nnew: ?(.*))$", said, re.M)
    check(sum(bool(old) for _, old, _ in parts) == len(re.findall("^(?:old|new):", said, re.M)) / 2, f"{crate.name}, {body.name}: old, new by turns")
    for file, old, new in parts:
        path = file or path
        text = texts.setdefault(path, (crate / path).read_text())
        if old:
            check(text.count(old) == 1, f"{crate.name}, {body.name}: its old line stands once in {path}: {old}")
            texts[path] = text.replace(old, new)
    return {path: text for path, text in texts.items() if text != (crate / path).read_text()}


def can_be_made(root):
    """How many wrong bodies there are, each of which changes something."""
    bodies = [*root.glob("crates/*/must-fail/*.edit"), *root.glob("crates/*/wrong-bodies/*.edit")]
    for body in bodies:
        check(changed(body.parent.parent, body), f"{body.relative_to(root)} changes something")
    return len(bodies)


def were_tried(root):
    """In how many crates wrong bodies stand aside, which were tried at the clauses and definitions that are there."""
    folders = sorted({body.parent for body in root.glob("crates/*/wrong-bodies/*.edit")})
    for folder in folders:
        crate, told = folder.parent, folder / "tried.txt"
        was = told.read_text().strip() if told.is_file() else "none"
        check(
            was == digest(crate),
            f"clauses or definitions of {crate.name} have changed since its wrong bodies were tried that stand aside: "
            f"python3 -B checks/trial.py {crate.name}",
        )
    return len(folders)


def check_all(root):
    return can_be_made(root) + were_tried(root)
