"""The definitions of the crates' specs/: a clause reaches each of them, by its name or by definitions that cite it. What proofs alone need is theirs."""
import re

from started import check

NAME = re.compile(r"^ *((?:abbrev|unfoldable|pub|record|data) +)+(?P<name>[^\s:(){}]+) ")
KEYWORDS = re.compile(r"\b(?:abbrev|unfoldable|record|data)\b")
WORD = re.compile(r"[^\s(){}\[\],;.]+")


def without_comments(text, sign):
    return re.sub(rf"(?m){sign}.*$", "", text)


def begins(line):
    """The name that this line begins to define, if it does: of a record's fields the record's is told."""
    found = NAME.match(line)
    is_field = found and line.startswith(" ") and not KEYWORDS.search(line.split(":")[0])
    return found["name"] if found and not is_field else None


def definitions(root):
    """Each name that the specs define, with the files that do, and all words of these definitions."""
    found = {}
    for file in sorted(root.glob("crates/*/specs/**/*.antt")):
        current = None
        for line in without_comments(file.read_text(), "--").splitlines():
            if re.match(r"\s*(?:pub )?(?:use|mod|module|infix\w*) ", line):
                continue
            name = begins(line)
            if name:
                current = found.setdefault(name, ([], set()))
                current[0].append(file)
            if current:
                current[1].update(WORD.findall(line))
    return found


def clauses(root):
    """All words of the sources, without what they import."""
    words = set()
    for file in root.glob("crates/*/src/**/*.rt"):
        source = re.sub(r"(?m)^\s*ghost use .*$", "", without_comments(file.read_text(), "//"))
        words.update(WORD.findall(source))
    return words


def check_all(root):
    """How many definitions there are."""
    found = definitions(root)
    ahead, reached = [it for it in clauses(root) if it in found], set()
    while ahead:
        name = ahead.pop()
        if name not in reached:
            reached.add(name)
            ahead += [it for it in found[name][1] if it in found]
    for name in sorted(found.keys() - reached):
        # An operator is cited by its sign, without the places of what it joins.
        if "◌" not in name:
            check(False, f"{found[name][0][0].relative_to(root)}: a clause reaches {name}")
    return len(found)
