"""The pages: the README and the guides show programs word for word, and what stands in the tutorial and the example; each link
of a page leads to a file; a page names no file, call or definition that is not there, in its commands too; and none tells what was before."""
import functools
import re

from started import check

GUIDES = ("docs/GUIDE.md", "docs/OPERATING.md")
STEPS = {"README.md": ("counter", "labels", "endpoint"), "docs/GUIDE.md": ("threads",)}
MOST = 230


def shown(root):
    """How many programs the README and the guides show, each word for word: steps of the tutorial, and the first programs in other languages."""
    check(len((root / "README.md").read_text().splitlines()) <= MOST, f"the README has at most {MOST} lines")
    wanted = [(page, f"crates/tutorial/src/{step}.rt", "rust") for page, steps in STEPS.items() for step in steps]
    firsts = (("c", "hello.c", "c"), ("cpp", "examples/hello.cc", "cpp"), ("rust", "examples/hello.rs", "rust"), ("python", "hello.py", "python"))
    wanted += [(f"bindings/{it}/README.md", f"bindings/{it}/{program}", language) for it, program, language in firsts]
    for page, program, language in wanted:
        blocks = re.findall(rf"^```{language}\n(.*?)^```$", (root / page).read_text(), re.M | re.S)
        check((root / program).read_text() in blocks, f"{page} shows {program} word for word")
    return len(wanted)


def quoted(root):
    """How many pieces the guides quote, each of which stands word for word in a file of the tutorial or the example."""
    files = [*root.glob("crates/tutorial/src/*.rt"), *root.glob("crates/example_service/src/*.rt"), *root.glob("crates/example_service/*.yml")]
    texts = [file.read_text() for file in files]
    guides = "".join((root / it).read_text() for it in GUIDES)
    pieces = re.findall(r"^```(?:rust|yaml)\n(.*?)^```$", guides, re.M | re.S)
    for piece in pieces:
        check(any(piece in text for text in texts), f"a guide quotes what stands in a file:\n{piece}")
    return len(pieces)


def pages_of(root):
    return [root / "README.md", *root.glob("docs/*.md"), *root.glob("crates/*/*.md"), *root.glob("checks/*.md"), *root.glob("compare/*.md"), *root.glob("bindings/*/*.md")]


def sources_of(root):
    return [*root.glob("crates/*/src/**/*.rt"), *root.glob("crates/*/specs/**/*.antt"), *root.glob("crates/*/proofs/**/*.antt")]


@functools.lru_cache
def parts(page):
    """The names by which links reach the headings of a page."""
    text = re.sub(r"^```.*?^```$", "", page.read_text(), flags=re.M | re.S)
    return {re.sub(r"[^\w\- ]", "", it.lower()).replace(" ", "-") for it in re.findall(r"^#+ (.*)$", text, re.M)}


def links(root):
    """How many links to files of the repository, and to parts of pages, the pages have."""
    count = 0
    for page in pages_of(root):
        for target, part in re.findall(r"\]\(([^)#\s]*)(?:#([^)\s]+))?\)", page.read_text()):
            if not target.startswith("http"):
                file = (page.parent / target) if target else page
                check(file.exists(), f"{page.relative_to(root)}: {target} is there")
                check(not part or part in parts(file), f"{page.relative_to(root)}: {target} has a part {part}")
                count += 1
    return count


def calls(root):
    """How many calls the pages of calls name, each of which stands in the sources of some crate."""
    sources = "\n".join(file.read_text() for file in root.glob("crates/*/src/**/*.rt"))
    there = set(re.findall(r"\bfn (\w+)", sources))
    count = 0
    for page in root.glob("crates/*/CALLING.md"):
        listed = page.read_text().split("\n## ")[0]
        for path in re.findall(r"^fn ([\w:<>, ]+?)(?:<[^(]*>)?\(", listed, re.M):
            name = path.split("::")[-1]
            check(name in there, f"{page.relative_to(root)}: {path} is a call")
            count += 1
    return count


def files(root):
    """How many files the pages name, by the path from the top or by the name alone, each of which is there."""
    names = {file.name for file in sources_of(root)}
    count = 0
    for page in pages_of(root):
        text = page.read_text()
        for path in re.findall(r"`((?:crates|docs|checks|compare)/[\w./-]+)`", text):
            made = "NAME" in path or "/out" in path
            check(made or (root / path).exists(), f"{page.relative_to(root)}: {path} is there")
            count += 1
        for name in re.findall(r"`(\w+\.(?:rt|antt))`", text):
            check(name in names, f"{page.relative_to(root)}: {name} is a file of a crate")
            count += 1
    return count


def commands(root):
    """How many files the pages' commands name, by the path from the top or from the page, each of which is there."""
    count = 0
    for page in pages_of(root):
        for block in re.findall(r"^```sh\n(.*?)^```$", page.read_text(), re.M | re.S):
            for path in re.findall(r"(?<![\w/.$-])((?:crates|docs|checks|compare|bindings)/[\w./-]+|[\w-]+\.(?:sh|yml|py))", block):
                made = "NAME" in path or "/out" in path
                beside = [root / path, page.parent / path, *root.glob(f"crates/*/fleet/{path}")]
                check(made or any(it.exists() for it in beside), f"{page.relative_to(root)}: a command names {path}, which is there")
                count += 1
    return count


DIARY = re.compile(r"\b(?:no longer|formerly|previously|used to be|until now|in the past|earlier version|(?:was|were|been) (?:renamed|moved|removed))\b", re.I)


def diary(root):
    """How many pages there are, none of which tells what was before."""
    pages = pages_of(root)
    for page in pages:
        told = DIARY.search(page.read_text())
        check(not told, f"{page.relative_to(root)} tells what is, and not what was: {told and told[0]}")
    return len(pages)


def definitions(root):
    """How many names docs/DEFINITIONS.md tells of, each of which stands in the crates."""
    there = set(re.findall(r"[A-Za-z_][\w']*", "\n".join(file.read_text() for file in sources_of(root))))
    named = re.findall(r"`(?:\w+(?:::|\.))*([A-Za-z_]\w*)`", (root / "docs/DEFINITIONS.md").read_text())
    for name in named:
        check(name in there, f"docs/DEFINITIONS.md: {name} is a name of the crates")
    return len(named)


def check_all(root):
    return sum(part(root) for part in (shown, quoted, links, calls, files, commands, diary, definitions))
