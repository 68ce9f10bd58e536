"""Looks at the words of the pages and of the comments, as tools/gate/check-docs does.

    python3 tools/lib/prose.py [-c]

Prints what was counted, words of the pages and mannerisms of the pages and of the comments, and then each fault: a link that leads nowhere, a
case that docs/PROVED.md names and no trial or test has, another version than the program's, an option that only its help has, a line of
CONTRIBUTING.md's worked change that its file does not have, or a count above its bound. With -c only what was counted is printed.
Status 0: there is no fault. 1: there is one.
"""
import glob
import os
import re
import sys

sys.path.insert(0, os.path.dirname(os.path.realpath(__file__)))
from basics import TOP, Words

# What the pages may have: words of all of them, and mannerisms. Lower a bound when the count has fallen.
MOST_WORDS = 12_000
MOST_IN_PAGES = 10
MOST_IN_COMMENTS = 60

# Words that hide who does what, or under which condition. A plain reader takes `where` for a place.
MANNERISM = re.compile(r"\b(?:where|behind|beside|alone|likewise|whoever|told)\b", re.I)
BEGINS_WITH_THE_SAME = re.compile(r"The same\b")

LINK = re.compile(r"\]\(([^)#\s]*)(?:#([^)\s]*))?\)")
CASE = re.compile(r"`(?!tn_)([a-z0-9]+(?:_[a-z0-9]+)+)`")
WRITTEN = re.compile(r"<!-- (?:what the statement rests on).*?<!-- end of [^>]*>", re.S)


def read(path):
    with open(path, encoding="utf-8") as file:
        return file.read()


def pages():
    """The paths of the pages that one reads, but CHANGELOG.md, whose dated entries stay as they are."""
    return [f"{TOP}/{name}" for name in ("README.md", "CONTRIBUTING.md", "crates/README.md")] + sorted(
        glob.glob(f"{TOP}/docs/**/*.md", recursive=True))


def words_of(text):
    """The words of a page, code and all, without the list that tools/gate/rests-on writes. A bar of a table is no word."""
    return [word for word in WRITTEN.sub("", text).split() if re.search(r"\w", word)]


def prose_of(text):
    """The text of a page without blocks of code, and without code between backticks."""
    text = re.sub(r"^```.*?^```", "", text, flags=re.M | re.S)
    return re.sub(r"`[^`]*`|\]\([^)]*\)", "", text)


def manual_prose():
    """The text of the manual page, without the examples that it prints."""
    return re.sub(r"^\.nf$.*?^\.fi$", "", read(f"{TOP}/docs/tn.1"), flags=re.M | re.S)


def comments_of(path):
    """The comments of a source, each block of lines as one text."""
    mark = "//" if path.endswith(".rt") else "--"
    block, blocks = [], []
    for line in read(path).splitlines():
        found = re.match(rf"\s*{mark}[/!]?\s?(.*)", line)
        if found:
            block.append(found[1])
            continue
        if block:
            blocks.append("\n".join(block))
            block = []
        if found := re.search(rf"\s{mark} (.*)", line):
            blocks.append(found[1])
    return blocks + (["\n".join(block)] if block else [])


def sources():
    for end in ("src/**/*.rt", "specs/**/*.antt"):
        for path in glob.glob(f"{TOP}/crates/*/{end}", recursive=True):
            if "/specs/declared/" not in path:
                yield path


def lost_lines():
    """The lines that a diff of CONTRIBUTING.md adds to a file, and that file does not have."""
    page = f"{TOP}/CONTRIBUTING.md"
    for diff in re.findall(r"^```diff\n(.*?)^```", read(page), re.M | re.S):
        for path, lines in re.findall(r"^\+\+\+ (.*)\n((?:\+(?!\+\+ ).*\n)*)", diff, re.M):
            lacks = set(re.findall(r"^\+(.*)$", lines, re.M)) - set(read(f"{TOP}/{path}").splitlines() if os.path.exists(f"{TOP}/{path}") else ())
            for line in sorted(lacks):
                yield page, f"{path} has no line {line.strip()}"


def count_of(texts):
    return sum(len(MANNERISM.findall(text)) + bool(BEGINS_WITH_THE_SAME.match(text)) for text in texts)


def anchors_of(text):
    """The anchors of a page's headings, as a reader of Markdown makes them."""
    headings = re.findall(r"^#+ (.*)$", re.sub(r"^```.*?^```", "", text, flags=re.M | re.S), re.M)
    return {re.sub(r"[^\w\- ]", "", heading.lower()).replace(" ", "-") for heading in headings}


def dead_links():
    for page in [*pages(), f"{TOP}/CHANGELOG.md", *glob.glob(f"{TOP}/share/**/*.md", recursive=True)]:
        text = read(page)
        for path, anchor in LINK.findall(re.sub(r"^```.*?^```", "", text, flags=re.M | re.S)):
            if "://" in path:
                continue
            target = os.path.normpath(os.path.join(os.path.dirname(page), path)) if path else page
            if not os.path.exists(target):
                yield page, f"a link leads to {path}, which is not there"
            elif target.endswith(".md") and anchor and anchor not in anchors_of(read(target)):
                yield page, f"a link leads to #{anchor} of {os.path.relpath(target, TOP)}, which is not there"


def missing_cases():
    """The cases that the part "Read" of docs/PROVED.md names, and no trial or test has."""
    known = set()
    for path in glob.glob(f"{TOP}/tools/trials/*.py") + glob.glob(f"{TOP}/crates/tn_test_*/src/**/*.rt", recursive=True):
        known |= set(re.findall(r"^\s*(?:def|pub fn|fn) (\w+)", read(path), re.M))
    page = f"{TOP}/docs/PROVED.md"
    part = re.search(r"^## Read$(.*?)^## ", read(page), re.M | re.S)
    for row in re.findall(r"^\|.*\|([^|]*)\|$", part[1] if part else "", re.M):
        for name in CASE.findall(row):
            if name not in known:
                yield page, f"no trial or test is called {name}"
    if not part:
        yield page, "it has no part called Read"


def other_versions():
    """The versions that README.md and the manual page name of the program, if they are not what docs/help says that it prints."""
    version = read(f"{TOP}/docs/help/version.txt").split()[1]
    patterns = {"README.md": (r"pikvalde[_-](\d[.\d]*\d)[_-]", r"^(\d[.\d]*\d), for Linux"), "docs/tn.1": (r"\\fBtn (\d[.\d]*\d)\\fR",)}
    for page, those in patterns.items():
        for pattern in those:
            for other in re.findall(pattern, read(f"{TOP}/{page}"), re.M) or ["none"]:
                if other != version:
                    yield f"{TOP}/{page}", f"it names the version {other}, and the program prints {version}"


def missing_options():
    """The options that docs/help lists, and the manual page does not have."""
    manual = read(f"{TOP}/docs/tn.1").replace("\\-", "-")
    for path in sorted(glob.glob(f"{TOP}/docs/help/tn*.txt")):
        for option in re.findall(r"^ +(?:-\w, )?(--?[a-z0-9-]+)", read(path), re.M):
            if not re.search(rf"\\f[BI](?:[^\\]* )?{re.escape(option)}(?![\w-])", manual):
                yield f"{TOP}/docs/tn.1", f"it has no {option}, which {os.path.basename(path)} lists"


def main():
    words = Words(__doc__)
    words.add_argument("-c", dest="only_counts", action="store_true")
    asked = words.parse_args()
    found = [] if asked.only_counts else [*dead_links(), *missing_cases(), *other_versions(), *missing_options(), *lost_lines()]
    faults = [f"{os.path.relpath(page, TOP)}: {what}" for page, what in found]
    counts = ((sum(len(words_of(read(page))) for page in pages()), MOST_WORDS, "words in pages"),
              (count_of([*map(prose_of, map(read, pages())), manual_prose()]), MOST_IN_PAGES, "mannerisms in pages"),
              (count_of(text for path in sources() for text in comments_of(path)), MOST_IN_COMMENTS, "mannerisms in comments"))
    for count, most, what in counts:
        print(f"prose: {count:,} {what}, and {most:,} may be there")
        if count > most and not asked.only_counts:
            faults.append(f"{count:,} {what}")
    for fault in faults:
        print(f"prose: {fault}", file=sys.stderr)
    return 1 if faults else 0


sys.exit(main())
