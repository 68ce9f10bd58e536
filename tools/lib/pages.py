"""Puts the pages that a package has into a folder, with their links.

    python3 tools/lib/pages.py FOLDER

README.md, CHANGELOG.md and docs/ keep their places towards one another. A link to a file that no package has becomes its text.
"""
import os
import re
import shutil
import sys

sys.path.insert(0, os.path.dirname(os.path.realpath(__file__)))
from basics import TOP

LINK = re.compile(r"(!?)\[([^\]]*)\]\(([^)#\s]+)(#[^)\s]*)?\)")


def pages():
    """The paths of what is put there."""
    docs = [f"docs/{name}" for name in sorted(os.listdir(f"{TOP}/docs")) if name.endswith(".md")]
    pictures = [f"docs/pictures/{name}" for name in sorted(os.listdir(f"{TOP}/docs/pictures"))]
    return ["README.md", "CHANGELOG.md", *docs, *pictures]


def without_dead_links(text, folder, kept):
    """The text of a page in this folder, in which only links to web pages and to what is kept are links."""
    def plain(link):
        target = os.path.normpath(os.path.join(folder, link[3]))
        return link[0] if "://" in link[3] or target in kept else link[2]

    return LINK.sub(plain, text)


def main():
    folder, kept = sys.argv[1], pages()
    for path in kept:
        to = f"{folder}/{path}"
        os.makedirs(os.path.dirname(to), exist_ok=True)
        if path.endswith(".md"):
            with open(f"{TOP}/{path}", encoding="utf-8") as page, open(to, "w", encoding="utf-8") as put:
                put.write(without_dead_links(page.read(), os.path.dirname(path), kept))
        else:
            shutil.copyfile(f"{TOP}/{path}", to)


main()
