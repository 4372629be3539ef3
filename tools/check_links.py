#!/usr/bin/env python3
"""Ends with 1 where a link of README.md or docs/ leads to no file of the repository, or a definition's file that they name isn't there."""
import os
import re
import sys

TOP = os.path.dirname(os.path.dirname(os.path.abspath(__file__)))


def pages():
    yield "README.md"
    for name in sorted(os.listdir(f"{TOP}/docs")):
        if name.endswith(".md"):
            yield f"docs/{name}"


def lost(page):
    """The links of a page that lead nowhere, and the paths below crates/ that it names and that are not there."""
    with open(f"{TOP}/{page}", encoding="utf-8") as it:
        text = re.sub(r"^```.*?^```", "", it.read(), flags=re.S | re.M)
    for link in re.findall(r"\]\(([^)#\s]+)", text):
        if "://" not in link and not os.path.exists(f"{TOP}/{os.path.dirname(page)}/{link}"):
            yield link
    for path in re.findall(r"`(crates/[\w/.]+?)/?`", text):
        if not re.search(r"[A-Z]{3,}", path) and not os.path.exists(f"{TOP}/{path}"):
            yield path


def main():
    found = [(page, link) for page in pages() for link in lost(page)]
    for page, link in found:
        print(f"{page}: {link} isn't there", file=sys.stderr)
    return 1 if found else 0


if __name__ == "__main__":
    sys.exit(main())
