#!/usr/bin/env python3
"""Looks at the pages: that each link leads to a file and a heading that are there, that no line has more than 160 characters, and that what docs/SESSIONS.md
shows of each call stands in the cases, which the gate runs.

    pages.py

Prints what is otherwise, and ends with 1 where something is."""
import glob
import os
import re
import sys

TOP = os.path.join(os.path.dirname(os.path.abspath(__file__)), "..")
MOST = 160
# Their tables have long rows, and they are written by whoever proves.
LONG = {"docs/PROOFS.md", "crates/cases/README.md"}
SIGNS = {"r": "\r", "n": "\n", "t": "\t", "e": "\x1b"}
wrong = 0


def otherwise(what):
    global wrong
    wrong += 1
    print(f"OTHERWISE: {what}")


def read(path):
    with open(os.path.join(TOP, path), encoding="utf-8") as text:
        return text.read()


def pages():
    found = [path for folder in ("", "docs/", "examples/", "bench/", "tools/", "crates/cases/") for path in glob.glob(os.path.join(TOP, folder, "*.md"))]
    return sorted(os.path.relpath(path, TOP) for path in found)


def headings(text):
    """The names by which the headings of a page are linked."""
    for line in re.findall(r"^#+ (.*)$", text, re.M):
        yield re.sub(r"[^\w\- ]", "", line.lower()).replace(" ", "-")


def links(text):
    prose = re.sub(r"^```.*?^```$", "", text, flags=re.M | re.S)
    prose = re.sub(r"^    .*$", "", prose, flags=re.M)
    return re.findall(r"\]\(([^)\s]+)\)", prose) + re.findall(r"^\[[\w-]+\]: (\S+)$", text, re.M)


def look_at_links(path, text):
    for link in links(text):
        if "://" in link:
            continue
        file, _, heading = link.partition("#")
        target = os.path.normpath(os.path.join(os.path.dirname(path), file)) if file else path
        if not os.path.exists(os.path.join(TOP, target)):
            otherwise(f"{path}: {link} leads to no file")
        elif heading and heading not in headings(read(target)):
            otherwise(f"{path}: {link} leads to no heading")


def look_at_lines(path, text):
    for number, line in enumerate(text.splitlines(), 1):
        if len(line) > MOST:
            otherwise(f"{path}:{number} has {len(line)} characters")


def units(text):
    plain = re.sub(r"\\(.)", lambda found: SIGNS.get(found[1], found[1]), text)
    return plain.encode("utf-16-be").hex()


def look_at_calls():
    cases = read("crates/cases/data/calls.cases")
    told = {re.sub(r'u"([^"]*)"', lambda found: f'"{units(found[1])}"', line) for line in cases.splitlines()}
    page = read("docs/SESSIONS.md").partition("\n## Each call\n")[2]
    for line in re.findall(r"^    (\[.*\])$", page, re.M):
        if line not in told if line.startswith('["c1"') else line not in cases:
            otherwise(f"docs/SESSIONS.md shows a line that no case has: {line}")
    names = set(re.findall(r'^spelled .*codes "([^"]+)"', read("crates/con_events/specs/Table.antt"), re.M)) | {"read", "read-with", "read-input", "exit"}
    for name in names ^ set(re.findall(r"^### (.*)$", page, re.M)):
        otherwise(f"{name} is a call without a heading in docs/SESSIONS.md, or a heading without a call")


def main():
    for path in pages():
        text = read(path)
        look_at_links(path, text)
        if path not in LONG:
            look_at_lines(path, text)
    look_at_calls()
    print(f"{len(pages())} pages, {wrong} otherwise")
    sys.exit(wrong > 0)


main()
