#!/usr/bin/env python3
"""Checks the size and the form of the pages: all pages together have fewer words than MOST_WORDS, not counting the bars and marks of tables; a line of
prose has at most 100 characters (tables, fences, pictures and indented lines may be longer); and no page contains a sentence of another page.

usage: tests/documents/words.py [--all]      --all: prints the number of words of each page
needs: nothing
"""
import os
import re
import subprocess
import sys

sys.path.insert(0, f"{os.path.dirname(os.path.abspath(__file__))}/../shared")
from checks import ROOT, check, finish  # noqa: E402

MOST_WORDS = 48600
LONGEST = 100
# a sentence of fewer words may occur on two pages, for example "`--help` lists all options."
REPEATED = 9


def prose(text):
    """Returns the numbered lines of a page without tables, fences, pictures, headings and indented blocks; for each of those an empty line."""
    is_fenced, is_block, was_empty = False, False, True
    for number, line in enumerate(text.splitlines(), 1):
        is_fence = line.startswith("```")
        is_fenced ^= is_fence
        is_block = line.startswith("    ") and (is_block or was_empty)
        was_empty = not line.strip()
        is_left_out = is_fence or is_fenced or is_block or line.startswith(("|", "![", "#", "<!--"))
        yield number, "" if is_left_out else line


def sentences(text):
    """Returns the sentences of a page's paragraphs and list items, without links and marks."""
    lines = ["\n" + re.sub(r"^\s*(?:[-*]|\d+\.) ", "", line) if re.match(r"\s*(?:[-*]|\d+\.) ", line) else line.strip() for _, line in prose(text)]
    for paragraph in re.split(r"\n\s*\n|\n\n", "\n".join(lines)):
        plain = re.sub(r"\[([^]]*)\]\([^)]*\)", r"\1", " ".join(paragraph.split()))
        for sentence in re.split(r"(?<=[.:;])\s+(?=[A-Z`*])", plain):
            if len(sentence.split()) >= REPEATED:
                yield sentence


def main():
    # (pages beside the code, as those of crates/, are notes of a few lines)
    listed = subprocess.run(["git", "ls-files", "-co", "--exclude-standard", "*.md"], cwd=ROOT, capture_output=True, text=True, check=True).stdout
    pages = sorted(it for it in set(listed.split()) if not it.startswith(("crates/", "tests/")) and (ROOT / it).exists())
    total, places = 0, {}
    for page in pages:
        text = (ROOT / page).read_text()
        count = sum(any(map(str.isalnum, word)) for word in text.split())
        total += count
        if "--all" in sys.argv:
            print(f"{count:6}  {page}")
        for number, line in prose(text):
            check(len(line) <= LONGEST, f"{page}:{number}: a line above {LONGEST} characters")
        for sentence in sentences(text):
            places.setdefault(sentence, set()).add(page)
    for sentence, found in places.items():
        check(len(found) == 1, f"{' and '.join(sorted(found))} contain one sentence: {sentence}")
    if "--all" in sys.argv:
        print(f"{total:6}  all pages")
    check(total < MOST_WORDS, f"all pages together have {total} words; the limit is {MOST_WORDS}")
    finish()


main()
