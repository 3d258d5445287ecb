#!/usr/bin/env python3
"""Checks that no file names the host of a package archive: scripts read its address from the user's own settings, those of
apt by tests/shared/apt_uri.sh, so a user's mirror works too. The pattern must find each of SAMPLES, and none of OTHERS.

usage: tests/documents/archives.py
needs: nothing
"""
import os
import re
import subprocess
import sys

sys.path.insert(0, f"{os.path.dirname(os.path.abspath(__file__))}/../shared")
from checks import NAME, ROOT, check, finish  # noqa: E402

# a source of apt; an archive of a distribution; a registry of packages
ARCHIVE = re.compile(r"\bdeb(?:-src)?\s+(?:\[[^]]*\]\s+)?\w+://|\bURIs:\s*\w+://|\w+://[\w.:-]+/(?:debian|ubuntu)(?:-\w+)?(?![\w./-]*\.\w)"
                     r"|\b(?:deb|security|ftp[\w.]*|snapshot|archive)\.(?:debian|ubuntu)\.(?:org|com)\b"
                     r"|\b(?:registry\.npmjs\.org|registry\.yarnpkg\.com|proxy\.golang\.org|files\.pythonhosted\.org|pypi\.org/simple|index\.crates\.io)\b")
HOST = re.compile(r"://|\.(?:org|com|io)\b")
SAMPLES = ("mirror=http://deb.debian.org/debian", "echo 'deb http://mirror.example/debian-security bookworm-security main'", "URIs: http://mirror.example/x",
           'debootstrap bookworm "$folder" http://mirror.example:3142/debian', "pip --index-url https://pypi.org/simple", "deb [signed-by=/k.gpg] https://a.example b c")
OTHERS = ("URIs: %s", "https://www.debian.org/", "https://manpages.debian.org/bookworm/iproute2/tc-pie.8.en.html", 'deb $(apt_uri security) bookworm-security main',
          "https://docs.example/debian/index.html", "cp *.deb http")


def main():
    for text in SAMPLES:
        check(HOST.search(text) and ARCHIVE.search(text), f"the pattern misses {text!r}")
    for text in OTHERS:
        check(not ARCHIVE.search(text), f"the pattern finds {text!r}")
    names = subprocess.run(["git", "ls-files", "-z"], cwd=ROOT, capture_output=True, check=True).stdout.decode().split("\0")
    seen = 0
    for name in names:
        path = ROOT / name
        if name and path.is_file() and not path.is_symlink() and name != str(NAME):
            seen += 1
            for number, line in enumerate(path.read_text(errors="replace").splitlines(), 1):
                found = HOST.search(line) and ARCHIVE.search(line)
                check(not found, f"{name}:{number}: names a package archive: {found and found[0]}")
    check(seen > 100, f"only {seen} files were read")
    print(f"{NAME}: {seen} files name no package archive")
    return finish()


main()
