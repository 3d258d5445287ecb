#!/usr/bin/env python3
"""Writes the page juniperbowls.html: the parts of this folder, the program of dist/wasm/, the histories of examples/ and the library dygraphs, in one file
that loads nothing. Its policy lets no connection out. The same parts make the same file.

usage: web/make.py OUT [--program FILE]      FILE: another pie.wasm, such as one with a planted fault
DYGRAPHS: the library, of version 2.2; by default that of Debian's package libjs-dygraphs
"""
import base64
import gzip
import hashlib
import json
import lzma
import os
import re
import sys
from pathlib import Path

WEB = Path(__file__).resolve().parent
ROOT = WEB.parent
DYGRAPHS = Path(os.environ.get("DYGRAPHS") or "/usr/share/javascript/dygraphs/dygraph.min.js")


def packed(raw):
    """Returns base64 of gzip, without a time."""
    return base64.b64encode(gzip.compress(raw, 9, mtime=0)).decode()


def hashed(text):
    """Returns the entry of a content security policy for an inline part."""
    return f"'sha256-{base64.b64encode(hashlib.sha256(text.encode()).digest()).decode()}'"


def page(program):
    """Returns the page with this program."""
    engine = (WEB / "pie.js").read_text().replace("\nexport ", "\n") + (WEB / "worker.js").read_text()
    examples = {it.name: it.read_text() for it in sorted((ROOT / "examples").glob("*.history"))}
    parts = {"STYLE": (WEB / "page.css").read_text(), "CHARTS": DYGRAPHS.read_text(),
             "SCRIPT": (WEB / "page.js").read_text(), "ENGINE": engine, "MODULE": packed(program),
             "UNPACKER": packed(lzma.decompress((ROOT / "dist/wasm/unxz.wasm.xz").read_bytes())), "EXAMPLES": packed(json.dumps(examples).encode()), "HISTORY": ""}
    # (no part may end its element)
    assert not [name for name, text in parts.items() if re.search(r"</(?:script|style)", text, re.I)]
    parts["POLICY"] = (f"default-src 'none'; script-src {hashed(parts['CHARTS'])} {hashed(parts['SCRIPT'])} 'wasm-unsafe-eval'; style-src {hashed(parts['STYLE'])}; style-src-attr 'unsafe-inline'; "
                       "worker-src blob:; img-src data: blob:; base-uri 'none'; form-action 'none'")
    return re.sub(r"@([A-Z]+)@", lambda it: parts[it[1]], (WEB / "page.html").read_text())


def main():
    words = sys.argv[1:]
    if len(words) not in (1, 3) or len(words) == 3 and words[1] != "--program":
        sys.exit(__doc__)
    if not DYGRAPHS.exists():
        sys.exit(f"web/make.py: {DYGRAPHS} is not here: install Debian's package libjs-dygraphs, or name the library dygraph.min.js by DYGRAPHS")
    program = Path(words[2]).read_bytes() if len(words) == 3 else lzma.decompress((ROOT / "dist/wasm/pie.wasm.xz").read_bytes())
    Path(words[0]).write_text(page(program))


if __name__ == "__main__":
    main()
