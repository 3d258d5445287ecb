#!/usr/bin/env python3
"""Makes the package juniperbowls for npm in a folder: this folder's files, and module.js, which has the module of dist/wasm/pie_c.wasm.xz, and the layouts
and names of dist/abi.txt and include/pie.h. The same parts make the same files. `npm pack` makes an archive of the folder.

usage: bindings/javascript/package.py OUT [--module FILE]      FILE: another pie_c.wasm, such as one with a planted fault
"""
import base64
import json
import lzma
import re
import shutil
import sys
from pathlib import Path

HERE = Path(__file__).resolve().parent
ROOT = HERE.parents[1]
STRUCTS = ("pie_params", "pie_opening", "pie_state", "pie_event")


def structs():
    """Returns the size of each struct, and the offset and size of its fields."""
    made = {}
    for name, size, fields in re.findall(r"^struct (\w+): (\d+) bytes, (.*)$", (ROOT / "dist/abi.txt").read_text(), re.M):
        if name in STRUCTS:
            made[name] = {"size": int(size), "fields": {it: {"at": int(at), "size": int(length)} for it, at, length in re.findall(r"(\w+) (\d+)\+(\d+)", fields)}}
    return made


def codes(header):
    """Returns the name and the description of each error."""
    numbers = dict(re.findall(r"^constant (\w+): (\d+)$", (ROOT / "dist/abi.txt").read_text(), re.M))
    texts = re.findall(r'case (\w+): return "(.*)";', header)
    return {numbers[name]: {"name": name, "text": text} for name, text in texts if int(numbers[name]) > 100}


def main():
    words = sys.argv[1:]
    if len(words) not in (1, 3) or len(words) == 3 and words[1] != "--module":
        sys.exit(__doc__)
    module = Path(words[2]).read_bytes() if len(words) == 3 else lzma.decompress((ROOT / "dist/wasm/pie_c.wasm.xz").read_bytes())
    header = (ROOT / "include/pie.h").read_text()
    version = re.search(r'^#define PIE_VERSION "(.*)"$', header, re.M)[1]
    out = Path(words[0])
    out.mkdir(parents=True, exist_ok=True)
    for name in ("index.js", "index.d.ts"):
        shutil.copy(HERE / name, out)
    for name in ("LICENSE-MIT", "LICENSE-APACHE"):
        shutil.copy(ROOT / name, out)
    values = {"VERSION": version, "CODES": codes(header), "STRUCTS": structs()}
    lines = [f"export const {name} = {json.dumps(value)};" for name, value in values.items()]
    packed = base64.b64encode(module).decode()
    (out / "module.js").write_text("\n".join([*lines, f'export const bytes = Uint8Array.from(atob("{packed}"), (it) => it.charCodeAt(0));', ""]))
    about = {"name": "juniperbowls", "version": version, "description": "PIE (RFC 8033) for a packet queue: a proved controller whose every decision can be recorded and audited",
             "license": "MIT OR Apache-2.0", "type": "module", "exports": {".": {"types": "./index.d.ts", "default": "./index.js"}}, "types": "./index.d.ts", "sideEffects": False,
             "files": ["index.js", "index.d.ts", "module.js", "LICENSE-MIT", "LICENSE-APACHE"], "engines": {"node": ">=16"}, "keywords": ["aqm", "pie", "rfc8033", "queue", "simulation"]}
    (out / "package.json").write_text(json.dumps(about, indent=4) + "\n")


if __name__ == "__main__":
    main()
