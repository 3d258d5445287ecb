#!/usr/bin/env python3
"""Runs each command of every page in a fresh copy of the repository, and follows each link of every page.

An indented block is one bash script. It starts at the top of the copy, with the files that earlier blocks of its
page left. If a block begins with `$ `, each line with `$ ` is a script of its own, and the lines below it are its
expected output. A block that begins with a comment of a file's name, such as /* queue.c */, is that file. Text in
fences is not run. NOT_RUN names each block and each fence of commands that is not run, with the reason.

If a page speaks of files that its reader has, PREPARED has the script that makes them.

The copy contains the built program and library, the files that make builds over them in bindings/dpdk and
bindings/ns3, and stand-ins for `rt` and the gate, which the gate tries anyway: `rt try` and `rt run` run the built
program, `rt lib` checks the built library, `.ci/run` does nothing. With --rt the real `rt` is used. A command that
is not installed, or for whose folder tests/install.sh --check reports a missing program, is printed as NOT RUN.

usage: tests/documents/pages.py [--rt] [PAGE..]
needs: program, library
"""
import os
import re
import shutil
import subprocess
import sys
import tempfile
from pathlib import Path

sys.path.insert(0, f"{os.path.dirname(os.path.abspath(__file__))}/../shared")
from checks import NAME, ROOT, check, finish  # noqa: E402

BUILT = ["crates/pie/out/pie", "crates/pie_c/out/libpie_c.a", "crates/pie_link_c/out/libpie_link_c.a"]
# folders in which make takes long: built once here for their check.sh (with the same lock) and for the copies
MADE = ["bindings/dpdk", "bindings/ns3"]
PAGES = ["*.md", "docs/*.md", "bench/**/*.md", "bindings/**/*.md", "dist/*.md", "examples/**/*.md", "upstream/*.md"]
KERNEL = "needs root, and a kernel with the module or with bpf"
MACHINES = "needs other machines"
# The blocks and fences of commands that are not run, by their first words, with the reason.
NOT_RUN = {
    "README.md": {"# pie-watch eth0": KERNEL},
    "CONTRIBUTING.md": {".ci/quick": "minutes; the gate runs this test"},
    "bench/uml/PLAN.md": {"commit 6a280361": "a version, not a command"},
    "bench/uml/README.md": {"bench/steps/install.sh": "builds a Linux and measures for hours"},
    "bindings/bpf/README.md": {"# pie-qdisc attach": KERNEL},
    "bindings/dpdk/README.md": {"$ dpdk-telemetry.py": "needs a program of DPDK that runs"},
    "bindings/kernel/README.md": {"dpkg-buildpackage": KERNEL, "tests/install.sh bindings/kernel": KERNEL, "$ tc -s qdisc": KERNEL},
    "bindings/linux/README.md": {"# tc qdisc add": KERNEL},
    "dist/README.md": {"dist/make.sh": "proves and builds every library"},
    "docs/DEVELOPING.md": {"rt check": "a list, which proves", ".ci/quick": "a list; the gate runs its scripts"},
    "docs/OPERATING.md": {
        "pie-watch eth0": KERNEL, "pie-watch --drops": KERNEL, "pie-metrics --again": "needs a text of pie-watch that is written", "pie audit north.history": "writes to a folder of the system",
        "pie-tap follow": KERNEL, "export DASK_CONFIG": MACHINES, "python3 -m pie_fleet": MACHINES, "parallel -X": MACHINES, "cd histories": MACHINES,
    },
    "docs/RESULTS.md": {"bindings/ns3/scenarios.sh": "simulates for hours"},
    "examples/README.md": {"pie explain --from": "needs the reader's own packets"},
}
# the first words of a fence of commands, in addition to those of language sh
COMMAND = re.compile(r"[$#] |(?:pie|pie-[a-z]+|python3|make|cd|export) ")
# the histories of a page's reader: one that differs, one that is cut off, a day, and an archive from which a segment is missing and in which the
# state of another one is changed
PREPARED = {"docs/OPERATING.md": r"""
make -s web
mkdir histories archive
for name in link001 link042 link077; do cp examples/overload.history "histories/$name.history"; done
sed -i '2s/enqueue$/early/' histories/link042.history
sed -i '$s/,not$//' histories/link077.history
begin=$(date -d 2026-11-24T19:59:59.5Z +%s%N)
sed "1c open3,1,rate,derandomized,capped,unscaled,rolling,0,1000,1000,1000000\nclock,0,$begin" examples/overload.trace | pie run > day.history
python3 bench/trace.py 12000 1 mixed | pie run > month.history
pie cut --every 1000 month.history | (cd archive && csplit -z -s -n 4 -f month. - '/^resume,/' '{*}')
rm archive/month.0006
awk -F, -v OFS=, 'NR == 1 { $NF++ } 1' archive/month.0011 > changed && mv changed archive/month.0011
"""}
LINK = re.compile(r"\]\(([^)\s]+)\)")
# a stand-in for rt, in the folder of a crate whose program or library was built
RT = """#!/usr/bin/env bash
word=$1
while [ $# -gt 0 ] && [ "$1" != -- ]; do shift; done
shift
case $word in
    try | run) exec "out/$(basename "$PWD")" "$@" ;;
    lib) [ -s out/*.a ] ;;
    *) echo "tests/documents/pages.py: there is no stand-in for rt $word" >&2; exit 1 ;;
esac
"""


def pages(patterns):
    return sorted({path for pattern in patterns for path in ROOT.glob(pattern) if "out" not in path.parts and "target" not in path.parts})


def anchor(heading):
    """Returns the name of a heading in a link."""
    return re.sub(r"[^\w\- ]", "", heading.lower()).strip().replace(" ", "-")


def follow_links(page):
    text = re.sub(r"^```.*?^```", "", page.read_text(), flags=re.M | re.S)
    for link in LINK.findall(text):
        place, _, part = link.partition("#")
        if "://" in place:
            continue
        found = (page.parent / place).resolve() if place else page
        check(found.exists(), f"{page.relative_to(ROOT)}: a link to {link}, which is not there")
        if part and found.suffix == ".md" and found.exists():
            headings = {anchor(it) for it in re.findall(r"^#+ (.*)", found.read_text(), re.M)}
            check(part in headings, f"{page.relative_to(ROOT)}: a link to {link}, and {found.name} has no such heading")


def blocks(text):
    """Returns the indented blocks of a page, without their indent."""
    text = re.sub(r"^```.*?^```$", "", text, flags=re.M | re.S)
    found, block, was_empty = [], [], True
    for line in [*text.splitlines(), "the end"]:
        if line.startswith("    ") and (block or was_empty):
            block.append(line[4:])
        elif block and line.strip():
            found.append("\n".join(block).strip("\n"))
            block = []
        elif block:
            block.append("")
        was_empty = not line.strip()
    return found


def fences(text):
    """Returns the fences of commands of a page."""
    found = re.findall(r"^```([^\n]*)\n(.*?)^```$", text, flags=re.M | re.S)
    return [block for language, block in found if language == "sh" or (not language and COMMAND.match(block))]


def reason(page, block):
    """Returns the first words of an entry of NOT_RUN for this block, and its reason, or None."""
    entries = NOT_RUN.get(str(page.relative_to(ROOT)), {})
    return next(((words, why) for words, why in entries.items() if block.startswith(words)), None)


def check_named(page):
    """Checks that each fence of commands is named in NOT_RUN, and each entry of the page there is one of its blocks."""
    name, text = page.relative_to(ROOT), page.read_text()
    for block in fences(text):
        check(reason(page, block), f"{name}: the fence of commands is neither run nor named in NOT_RUN: {block.splitlines()[0]}")
    named = {reason(page, block)[0] for block in [*fences(text), *blocks(text)] if reason(page, block)}
    for words in set(NOT_RUN.get(str(name), {})) - named:
        check(False, f"{name}: NOT_RUN names a block that is not there: {words}")


def has_numpy(python):
    return shutil.which(python) and subprocess.run([python, "-c", "import numpy"], capture_output=True, check=False).returncode == 0


def fresh(copy, page, real):
    """Makes a copy of the repository's own files and of the built ones. Returns it, and the environment of its
    commands."""
    copy.mkdir()
    listed = subprocess.run(["git", "ls-files", "-co", "--exclude-standard", "-z"], cwd=ROOT, capture_output=True, text=True, check=True).stdout
    names = "\0".join(it for it in listed.split("\0") if (ROOT / it).is_file())
    subprocess.run(["xargs", "-0", "cp", "--parents", "--preserve=mode,timestamps", "-t", copy], cwd=ROOT, input=names, text=True, check=True)
    home, tools = copy.parent / "home", copy.parent / "tools"
    for folder in (home, tools):
        folder.mkdir(exist_ok=True)
    for name in BUILT:
        (copy / name).parent.mkdir(parents=True, exist_ok=True)
        shutil.copy2(ROOT / name, copy / name)
    for name in MADE if ROOT / "bindings" in page.parents else ():
        if (ROOT / name / "out").is_dir():
            shutil.copytree(ROOT / name / "out", copy / name / "out", symlinks=True)
    # (each example in Rust is built once: nothing is kept for a next build, nor for a debugger)
    words = {**os.environ, "HOME": str(home), "CARGO_TARGET_DIR": f"{home}/target", "CARGO_INCREMENTAL": "0", "CARGO_PROFILE_DEV_DEBUG": "0"}
    for name in ("CARGO", "RUSTUP"):
        words.setdefault(f"{name}_HOME", f"{Path.home()}/.{name.lower()}")
    if not real:
        for name, text in ((tools / "rt", RT), (copy / ".ci/run", "#!/bin/sh\n")):
            name.parent.mkdir(exist_ok=True)
            name.write_text(text)
            name.chmod(0o755)
    # Debian's modules are those of its own Python
    if not (tools / "python3").exists() and not has_numpy("python3") and has_numpy("/usr/bin/python3"):
        (tools / "python3").symlink_to("/usr/bin/python3")
    words["PATH"] = f"{tools}:{copy}/crates/pie/out:{copy}/report:{words['PATH']}"
    return words


def commands(block):
    """Returns the commands of a block, each with its expected output, or None if the page does not show it."""
    if not block.startswith("$ "):
        return [(block, None)]
    parts = re.split(r"^\$ ", block, flags=re.M)[1:]
    return [(command, printed) for command, _, printed in (part.partition("\n") for part in parts)]


def missing(command, copy, words):
    """Returns the programs missing for a command: by tests/install.sh --check of a folder that it names, for other
    commands by `type`."""
    for word in re.sub(r"#.*", "", command).split():
        place = copy / word.strip("()")
        for folder in (place, place.parent):
            if "/" in word and copy in folder.parents and folder.is_dir():
                name = str(folder.relative_to(copy))
                done = subprocess.run([copy / "tests/install.sh", "--check", name], env=words, capture_output=True, text=True, check=False)
                if done.returncode == 1:
                    return " ".join(done.stdout.replace("missing: ", "").split())
    for word in re.findall(r"(?:^|[;&|(])\s*([\w-]+)(?=\s|$)", re.sub(r"#.*|\\\n", "", command), re.M):
        if subprocess.run(["bash", "-c", f"type {word}"], env=words, capture_output=True, check=False).returncode:
            return word
    return ""


def run_page(page, copy, words):
    name, count = page.relative_to(ROOT), 0
    for block in blocks(page.read_text()):
        is_file = re.match(r"/\* ([\w.]+) \*/\n", block)
        if is_file:
            (copy / is_file[1]).write_text(block + "\n")
            continue
        if reason(page, block):
            continue
        count += 1
        for command, printed in commands(block):
            lacks = missing(command, copy, words)
            done = lacks or subprocess.run(["bash", "-eo", "pipefail", "-c", command], cwd=copy, env=words, stdin=subprocess.DEVNULL,
                                           capture_output=True, text=True, check=False)
            # the status of a shell at a missing command
            if not lacks and done.returncode == 127:
                lacks = " ".join(re.findall(r"([\w-]+): command not found", done.stderr))
            if lacks:
                print(f"NOT RUN: {NAME}: {name}: {command.splitlines()[0]}: for want of {lacks}")
                continue
            check(done.returncode == 0, f"{name}: `{command}` ends with status {done.returncode}:\n{done.stdout[-2000:]}{done.stderr[-2000:]}")
            if printed is not None:
                check(done.stdout.strip() == printed.strip(), f"{name}: `{command}` prints\n{done.stdout}and not\n{printed}")
    print(f"{NAME}: {name}: {count} blocks of commands")


def main():
    words = sys.argv[1:]
    real = "--rt" in words
    chosen = [Path(it).resolve() for it in words if it != "--rt"]
    for page in pages(PAGES):
        follow_links(page)
        check_named(page)
    for name in set(NOT_RUN) - {str(page.relative_to(ROOT)) for page in pages(PAGES)}:
        check(False, f"NOT_RUN names a page that is not there: {name}")
    for name in MADE:
        if subprocess.run([ROOT / "tests/install.sh", "--check", name], capture_output=True, check=False).returncode == 0:
            made = subprocess.run(["flock", ROOT / name, "make", "-s", "-C", ROOT / name], capture_output=True, text=True, check=False)
            check(made.returncode == 0, f"make -C {name} ends with status {made.returncode}:\n{made.stderr[-2000:]}")
    with tempfile.TemporaryDirectory() as work:
        for page in chosen or pages(PAGES):
            if not blocks(page.read_text()):
                continue
            copy = Path(work) / "repository"
            environment = fresh(copy, page, real)
            if script := PREPARED.get(str(page.relative_to(ROOT))):
                subprocess.run(["bash", "-eo", "pipefail", "-c", script], cwd=copy, env=environment, check=True)
            run_page(page, copy, environment)
            shutil.rmtree(copy)
    finish()


main()
