#!/usr/bin/env python3
"""Compares the manual page and the completions with the program. man/pie.1 and the completions for bash, zsh and
fish must contain exactly the subcommands and long options of `--help`. The page's synopsis of each subcommand must
do so too, unless it ends in dots. If bash, zsh and fish are installed, the script also tries their completions.
The options of man/pie-report.1, man/pie-metrics.1 and man/pie-extcap.1 must be those of `pie-report --help`,
`pie-metrics --help` and `pie-extcap --help`.
The exit status is 1 if an option is missing or unknown.

usage: tests/program/manual.py [PROGRAM]      PROGRAM: crates/pie/out/pie by default
needs: program
"""
import os
import re
import shutil
import subprocess
import sys

sys.path.insert(0, f"{os.path.dirname(os.path.abspath(__file__))}/../shared")
from checks import NAME, ROOT, program  # noqa: E402

PROGRAM = program()
failures = []


def fail(*words):
    failures.append(" ".join(map(str, words)))


def output(words, **how):
    return subprocess.run(words, stdout=subprocess.PIPE, stderr=subprocess.DEVNULL, check=False, encoding="utf-8", **how).stdout


def section(text, name):
    """Returns the indented and empty lines below the line `name:` of a help."""
    found = re.search(rf"^{name}:\n((?: +.*\n|\n)+)", text, re.M)
    return found[1] if found else ""


def told():
    """Returns the long options of each subcommand according to the program, and True for each that takes a value; the
    name "" is the program itself."""
    top = output([PROGRAM, "-h"])
    names = re.findall(r"^  ([\w-]+)  ", section(top, "Commands"), re.M)
    options = {}
    for name in ["", *names]:
        text = output([PROGRAM, *([name] if name else []), "--help"])
        options[name] = {option: bool(value) for option, value in re.findall(r"^ +(?:-\w, +)?--([\w-]+)( <[\w|]+>)?", section(text, "Options"), re.M)}
    return names, options


TAGGED = re.compile(r"^\.TP\n\.B(I?) \\-\\-([\w\\-]+)", re.M)


def tagged(text):
    """Returns the options of a part of a manual page: `.B \\-\\-NAME` and `.BI \\-\\-NAME " N"`."""
    return {option.replace("\\", ""): bool(value) for value, option in TAGGED.findall(text)}


def hold_script(script):
    """Compares the manual page of a script of report/ with its help."""
    text = (ROOT / f"man/{script}.1").read_text(encoding="utf-8").split(".SH OPTIONS\n")[1].split(".SH EXIT")[0]
    help_text = section(output([ROOT / "report" / script, "--help"]), "Options")
    wanted = {option: bool(value) for option, value in re.findall(r"^ +(?:-\w, )?--([\w-]+)( <\w+>)?", help_text, re.M)}
    if tagged(text) != wanted or "help" not in wanted:
        fail(f"man/{script}.1: options", tagged(text), "and not", wanted)


def manual():
    """Returns the options in the manual page, by sections `.SS NAME`."""
    text = (ROOT / "man/pie.1").read_text(encoding="utf-8")
    parts = re.split(r"^\.SS ([\w\\-]+)\n", text.split(".SH SUBCOMMANDS\n")[1].split(".SH OPTIONS\n")[0], flags=re.M)[1:]
    names = [name.replace("\\", "") for name in parts[0::2]]
    options = {name: tagged(part) for name, part in zip(names, parts[1::2])}
    options[""] = tagged(text.split(".SH OPTIONS\n")[1].split(".SH EXIT")[0])
    return names, options, text


def synopsis(page):
    """Returns the long options of each subcommand in the synopsis, with -o for --output, and true for a subcommand that ends in dots."""
    text = page.split(".SH SYNOPSIS\n")[1].split(".SH DESCRIPTION")[0].replace("\\-", "-")
    lines = re.split(r"^\.B pie ([\w-]+)\n", text, flags=re.M)[1:]
    found = {name: {*re.findall(r"--([\w-]+)", part)} | ({"output"} if re.search(r" -o$", part, re.M) else set()) for name, part in pairs(lines)}
    return found, {name for name, part in pairs(lines) if part.rstrip().removesuffix(".br").rstrip().endswith("\\|.\\|.")}


def pairs(items):
    return zip(items[0::2], items[1::2])


def bash_offers(words, last):
    line = " ".join(f"'{word}'" for word in ["pie", *words, last])
    script = f'source "{ROOT}/completions/pie.bash"; COMP_WORDS=({line}); COMP_CWORD={len(words) + 1}; _pie; printf "%s\\n" "${{COMPREPLY[@]}}"'
    return set(output(["bash", "-c", script]).split())


def fish_offers(words, last):
    line = " ".join(["pie", *words, last])
    text = output(["fish", "--no-config", "-c", f"source {ROOT}/completions/pie.fish; complete -C '{line}'"])
    return {offer.split("\t")[0] for offer in text.splitlines()}


def zsh_options(names):
    """Returns the options of each subcommand, from the text of its arm."""
    text = (ROOT / "completions/_pie").read_text(encoding="utf-8")
    arms = {}
    for words, arm in re.findall(r"^ {8}([\w |-]+)\)\n(.*?);;", text, re.M | re.S):
        for name in words.split(" | "):
            arms[name] = {option: bool(value) for option, value in re.findall(r"'--([\w-]+)\[[^]]*\](:[^']*)?'", arm)}
    listed = re.findall(r"^ {8}'([\w-]+):", text, re.M)
    top = {option: False for option in re.findall(r"'--([\w-]+)\[", text.split("return")[0])}
    if listed != names:
        fail("completions/_pie: subcommands", listed, "and not", names)
    return {"": top, **arms}


def compare(where, name, options, wanted):
    if options != wanted:
        fail(where, f"options of `pie {name}`:", options, "and not", wanted)


def main():
    names, wanted = told()
    if "run" not in names or "help" not in wanted["run"]:
        fail("pie --help was not understood:", names, wanted)
    man_names, man, page = manual()
    if man_names != names:
        fail("man/pie.1: subcommands", man_names, "and not", names)
    version = output([PROGRAM, "--version"]).strip()
    if f'"{version}"' not in page:
        fail("man/pie.1 is of another version than", version)
    listed, cut = synopsis(page)
    for script in ("pie-report", "pie-metrics", "pie-extcap"):
        hold_script(script)
    zsh = zsh_options(names)
    for name in ["", *names]:
        # Each subcommand has --help; the manual page has it once.
        compare("man/pie.1:", name, {**man.get(name, {}), **({"help": False} if name else {})}, {**wanted[name], **({"help": False} if name else {})})
        if name not in ("", "help"):
            options = {option for option in wanted[name] if option != "help" and (name not in cut or option in listed[name])}
            compare("man/pie.1, synopsis:", name, listed.get(name), options)
        if name != "help":
            compare("completions/_pie:", name, zsh.get(name), wanted[name])
        words = [name] if name else []
        if shutil.which("bash") and name != "help":
            offers = {offer[2:] for offer in bash_offers(words, "--")}
            compare("completions/pie.bash:", name, offers, set(wanted[name]))
        if shutil.which("fish") and name != "help":
            offers = {offer[2:] for offer in fish_offers(words, "--") if offer.startswith("--")}
            compare("completions/pie.fish:", name, offers, set(wanted[name]))
        if shutil.which("bash") and name not in ("", "help") and bash_offers(words, "exa"):
            fail(f"completions/pie.bash: pie {name} exa: no file is offered, but", bash_offers(words, "exa"))
    for shell, offers in (("bash", bash_offers), ("fish", fish_offers)):
        if shutil.which(shell) and offers([], "") - {f"--{option}" for option in wanted[""]} != set(names):
            fail(f"completions/pie.{shell}: subcommands", offers([], ""), "and not", names)
    if shutil.which("zsh") and subprocess.run(["zsh", "-n", ROOT / "completions/_pie"], check=False).returncode != 0:
        fail("completions/_pie: zsh can't read it")
    if shutil.which("man"):
        for page in ("pie.1", "pie-report.1", "pie-metrics.1", "pie-extcap.1"):
            read = ["man", "--warnings", "-l", ROOT / "man" / page]
            if subprocess.run(read, stdout=subprocess.DEVNULL, stderr=subprocess.PIPE, check=False).stderr:
                fail(f"man/{page}: man warns of it")
    for failure in failures:
        print(f"{NAME}:", failure)
    if not failures:
        print(f"{NAME}: the manual page and the completions have the options of --help")
    return 1 if failures else 0


sys.exit(main())
