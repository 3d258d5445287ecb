#!/usr/bin/env python3
"""Builds the static libraries, crates/pie_c/out/libpie_c.a and crates/pie_link_c/out/libpie_link_c.a,
or the library of the named crate. `rt lib` does the same, but proves again all that it has not kept:
in a fresh clone all crates below. This script proves and compiles only the named crate if the crates
below are proved and none is older than its sources. They may be proved by the gate (`rt ci` leaves
each library in out/rlib, without a stamp) or otherwise. If the crate's assembly is newer than all of
these, nothing is built.

The assembly of a library is crates/CRATE/out/CRATE.S, from the same module and with the same options;
dist/ has a copy. The module is crates/CRATE/out/CRATE.bc, which dist/lower.py lowers for other processors.
If CRATE is the program, pie, only its assembly and its module are written.

usage: bindings/c/library.py [CRATE]"""
import importlib.machinery
import importlib.util
import os
import shutil
import subprocess
import sys
import tempfile

sys.dont_write_bytecode = True
ROOT = os.path.dirname(os.path.dirname(os.path.dirname(os.path.abspath(__file__))))
CRATE = (sys.argv[1:] or ["pie_c"])[0]


def toolchain():
    """Returns the toolchain's own library, which compiles a crate over the crates below it."""
    file = os.path.join(os.path.dirname(os.path.realpath(shutil.which("rt"))), "rtlib.py")
    loader = importlib.machinery.SourceFileLoader("rtlib", file)
    module = importlib.util.module_from_spec(importlib.util.spec_from_loader("rtlib", loader))
    sys.modules["rtlib"] = module
    loader.exec_module(module)
    return module


# The toolchain's clang behind the wrapper: the call unchanged, then the same module as assembly. GNU's assembler
# has no .addrsig.
CLANG = """#!/bin/sh
cp module.bc "{module}" || exit
"{clang}" "$@" || exit
for word do
    shift
    case $word in
        -c) word=-S ;;
        module.o) word="{assembly}" ;;
    esac
    set -- "$@" "$word"
done
exec "{clang}" "$@" -fno-addrsig -fno-verbose-asm
"""


def compile_with_assembly(rtlib, crate):
    """Proves the crate and compiles it, a library into its archive, by a toolchain whose clang writes the assembly too. Returns the status."""
    real, assembly = f"{rtlib.KIT}/toolchain", f"{os.path.abspath(crate.folder)}/out/{crate.name}.S"
    with tempfile.TemporaryDirectory() as work:
        os.mkdir(f"{work}/bin")
        os.symlink(f"{real}/lib", f"{work}/lib")
        for name in os.listdir(f"{real}/bin"):
            os.symlink(f"{real}/bin/{name}", f"{work}/bin/{name}")
        os.remove(f"{work}/bin/clang")
        with open(f"{work}/bin/clang", "w", encoding="utf-8") as it:
            it.write(CLANG.format(clang=f"{real}/bin/clang", assembly=f"{work}/module.S", module=f"{work}/kept.bc"))
        os.chmod(f"{work}/bin/clang", 0o755)
        call = crate.call
        crate.call = lambda *words: call(*[work if it == real else it for it in words])
        # (by one process: two take a fifth more of the processors, which other scripts wait for)
        status = crate.compile(["--jobs", "1"], f"{work}/module.o" if crate.is_program else f"out/lib{crate.name}.a")
        if status == 0:
            # (the assembly last: if it exists, the library is complete)
            shutil.move(f"{work}/kept.bc", f"{assembly.removesuffix('.S')}.bc")
            shutil.move(f"{work}/module.S", assembly)
        return status


def with_memory():
    """Adds the link's allocation functions, which `rt lib` leaves to the linking program: the toolchain's few lines of C over malloc, realloc and
    free."""
    archive = f"crates/{CRATE}/out/lib{CRATE}.a"
    if CRATE != "pie_link_c" or b"heap.pic.o" in subprocess.run(["ar", "t", archive], capture_output=True, check=True).stdout:
        return
    with tempfile.TemporaryDirectory() as work:
        subprocess.run(["ar", "x", f"{toolchain().KIT}/c/liblibc_c.a", "heap.pic.o"], cwd=work, check=True)
        subprocess.run(["ar", "r", archive, f"{work}/heap.pic.o"], capture_output=True, check=True)


def newest(folder):
    """Returns the time of the last change of a source of the crate."""
    files = [os.path.join(at, name) for part in ("src", "specs", "proofs") for at, _, names in os.walk(f"{folder}/{part}") for name in names]
    return max(map(os.path.getmtime, files))


def proved_at(crates):
    """Returns the time at which the last of these libraries was proved, by `rt ci`, which writes no stamp, or by another command.
    Returns None if a library is missing, or its crate has changed since."""
    for it in crates:
        is_stamped = os.path.exists(f"{it.folder}/out/rlib/stamp")
        if not os.path.isdir(it.rlib) or not (it.is_built() if is_stamped else newest(it.folder) < os.path.getmtime(it.rlib)):
            return None
    return max(os.path.getmtime(it.rlib) for it in crates)


def release(held):
    """Releases these locks of crates."""
    while held:
        os.close(held.pop())


def build(held):
    """Builds the library. The locks that it takes are added to `held`."""
    os.chdir(ROOT)
    try:
        rtlib = toolchain()
        crate = next(it for it in rtlib.crates_below(ROOT) if it.name == CRATE)
        proved, assembly = proved_at(crate.below()), f"{crate.folder}/out/{CRATE}.S"
        module = f"{crate.folder}/out/{CRATE}.bc"
        is_kept = lambda: os.path.isfile(assembly) and os.path.isfile(module)
        is_new = lambda: proved and is_kept() and max(proved, newest(crate.folder)) < os.path.getmtime(assembly)
        if is_new():
            with_memory()
            return
        os.makedirs(os.path.dirname(assembly), exist_ok=True)
        print(f"bindings/c/library.py: {CRATE}, over libraries that {'are proved' if proved else 'rt lib proves'}", flush=True)
        held += rtlib.lock([crate] if proved else [*crate.below(), crate])
        if is_new():
            # (another call built it meanwhile)
            with_memory()
            return
        if proved or not any(it.build_rlib([], anew=False) for it in crate.below()):
            if compile_with_assembly(rtlib, crate) == 0:
                with_memory()
                return
        release(held)
    except (AttributeError, OSError, StopIteration, TypeError) as why:
        # (another toolchain may be arranged otherwise)
        print(f"bindings/c/library.py: {type(why).__name__}: {why}", flush=True)
    print("bindings/c/library.py: by rt lib", flush=True)
    status = subprocess.run(["rt", "lib"], cwd=f"crates/{CRATE}").returncode
    if status:
        sys.exit(status)
    with_memory()


locks = []
build(locks)
# (the other library has crates in common with this one)
release(locks)
if len(sys.argv) == 1:
    sys.exit(subprocess.run([os.path.abspath(__file__), "pie_link_c"]).returncode)
