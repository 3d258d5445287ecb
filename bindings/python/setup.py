"""Builds libpie.so for the wheel from the assembly of the proved code, with the Makefile at the top of the
repository, make and a C compiler. An sdist contains the needed files in library/. The wheel is for the processor and
the C library of the compiler, which CC names, and for any Python 3, because the module calls the library through ctypes.
pyproject.toml has the other settings."""
import os
import platform
import shlex
import shutil
import subprocess
import tempfile
from pathlib import Path

from setuptools import Distribution, setup
from setuptools.command.build_py import build_py
from setuptools.command.sdist import sdist
from wheel.bdist_wheel import bdist_wheel

HERE = Path(__file__).resolve().parent
MADE = HERE / "out"
TOP = HERE / "library" if (HERE / "library").is_dir() else HERE.parent.parent
# the files from which the Makefile builds the library
SOURCES = ["Makefile", "LICENSE-MIT", "LICENSE-APACHE", "include/pie.h", "include/pie_link.h", "bindings/python/native/pie_arrays.c",
           "bindings/python/native/pie_arrays.h", "dist/abi.txt", "dist/heap.c", "dist/runtime.h"]
SOURCES += sorted(str(it.relative_to(TOP)) for it in TOP.glob("dist/*/pie_*.S*"))


class WithLibrary(build_py):
    def run(self):
        super().run()
        package = Path(self.build_lib) / "juniperbowls"
        with tempfile.TemporaryDirectory() as folder:
            if subprocess.run(["make", "-s", "-C", TOP, f"BUILD={folder}", "shared"]).returncode:
                raise SystemExit("setup.py: libpie.so was not made")
            self.copy_file(str(Path(folder, "libpie.so").resolve()), str(package / "libpie.so.0"))
        for licence in TOP.glob("LICENSE-*"):
            self.copy_file(str(licence), str(package / licence.name))


class WithSources(sdist):
    def make_release_tree(self, base_dir, files):
        super().make_release_tree(base_dir, files)
        for name in SOURCES:
            place = Path(base_dir, "library", name)
            place.parent.mkdir(parents=True, exist_ok=True)
            shutil.copyfile(TOP / name, place)


class OfThisProcessor(Distribution):
    def has_ext_modules(self):
        return True


class ForAnyPython(bdist_wheel):
    def get_tag(self):
        words = [*shlex.split(os.environ.get("CC", "cc")), "-dumpmachine"]
        machine = subprocess.run(words, stdout=subprocess.PIPE, text=True, check=True).stdout.split("-")[0]
        here = super().get_tag()[2]
        return "py3", "none", here if machine == platform.machine() else f"linux_{'armv7l' if machine == 'arm' else machine}"


# (files of an earlier wheel may have been removed since)
shutil.rmtree(MADE / "build", ignore_errors=True)
MADE.mkdir(exist_ok=True)
setup(
    distclass=OfThisProcessor,
    cmdclass={"build_py": WithLibrary, "bdist_wheel": ForAnyPython, "sdist": WithSources},
    options={"build": {"build_base": "out/build"}, "egg_info": {"egg_base": "out"}},
)
