"""What pyproject.toml can't say: the extension in C, the programs, and that a wheel is of this platform and for each CPython from 3.8."""

import glob
import os
import sysconfig

from setuptools import Distribution, Extension, setup

from distutils.command.build_scripts import build_scripts  # (of setuptools, which is imported first)

# what `make library` puts into the package's folder
MADE = ["libansi.so", "libansi_screen.so", "classes.css", "ansi_events.h"]
# what `make wheel` puts there: an installer puts them on the path. Without them the package is installed all the same
PROGRAMS = sorted(glob.glob("programs/*"))
# (a Python without its lock has no limited API; there the package makes its events in Python)
HAS_LIMITED_API = not sysconfig.get_config_var("Py_GIL_DISABLED")


class OfPlatform(Distribution):
    """The shared library is of a platform, whether there is an extension or not."""

    def has_ext_modules(self):
        return True


class AsTheyAre(build_scripts):
    """Programs have no first line that names a Python, which others look for."""

    def run(self):
        self.mkpath(self.build_dir)
        for program in self.scripts:
            self.copy_file(program, os.path.join(self.build_dir, os.path.basename(program)))


for name in MADE:
    if not os.path.exists("src/ansi_proved/" + name):
        raise SystemExit("there is no src/ansi_proved/%s in %s: `make library`, at the top of the repository, puts it there" % (name, os.getcwd()))

events = Extension(
    "ansi_proved._events",
    ["src/ansi_proved/_events.c"],
    depends=["src/ansi_proved/ansi_events.h"],
    extra_compile_args=["-std=c99", "-O2", "-g0"],  # (what is for debuggers names the folder)
    py_limited_api=True,  # (of 3.8: _events.c says so)
)
setup(
    distclass=OfPlatform,
    cmdclass={"build_scripts": AsTheyAre},
    scripts=PROGRAMS,
    ext_modules=[events] if HAS_LIMITED_API else [],
    options={"bdist_wheel": {"py_limited_api": "cp38"}} if HAS_LIMITED_API else {},
)
