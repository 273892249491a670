"""The extensions over archives of the C library. What these variables of the environment say is taken:

    DIRGWAKO_LIB             the folder of the archives, beside which, or in whose ../include, the header is
    DIRGWAKO_LIBRARY         which library a process's own boards are of: dirgwako (as without it), dirgwako16 or dirgwako32
    DIRGWAKO_SHARED_LIBRARY  which one boards are of that forked processes share: as without it dirgwako16, or where that is not there the one above
    DIRGWAKO_BUILD           1: where no archive is found, and this is the repository, the C library is proved and built, which takes half an hour
"""
import os
import pathlib
import shutil
import subprocess
import sys
import sysconfig

from setuptools import Extension, setup
from setuptools.command.build_ext import build_ext

HERE = pathlib.Path(__file__).resolve().parent
C_LIBRARY = HERE.parent / "c"
LIBRARY = os.environ.get("DIRGWAKO_LIBRARY", "dirgwako")
HEADERS = ["dirgwako.h", "dirgwako_heap.h"]
SOURCES = ["amounts", "boards", "counting", "faults", "metric", "module", "registry", "timer"]
FLAGS = ["-std=c11", "-D_POSIX_C_SOURCE=200809L", "-O2", "-Wall", "-Wextra", "-fvisibility=hidden"]


def fail(why):
    sys.exit(f"dirgwako: {why}")


def by_variable():
    folder = pathlib.Path(os.environ["DIRGWAKO_LIB"]).resolve()
    return folder, [folder, folder.parent / "include"]


def by_pkg_config():
    """None where there is no pkg-config, or it does not know the library."""
    if not shutil.which("pkg-config"):
        return None
    folders = []
    for variable in ("libdir", "includedir"):
        told = subprocess.run(["pkg-config", f"--variable={variable}", LIBRARY], capture_output=True, text=True)
        if told.returncode or not told.stdout.strip():
            return None
        folders.append(pathlib.Path(told.stdout.strip()))
    return folders[0], [folders[1], folders[0]]


def by_build():
    """From the repository that this package lies in: what was built there, else it is built now where that is asked for."""
    folder, build = C_LIBRARY.parent / "out", C_LIBRARY / "build.sh"
    if not (folder / f"lib{LIBRARY}.a").is_file():
        if not build.is_file():
            fail(f"no archive of the C library is found: name its folder in DIRGWAKO_LIB, or let pkg-config find {LIBRARY} (PKG_CONFIG_PATH)")
        if os.environ.get("DIRGWAKO_BUILD") != "1":
            fail(f"no archive of the C library is found: name its folder in DIRGWAKO_LIB, let pkg-config find {LIBRARY} (PKG_CONFIG_PATH), "
                 f"or set DIRGWAKO_BUILD=1, and it is proved and built now, which takes half an hour")
        if not shutil.which("rt"):
            fail(f"no archive of the C library is found, and it is not built, as there is no rt on the path: name its folder in DIRGWAKO_LIB, "
                 f"let pkg-config find {LIBRARY} (PKG_CONFIG_PATH), or run {build} where the toolchain is")
        print(f"dirgwako: {build} builds and proves the C library, which takes half an hour", flush=True)
        if subprocess.run([build]).returncode:
            fail(f"{build} has failed, and has printed which file says why")
    return folder, [C_LIBRARY]


def find():
    """The folder of the archives, and that of the header, which have to be there."""
    folder, headers = by_variable() if os.environ.get("DIRGWAKO_LIB") else by_pkg_config() or by_build()
    header = next((it for it in headers if all((it / name).is_file() for name in HEADERS)), None)
    if not (folder / f"lib{LIBRARY}.a").is_file():
        fail(f"there is no {folder}/lib{LIBRARY}.a: build the C library (bindings/c/build.sh), or name the folder of its archives in DIRGWAKO_LIB")
    if not header:
        fail(f"{' and '.join(HEADERS)} are not in {' or '.join(map(str, headers))}: they are installed with the archive (bindings/c/build.sh install PREFIX)")
    return folder, header


def check_python():
    if sysconfig.get_config_var("Py_GIL_DISABLED"):
        fail("this Python is a free-threaded build, and the package needs the GIL")
    header = pathlib.Path(sysconfig.get_path("include")) / "Python.h"
    if not header.is_file():
        fail(f"there is no {header}: install this Python's headers (Debian: python3-dev)")


def shared_library(folder):
    """Each process that counts takes one of the library's workers, so the more the better."""
    told = os.environ.get("DIRGWAKO_SHARED_LIBRARY")
    if told and not (folder / f"lib{told}.a").is_file():
        fail(f"there is no {folder}/lib{told}.a, which DIRGWAKO_SHARED_LIBRARY names")
    return told or ("dirgwako16" if (folder / "libdirgwako16.a").is_file() else LIBRARY)


def extension(name, sources, folder, include, library, macros, links):
    archive = str(folder / f"lib{library}.a")
    print(f"dirgwako: {name} is built over {archive}", flush=True)
    return Extension(
        f"dirgwako.{name}",
        [f"csrc/{it}.c" for it in sources],
        include_dirs=[str(include)],
        depends=["csrc/boards.h", "csrc/extension.h", "csrc/shared.h", archive],
        extra_objects=[archive],
        extra_compile_args=FLAGS,
        # The library's functions are the extension's own: the two of a process have two libraries.
        extra_link_args=["-Wl,--exclude-libs,ALL", *links],
        define_macros=[("Py_LIMITED_API", "0x030A0000"), *macros],
        py_limited_api=True,
    )


def extensions():
    check_python()
    folder, include = find()
    # The arena comes before the archive, whose heap is then not taken from it.
    return [
        extension("_dirgwako", SOURCES, folder, include, LIBRARY, [], []),
        extension("_shared", [*SOURCES, "shared", "arena"], folder, include, shared_library(folder), [("DIRGWAKO_SHARED", "1")], ["-pthread"]),
    ]


class Apart(build_ext):
    """The objects of each extension in a folder of their own: both are of the same sources."""

    def build_extension(self, ext):
        folder = self.build_temp
        self.build_temp = os.path.join(folder, ext.name)
        try:
            super().build_extension(ext)
        finally:
            self.build_temp = folder


# Where only a source archive or metadata are wanted no library is looked for.
WANTED = {"bdist_wheel", "build", "build_ext", "develop", "editable_wheel", "install", "bdist_egg"}
setup(
    ext_modules=extensions() if WANTED & set(sys.argv) else [],
    cmdclass={"build_ext": Apart},
    options={"bdist_wheel": {"py_limited_api": "cp310"}},
)
