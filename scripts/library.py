#!/usr/bin/env python3
"""Proves the crates that the C library stands on, and leaves the library in lib/, for include/mrjob.h.

    library.py             proves them side by side first, with a line for each, as build.py does
    library.py --proved    over the libraries that `rt ci` or `rt check` left, so that the last crate alone is proved

lib/libmrjob.a has the two functions' object and the one by which it calls malloc, realloc and free; lib/libmrjob.so
has the same, and shows no names but mrjob_*. Either wants the C library alone. lib/pkgconfig and lib/cmake, for
programs that are built over it, serve here and where `make install` puts them. The whole text of what was proved is in
lib/build.log.
"""
import re
import subprocess
import sys
import tempfile
from pathlib import Path

sys.dont_write_bytecode = True
from build import prove, stop_at_faults
from crates import ROOT, kit, need_kit, rattle_words, read_crates, version

LIB = ROOT / "lib"
LOG = LIB / "build.log"
EXPORTS = "{ global: mrjob_*; local: *; };\n"
PACKAGE = """prefix=${pcfiledir}/../..
libdir=${prefix}/lib
includedir=${prefix}/include

Name: mrjob
Description: Waves of map tasks, planned and checked by functions that are proved
Version: @VERSION@
Libs: -L${libdir} -lmrjob
Cflags: -I${includedir}
"""
CONFIG = """# mrjob::mrjob is the shared library, and mrjob::static the other one.
get_filename_component(mrjob_prefix "${CMAKE_CURRENT_LIST_DIR}" REALPATH)
get_filename_component(mrjob_prefix "${mrjob_prefix}/../../.." ABSOLUTE)
if(NOT TARGET mrjob::mrjob)
  add_library(mrjob::mrjob SHARED IMPORTED)
  set_target_properties(mrjob::mrjob PROPERTIES
    IMPORTED_LOCATION "${mrjob_prefix}/lib/@SHARED@" IMPORTED_SONAME "@SHARED@"
    INTERFACE_INCLUDE_DIRECTORIES "${mrjob_prefix}/include")
  add_library(mrjob::static STATIC IMPORTED)
  set_target_properties(mrjob::static PROPERTIES
    IMPORTED_LOCATION "${mrjob_prefix}/lib/libmrjob.a"
    INTERFACE_INCLUDE_DIRECTORIES "${mrjob_prefix}/include")
endif()
"""
CONFIG_VERSION = """set(PACKAGE_VERSION "@VERSION@")
if(PACKAGE_FIND_VERSION_MAJOR STREQUAL "@MAJOR@" AND NOT PACKAGE_FIND_VERSION VERSION_GREATER PACKAGE_VERSION)
  set(PACKAGE_VERSION_COMPATIBLE TRUE)
endif()
if(PACKAGE_FIND_VERSION VERSION_EQUAL PACKAGE_VERSION)
  set(PACKAGE_VERSION_EXACT TRUE)
endif()
"""


def run(*words, **how):
    subprocess.run([str(it) for it in words], check=True, **how)


def is_done(words, crate, log):
    """Whether a command in the crate's folder ends well."""
    return subprocess.run([str(it) for it in words], cwd=crate.folder, stdout=log, stderr=log).returncode == 0


def shared_name():
    """The name of the shared library, which has the version of the interface, as the header tells it."""
    return "libmrjob.so." + re.search(r"^#define MRJOB_VERSION (\d+)$", (ROOT / "include/mrjob.h").read_text(), re.M)[1]


def link(objects, room):
    """Makes both libraries of these objects, by the compiler that the kit brings."""
    tools = kit() / "toolchain"
    archive, shared = LIB / "libmrjob.a", LIB / shared_name()
    for it in (archive, shared, LIB / "libmrjob.so"):
        it.unlink(missing_ok=True)
    run(tools / "bin/llvm-ar", "rcsD", archive, *objects)
    names = room / "exports"
    names.write_text(EXPORTS)
    words = ["-shared", "-nostdlib", "-fuse-ld=lld", f"-Wl,-soname,{shared.name}", f"-Wl,--version-script={names}"]
    run(tools / "bin/clang", *words, "-Wl,-z,defs", "-o", shared, *objects, tools / "lib/libc.so.6")
    (LIB / "libmrjob.so").symlink_to(shared.name)


def tell_builders():
    """Writes what pkg-config and CMake read."""
    texts = {"pkgconfig/mrjob.pc": PACKAGE, "cmake/mrjob/mrjobConfig.cmake": CONFIG}
    texts["cmake/mrjob/mrjobConfigVersion.cmake"] = CONFIG_VERSION
    values = {"SHARED": shared_name(), "VERSION": version(), "MAJOR": version().partition(".")[0]}
    for place, text in texts.items():
        (LIB / place).parent.mkdir(parents=True, exist_ok=True)
        for name, value in values.items():
            text = text.replace(f"@{name}@", value)
        (LIB / place).write_text(text)


def main(words):
    need_kit()
    crates = read_crates()
    crate = crates["mrjob_c"]
    LIB.mkdir(exist_ok=True)
    archive = crate.folder / "out/libmrjob_c.a"
    with open(LOG, "w") as log:
        if words == ["--proved"]:
            archive.parent.mkdir(exist_ok=True)
            how = ["--crate-type", "staticlib", "--toolchain", kit() / "toolchain", "--backend", "llvm", "-o", archive]
            made = is_done([*rattle_words("build", crate, crates), *how], crate, log)
        else:
            made = prove(crate, crates, log) and is_done(["rt", "lib"], crate, log)
    if not made:
        stop_at_faults(LOG)
    with tempfile.TemporaryDirectory() as room:
        for archive in (archive, kit() / "c/liblibc_c.a"):
            run(kit() / "toolchain/bin/llvm-ar", "x", archive, cwd=room)
        link(sorted(Path(room).glob("*.o")), Path(room))
    tell_builders()
    print("libmrjob: built, lib/libmrjob.a and lib/libmrjob.so")


if __name__ == "__main__":
    main(sys.argv[1:])
