#!/usr/bin/env python3
"""Makes the wheel and the source archive of mrjob_plan and mrjob_dask: what pip calls, which then needs no network and no package.

    backend.py FOLDER       puts both there, and prints their names

Where `make library` has left its library in lib/, the wheel carries it, for each Linux of this processor whose C
library is as new as its symbols want. Else the wheel has Python alone, and the package loads the library that is
installed. The same files give the same bytes; SOURCE_DATE_EPOCH dates them.
"""
import base64
import gzip
import hashlib
import io
import os
import re
import sys
import tarfile
import time
import zipfile
from pathlib import Path

HERE = Path(__file__).resolve().parent
PACKAGE = HERE / "mrjob_plan"
SUFFIXES = (".py", ".typed")
# (a source archive has these below this file's folder, and a checkout above it)
LICENSE = next(it for it in (HERE / "LICENSE", HERE.parent / "LICENSE") if it.exists())
VERSION = next(it for it in (PACKAGE / "VERSION", HERE.parent / "VERSION") if it.exists())
# The tags of Linux, by the least C library that each stands for.
LINUX = {
    (2, 5): "manylinux_2_5_x86_64.manylinux1_x86_64",
    (2, 12): "manylinux_2_12_x86_64.manylinux2010_x86_64",
    (2, 17): "manylinux_2_17_x86_64.manylinux2014_x86_64",
}
DATE = int(os.environ.get("SOURCE_DATE_EPOCH", "315532800"))  # (1980, where a zip's dates begin)


def settings():
    """What pyproject.toml sets to one string."""
    return dict(re.findall(r'^([\w-]+) = "(.*)"$', (HERE / "pyproject.toml").read_text(), re.M))


def extras():
    """The packages that are wanted for each extra of pyproject.toml."""
    listed = re.search(r"^\[project\.optional-dependencies\]\n((?:.+\n)*)", (HERE / "pyproject.toml").read_text(), re.M)
    return {name: re.findall(r'"(.*?)"', its) for name, its in re.findall(r"^([\w-]+) = (\[.*\])$", listed[1], re.M)}


def full_name():
    return f"{settings()['name'].replace('-', '_')}-{VERSION.read_text().strip()}"


def metadata():
    given = settings()
    lines = [
        "Metadata-Version: 2.1",
        f"Name: {given['name']}",
        f"Version: {VERSION.read_text().strip()}",
        f"Summary: {given['description']}",
        f"License: {given['license']}",
        "Classifier: License :: OSI Approved :: MIT License",
        "Classifier: Operating System :: POSIX :: Linux",
        "Classifier: Typing :: Typed",
        *(f"Project-URL: {name}, {it}" for name, it in given.items() if it.startswith("https://")),
        f"Requires-Python: {given['requires-python']}",
        *(f"Provides-Extra: {extra}" for extra in extras()),
        *(f'Requires-Dist: {it}; extra == "{extra}"' for extra, its in extras().items() for it in its),
        "Description-Content-Type: text/markdown",
    ]
    return "\n".join([*lines, "", (HERE / "README.md").read_text()]).encode()


def library():
    """The library for the wheel, by the name that the package looks for, or None."""
    name = re.search(r"^VERSION = (\d+)$", (PACKAGE / "library.py").read_text(), re.M)[1]
    path = HERE.parent / f"lib/libmrjob.so.{name}"
    return path if path.exists() else None


def linux_tag(content):
    """The Linux on which a library runs, by the greatest version of glibc of which it wants a symbol."""
    wanted = max((int(major), int(minor)) for major, minor in re.findall(rb"\0GLIBC_(\d+)\.(\d+)", content))
    return next((tag for least, tag in LINUX.items() if wanted <= least), "manylinux_{}_{}_x86_64".format(*wanted))


def sources():
    """The packages' own files."""
    files = {f"{it.parent.name}/{it.name}": it.read_bytes() for it in HERE.glob("mrjob_*/*") if it.suffix in SUFFIXES}
    return {**files, "mrjob_plan/VERSION": VERSION.read_bytes()}


# ---- what pip calls ----


def build_wheel(wheel_directory, config_settings=None, metadata_directory=None):
    files, found = sources(), library()
    if found is None:
        return write_wheel(wheel_directory, files, "any")
    files[f"mrjob_plan/{found.name}"] = found.read_bytes()
    return write_wheel(wheel_directory, files, linux_tag(found.read_bytes()))


def build_editable(wheel_directory, config_settings=None, metadata_directory=None):
    return write_wheel(wheel_directory, {"mrjob_plan.pth": f"{HERE}\n".encode()}, "any")


def build_sdist(sdist_directory, config_settings=None):
    name = full_name()
    files = {it: (HERE / it).read_bytes() for it in ("README.md", "backend.py", "pyproject.toml")}
    files = {**files, **sources(), "PKG-INFO": metadata(), "LICENSE": LICENSE.read_bytes()}
    packed = io.BytesIO()
    with tarfile.open(fileobj=packed, mode="w", format=tarfile.USTAR_FORMAT) as archive:
        for path, content in sorted(files.items()):
            member = tarfile.TarInfo(f"{name}/{path}")
            member.size, member.mtime, member.mode = len(content), DATE, 0o644
            archive.addfile(member, io.BytesIO(content))
    path = Path(sdist_directory) / f"{name}.tar.gz"
    path.write_bytes(gzip.compress(packed.getvalue(), mtime=DATE))
    return path.name


# ---- the wheel ----


def digest(content):
    return base64.urlsafe_b64encode(hashlib.sha256(content).digest()).rstrip(b"=").decode()


def write_wheel(folder, files, platforms):
    """Writes a wheel of these files for these platforms, and returns its name."""
    name, is_pure = full_name(), str(platforms == "any").lower()
    tags = "".join(f"Tag: py3-none-{it}\n" for it in platforms.split("."))
    wheel = f"Wheel-Version: 1.0\nGenerator: backend of mrjob_plan\nRoot-Is-Purelib: {is_pure}\n{tags}"
    info = f"{name}.dist-info"
    about = {"LICENSE": LICENSE.read_bytes(), "METADATA": metadata(), "WHEEL": wheel.encode()}
    files = {**dict(sorted(files.items())), **{f"{info}/{it}": content for it, content in about.items()}}
    record = "".join(f"{it},sha256={digest(content)},{len(content)}\n" for it, content in files.items())
    files[f"{info}/RECORD"] = f"{record}{info}/RECORD,,\n".encode()
    path = Path(folder) / f"{name}-py3-none-{platforms}.whl"
    with zipfile.ZipFile(path, "w") as archive:
        for it, content in files.items():
            member = zipfile.ZipInfo(it, time.gmtime(max(DATE, 315532800))[:6])
            member.compress_type, member.create_system = zipfile.ZIP_DEFLATED, 3
            member.external_attr = (0o755 if ".so" in it else 0o644) << 16
            archive.writestr(member, content)
    return path.name


if __name__ == "__main__":
    if len(sys.argv) != 2:
        sys.exit(__doc__.strip())
    Path(sys.argv[1]).mkdir(parents=True, exist_ok=True)
    print(build_wheel(sys.argv[1]), build_sdist(sys.argv[1]), sep="\n")
