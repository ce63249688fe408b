#!/usr/bin/env python3
"""Builds the package scard with a C compiler alone: the functions of PEP 517 that pip calls, and a command.

usage: python3 backend.py DIR        writes the package into DIR, from where Python can import it

The library is scard.c and scard.h, in a folder c beside this file, as an archive of the sources has them, or else in
../dist/c. The C of the program is in a folder program, or else ../tools/release/program-c writes it now. CC names the
compiler, and CFLAGS and LDFLAGS are added to its words. From Python 3.11 on the modules keep to the stable ABI of 3.11,
so one wheel serves all later versions. All files of a wheel and of an archive have the time SOURCE_DATE_EPOCH, in
seconds since 1970, or else the beginning of 1980, and one mode. So two builds with the same compiler are the same,
octet for octet.
"""
import base64
import concurrent.futures
import gzip
import hashlib
import io
import os
import pathlib
import re
import shlex
import subprocess
import sys
import sysconfig
import tarfile
import tempfile
import time
import zipfile

HERE = pathlib.Path(__file__).resolve().parent
LIBRARY = next((it for it in (HERE / "c", HERE.parent / "dist/c") if (it / "scard.c").exists()), HERE / "c")
IS_STABLE = sys.version_info >= (3, 11) and not sysconfig.get_config_var("Py_GIL_DISABLED")
WRITER = HERE.parent / "tools/release/program-c"
FLAGS = ["-std=c99", "-O2", "-fPIC", "-fvisibility=hidden"]
# of the program's many functions: a level that takes half the time of the next one, and a machine for each thread
PROGRAM_FLAGS = ["-std=c99", "-O1", "-fPIC", "-fvisibility=hidden", "-DSCARD_THREADS"]
MODULES = ("_scard", "_answer")
SOURCES = ("pyproject.toml", "README.md", "backend.py")
# the earliest time that a file of a wheel can have, and the mode of all files
EARLIEST, MODE = 315532800, 0o644
WHEEL_FORM = "Wheel-Version: 1.0\nGenerator: scard\nRoot-Is-Purelib: false\nTag: "


def version():
    """The version of the library, by its header."""
    return re.search(r'SCARD_VERSION_TEXT "([\d.]+)"', (LIBRARY / "scard.h").read_text())[1]


def metadata():
    """What the installed package says of itself."""
    project = (HERE / "pyproject.toml").read_text()
    summary = re.search(r'^description = "(.*)"$', project, re.M)[1]
    python = re.search(r'^requires-python = "(.*)"$', project, re.M)[1]
    return (f"Metadata-Version: 2.1\nName: scard\nVersion: {version()}\nSummary: {summary}\n"
            f"Requires-Python: {python}\nDescription-Content-Type: text/markdown\n\n{(HERE / 'README.md').read_text()}")


def tag():
    """The tag of the wheel: of which Python, which ABI and which machine."""
    number = f"cp{sys.version_info[0]}{sys.version_info[1]}"
    machine = re.sub(r"[-. ]", "_", sysconfig.get_platform())
    return f"cp311-abi3-{machine}" if IS_STABLE else f"{number}-{number}-{machine}"


def file_of(module):
    """The file name of a compiled module."""
    return f"{module}.abi3.so" if IS_STABLE else module + sysconfig.get_config_var("EXT_SUFFIX")


def words_of(name):
    """The words of a variable of the environment."""
    return shlex.split(os.environ.get(name, ""))


def compiler():
    """The words of the compiler."""
    return words_of("CC") or ["cc"]


def program_files(folder):
    """The files of the program as C that need no file beside them, and those that a person wrote."""
    if (HERE / "program").exists():
        folder = HERE / "program"
    else:
        subprocess.run([sys.executable, "-B", str(WRITER), str(folder)], check=True)
    return folder, [it for it in sorted(folder.glob("*.c")) if it.name != "main.c"]


def units(work):
    """The files to compile: the module of each, the file, and the compiler's words for it."""
    stable = ["-DPy_LIMITED_API=0x030B0000"] if IS_STABLE else []
    folder, files = program_files(work / "program")
    flags, python = words_of("CFLAGS"), [*stable, f"-I{sysconfig.get_path('include')}"]
    for file in files:
        yield "_answer", file, [*PROGRAM_FLAGS, *flags, "-w"]
    for file in sorted((HERE / "src/program").glob("*.c")):
        yield "_answer", file, [*PROGRAM_FLAGS, *flags, f"-I{folder}", *python]
    for file in [*sorted((HERE / "src").glob("*.c")), LIBRARY / "scard.c"]:
        yield "_scard", file, [*FLAGS, *flags, f"-I{LIBRARY}", *python]


def compiled(place):
    """Compiles the modules into a folder, their files side by side."""
    linker = [*compiler(), *shlex.split(sysconfig.get_config_var("LDSHARED") or "cc -shared")[1:]]
    with tempfile.TemporaryDirectory() as work, concurrent.futures.ThreadPoolExecutor(os.cpu_count()) as pool:
        work = pathlib.Path(work)

        def one(unit):
            module, file, words = unit
            made = work / f"{module}-{file.stem}.o"
            subprocess.run([*compiler(), *words, "-c", str(file), "-o", str(made)], check=True)
            return module, str(made)

        objects = list(pool.map(one, units(work)))
        for module in MODULES:
            made = [it for owner, it in objects if owner == module]
            to = str(pathlib.Path(place) / file_of(module))
            subprocess.run([*linker, *words_of("CFLAGS"), *made, "-o", to, *words_of("LDFLAGS")], check=True)


def seconds():
    """The time of all files in a wheel or an archive."""
    return max(int(os.environ.get("SOURCE_DATE_EPOCH", EARLIEST)), EARLIEST)


def modules():
    """The package's files of Python, with their names in the wheel."""
    return [(f"scard/{it.name}", it.read_bytes()) for it in sorted((HERE / "scard").iterdir())
            if it.suffix in (".py", ".pyi", ".typed")]


def build_into(place):
    """Writes the package into a folder."""
    package = pathlib.Path(place) / "scard"
    package.mkdir(parents=True, exist_ok=True)
    for name, octets in modules():
        (package.parent / name).write_bytes(octets)
    compiled(package)


def row_of(name, octets):
    """The line of a file in the list of a wheel's files."""
    digest = base64.urlsafe_b64encode(hashlib.sha256(octets).digest()).rstrip(b"=").decode()
    return f"{name},sha256={digest},{len(octets)}\n"


def prepare_metadata_for_build_wheel(metadata_directory, config_settings=None):
    """Writes what the installed package says of itself, so that pip needn't compile to know it."""
    folder = f"scard-{version()}.dist-info"
    place = pathlib.Path(metadata_directory) / folder
    place.mkdir()
    (place / "METADATA").write_text(metadata())
    (place / "WHEEL").write_text(f"{WHEEL_FORM}{tag()}\n")
    return folder


def build_wheel(wheel_directory, config_settings=None, metadata_directory=None):
    """Writes the wheel into a folder, and returns its name."""
    folder = f"scard-{version()}.dist-info"
    with tempfile.TemporaryDirectory() as work:
        compiled(work)
        made = [(f"scard/{file_of(it)}", (pathlib.Path(work) / file_of(it)).read_bytes()) for it in MODULES]
    files = [*modules(), *made, (f"{folder}/METADATA", metadata().encode()),
             (f"{folder}/WHEEL", f"{WHEEL_FORM}{tag()}\n".encode())]
    rows = "".join(row_of(*it) for it in files) + f"{folder}/RECORD,,\n"
    name = f"scard-{version()}-{tag()}.whl"
    with zipfile.ZipFile(pathlib.Path(wheel_directory) / name, "w", zipfile.ZIP_DEFLATED) as wheel:
        for path, octets in [*files, (f"{folder}/RECORD", rows.encode())]:
            entry = zipfile.ZipInfo(path, time.gmtime(seconds())[:6])
            entry.external_attr = MODE << 16
            wheel.writestr(entry, octets, zipfile.ZIP_DEFLATED)
    return name


def sources(work):
    """The files of the archive of sources: their names there and their octets."""
    yield from ((name, (HERE / name).read_bytes()) for name in SOURCES)
    yield from modules()
    yield from ((str(it.relative_to(HERE)), it.read_bytes()) for it in sorted((HERE / "src").glob("**/*.[ch]")))
    yield from ((f"c/{name}", (LIBRARY / name).read_bytes()) for name in ("scard.c", "scard.h"))
    folder, _ = program_files(pathlib.Path(work) / "program")
    yield from ((f"program/{it.name}", it.read_bytes()) for it in sorted(folder.glob("*.[ch]")))
    yield "PKG-INFO", metadata().encode()


def build_sdist(sdist_directory, config_settings=None):
    """Writes the archive of sources into a folder, and returns its name. It has the library and the program too."""
    folder, packed = f"scard-{version()}", io.BytesIO()
    with tempfile.TemporaryDirectory() as work, tarfile.open(fileobj=packed, mode="w") as archive:
        for name, octets in sources(work):
            entry = tarfile.TarInfo(f"{folder}/{name}")
            entry.size, entry.mtime, entry.mode = len(octets), seconds(), MODE
            archive.addfile(entry, io.BytesIO(octets))
    file = pathlib.Path(sdist_directory) / f"{folder}.tar.gz"
    file.write_bytes(gzip.compress(packed.getvalue(), mtime=seconds()))
    return f"{folder}.tar.gz"


if __name__ == "__main__":
    if len(sys.argv) != 2 or sys.argv[1].startswith("-"):
        sys.exit(__doc__)
    build_into(sys.argv[1])
