"""What the scripts of this repository know about its crates and the toolchain: the rows of crates.txt, where a library
is built, and the words by which the toolchain's checker is called."""

import hashlib
import pathlib
import re
import shutil
import subprocess

TOP = pathlib.Path(__file__).resolve().parents[2]
RT = shutil.which("rt")
KIT = pathlib.Path(RT).resolve().parent.parent if RT else None


def crates():
    """The rows of crates.txt: by each crate's name whether it is a static library, and what it depends on."""
    rows = [it.split("#")[0].partition(":") for it in (TOP / "crates.txt").read_text().splitlines()]
    return {head.split()[0]: ("staticlib" in head, uses.split()) for head, _, uses in rows if head.strip()}


# the program
PROGRAM = "scard"


def archives(listed):
    """The crates whose archives are the library for C."""
    return [it for it, (is_static, _) in listed.items() if is_static]


def folder_of(name):
    """Where a crate of the repository is."""
    return TOP / "crates" / name


def is_program(name):
    """Whether a crate is a program."""
    return (folder_of(name) / "src/main.rt").exists()


def library(name, listed):
    """Where a library is built: one of the repository's, or one of the toolchain's."""
    return (folder_of(name) / "out/rlib" if name in listed else KIT / "rlibs") / f"{name}.rlib"


def below(name, listed):
    """The repository's crates that a crate depends on, through others too, lowest first."""
    found = []
    for it in listed[name][1]:
        found += [low for low in [*below(it, listed), it] if low not in found] if it in listed else []
    return found


def words_of(name, listed):
    """The checker's words for a crate, except its own files and its number of jobs."""
    is_static, uses = listed[name]
    words = ["--crate-name", name, "src/main.rt" if is_program(name) else "src/lib.rt", "--links", f"{name}="]
    words += ["--crate-type", "staticlib"] if is_static else []
    words += ["--extern", f"std={library('std', {})}", "-L", f"dependency={KIT}/rlibs"]
    words += [word for it in uses for word in ("--extern", f"{it}={library(it, listed)}")]
    words += [word for it in below(name, listed) for word in ("-L", f"dependency={library(it, listed).parent}")]
    return words + ["--antt-project", KIT / "rattle/logic/antt-project.json", "--logic-built", KIT / "logic_built"]


def keeping(work):
    """A folder with the toolchain's files, whose compiler keeps the module of LLVM that it gets in module.bc of `work`."""
    bins = work / "toolchain/bin"
    bins.mkdir(parents=True)
    (work / "toolchain/lib").symlink_to(KIT / "toolchain/lib")
    for it in (KIT / "toolchain/bin").iterdir():
        if it.name != "clang":
            (bins / it.name).symlink_to(it)
    keeps = f'cp module.bc "{work}/module.bc" && exec "{KIT}/toolchain/bin/clang" "$@"'
    (bins / "clang").write_text(f"#!/bin/sh\n{keeps}\n")
    (bins / "clang").chmod(0o755)
    return work / "toolchain"


def uses_of(library):
    """What a library of the toolchain depends on."""
    return re.findall(r"^dep (\w+)$", (KIT / "rlibs" / f"{library}.rlib/format").read_text(), re.M)


def sources_of(name, listed):
    """The words that pass the sources of all that a crate depends on to the compiler that proves nothing."""
    words, kit = [], ["std", *(it for it in listed[name][1] if it not in listed)]
    for it in below(name, listed):
        uses = listed[it][1]
        words += ["--lib", f"{it}:{','.join(['core', 'std', *uses])}={folder_of(it)}/src/lib.rt"]
        kit += [use for use in uses if use not in listed and use not in kit]
    for it in kit:
        words += ["--lib", f"{it}:{','.join(uses_of(it))}={KIT}/rattle/{it}/src/lib.rt"]
        kit += [use for use in uses_of(it) if use not in kit]
    return words


def files_of(name):
    """The files that a crate's proof reads, in one order."""
    parts = [folder_of(name) / part for part in ("src", "specs", "proofs")]
    return sorted(it for part in parts for it in part.rglob("*") if it.suffix in (".rt", ".antt"))


def sum_of(name, listed, known):
    """A checksum of what a crate's proof depends on: the toolchain, the crate's row and files, and the crates below."""
    if name not in known:
        total = hashlib.sha256(repr((name, listed[name], (KIT / "KIT-ID").read_bytes())).encode())
        for it in files_of(name):
            total.update(repr((it.relative_to(TOP).as_posix(), it.read_bytes())).encode())
        for it in listed[name][1]:
            total.update(sum_of(it, listed, known).encode() if it in listed else it.encode())
        known[name] = total.hexdigest()
    return known[name]


def sum_without_toolchain(name, listed):
    """A checksum of the files and rows of a crate and of those below it, which needs no toolchain."""
    total = hashlib.sha256()
    for it in sorted([*below(name, listed), name]):
        total.update(repr((it, listed[it])).encode())
        for file in files_of(it):
            total.update(repr((file.relative_to(TOP).as_posix(), file.read_bytes())).encode())
    return total.hexdigest()


def module_of_program():
    """The program's module that is made of the present crates: the one that is built, or else that of dist/."""
    built, sources = folder_of(PROGRAM) / "out/module.wasm", TOP / "dist/scard.sources"
    if KIT and not subprocess.run([TOP / "tools/release/program", "--has"], check=False).returncode:
        return built
    is_present = sources.exists() and sources.read_text().strip() == sum_without_toolchain(PROGRAM, crates())
    return TOP / "dist/scard.wasm" if is_present else None
