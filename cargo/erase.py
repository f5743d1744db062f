#!/usr/bin/env python3
"""Writes the project's crates without clauses and ghosts, as a Cargo workspace of plain Rust.

    cargo/erase.py TARGET [--real-crates] [--add FOLDER]..

With --real-crates the workspace uses the crates of crates.io where one serves, else the stand-ins
of `rattle_std` alone. With --add it gets a copy of a crate of plain Rust too, whose paths lead to
the crates beside it. Source that the eraser does not know is refused with its file and line, and
then nothing is written.
"""

import argparse
import re
import shutil
import sys
from pathlib import Path

from eraser import rules
from eraser.check import check
from eraser.source import Source
from eraser.tokens import Refused

TOP = Path(__file__).resolve().parent.parent
VERSION = "0.2.0"
PROGRAMS = ("replay", "batches", "workload")
LIBRARIES = ("archcaraway_c", "codec_c_tests")
# Crates that no program uses yet.
FURTHER = ("shards", "replay_shards")

# What Rust programs call: a crate of plain Rust over the erased ones.
FACADE = TOP / "cargo" / "archcaraway"

# The crates of crates.io that serve as they are, with the version that is asked for.
REAL_CRATES = {
    "arrayvec": "0.7",
    "byteorder": "1",
    "crossbeam_utils": "0.8",
    "itoa": "1",
    "thiserror": "1",
}

# Those of the toolchain's std, which need no dependency.
PARTS_OF_STD = {"std_alloc", "std_heap", "std_io"}

PACKAGE = """[package]
name = "archcaraway-{name}"
version.workspace = true
edition.workspace = true
rust-version.workspace = true
license.workspace = true
description = "Part of Archcaraway: {summary}"

{target}
[dependencies]
rattle_std.workspace = true
{needs}
[lints]
workspace = true
"""

PATH = '{name} = {{ package = "archcaraway-{name}", path = "{name}", version = "{version}" }}\n'

WITH_CLAP = """
[features]
default = ["clap"]
clap = ["dep:clap"]

[dependencies]
clap = { version = "4", optional = true }
"""
WITHOUT_CLAP = "\n[features]\nclap = []\n"

WORKSPACE = """[workspace]
resolver = "3"
members = [
{members}]

[workspace.package]
version = "{version}"
edition = "2024"
rust-version = "1.85"
license = "Apache-2.0"

[workspace.dependencies]
{paths}
# What ghosts alone used is unused here, and the toolchain passes slices to C as a pointer and a
# length.
[workspace.lints.rust]
dead_code = "allow"
improper_ctypes_definitions = "allow"
unused_imports = "allow"
unused_variables = "allow"

[profile.release]
lto = "fat"
codegen-units = 1
panic = "abort"
"""


def listed_crates() -> dict[str, list[str]]:
    """Returns what each crate of `crates.txt` uses. The lowest crate is the first."""
    lines = (TOP / "crates.txt").read_text().splitlines()
    crates = (re.fullmatch(r"(\w+)[^:#]*:(.*)", line) for line in lines)
    return {crate[1]: crate[2].split() for crate in crates if crate}


def needed_crates(listed: dict[str, list[str]]) -> list[str]:
    """Returns the crates that the programs and the libraries for C need."""
    needed = {*PROGRAMS, *LIBRARIES, *FURTHER}
    for name in reversed(listed):
        if name in needed:
            needed.update(listed[name])
    return [name for name in listed if name in needed]


def erased(file: Path, kit: frozenset[str], real: frozenset[str], head: str = "") -> str:
    """Returns the text of a source as plain Rust, with this head and the stand-in's names after its
    docs."""
    source = Source.read(file)
    rules.apply(source, kit, real)
    output = source.result()
    check(source, output)
    prelude = f"{head}#[allow(unused_imports)]\nuse rattle_std::prelude::*;\n\n"
    return re.sub(r"(?m)^(?!//!|$)", lambda _: prelude, output, count=1)


def erased_crate(name: str, listed: dict[str, list[str]], real: frozenset[str]) -> dict[Path, str]:
    """Returns the files of a crate as plain Rust, by their paths."""
    folder, uses = TOP / "crates" / name, listed[name]
    kit = frozenset(uses) - listed.keys() - PARTS_OF_STD
    # Only the exports for C may have unsafe code.
    head = "" if name in LIBRARIES else "#![forbid(unsafe_code)]\n\n"
    roots = [folder / "src" / "lib.rt", folder / "src" / "main.rt"]
    summary = next(root for root in roots if root.is_file()).read_text().split("\n")[0]
    files = {Path("Cargo.toml"): manifest(name, summary, uses, listed, real)}
    for file in (folder / "src").rglob("*.rt"):
        text = erased(file, kit, real, head if file in roots else "")
        files[file.relative_to(folder).with_suffix(".rs")] = text
    return files


def manifest(
    name: str, summary: str, uses: list[str], listed: dict[str, list[str]], real: frozenset[str]
) -> str:
    needs = [f"{use}.workspace = true\n" for use in uses if use in listed]
    needs += [f'{use.replace("_", "-")} = "{REAL_CRATES[use]}"\n' for use in uses if use in real]
    target = f'[lib]\nname = "{name}"\n'
    if name in LIBRARIES:
        target += 'crate-type = ["staticlib", "cdylib", "rlib"]\n'
    elif name in PROGRAMS:
        target = f'[[bin]]\nname = "{name}"\npath = "src/main.rs"\n'
    summary = summary.removeprefix("//! ").rstrip(".").replace('"', "'").replace("`", "")
    return PACKAGE.format(name=name, summary=summary, target=target, needs="".join(needs))


def write_stand_ins(folder: Path, real: frozenset[str]) -> None:
    """Copies `rattle_std`, whose command lines are taken by `clap` itself where real crates are
    used."""
    shutil.rmtree(folder / "src", ignore_errors=True)
    shutil.copytree(TOP / "cargo" / "rattle_std", folder, dirs_exist_ok=True)
    with (folder / "Cargo.toml").open("a") as manifest:
        manifest.write(WITH_CLAP if real else WITHOUT_CLAP)


def write_workspace(target: Path, real: frozenset[str], added: list[Path]) -> None:
    listed = listed_crates()
    # All is erased before anything is written.
    crates = {name: erased_crate(name, listed, real) for name in needed_crates(listed)}
    for name, files in crates.items():
        shutil.rmtree(target / name / "src", ignore_errors=True)
        for path, text in files.items():
            (target / name / path).parent.mkdir(parents=True, exist_ok=True)
            (target / name / path).write_text(text)
    write_stand_ins(target / "rattle_std", real)
    for folder in (FACADE, *added):
        shutil.rmtree(target / folder.name, ignore_errors=True)
        shutil.copytree(folder, target / folder.name)
    names = ["rattle_std", *crates]
    members = "".join(
        f'    "{name}",\n' for name in (*names, FACADE.name, *(a.name for a in added))
    )
    paths = "".join(PATH.format(name=name, version=VERSION) for name in names)
    workspace = WORKSPACE.format(members=members, version=VERSION, paths=paths)
    (target / "Cargo.toml").write_text(workspace)


def main() -> int:
    parser = argparse.ArgumentParser(description=__doc__.split("\n")[0])
    parser.add_argument("target", type=Path)
    parser.add_argument("--real-crates", action="store_true")
    parser.add_argument("--add", type=Path, action="append", default=[], metavar="FOLDER")
    chosen = parser.parse_args()
    real = frozenset(REAL_CRATES if chosen.real_crates else ())
    try:
        write_workspace(chosen.target, real, chosen.add)
    except Refused as refused:
        print(f"erase: {refused}", file=sys.stderr)
        return 1
    return 0


if __name__ == "__main__":
    sys.exit(main())
