#!/usr/bin/env python3
"""Builds the programs of programs/, which stand on the crates and are none of them: benches, and tests that take long.

    bin/programs.py ROOM NAME    builds one in the folder ROOM, where the crates below it are proved first, and prints where it stands
    bin/programs.py --check      proves all of them, in a folder that it removes

A program is a folder with src/ and proofs/, whose files end in .txt, so that nothing takes them for a crate's; a file `taken` names files and folders of
crates/cell_tests that it has too, each line a path here and one there.
"""
import os, re, shutil, subprocess, sys, tempfile

sys.dont_write_bytecode = True
from crates import TOP, build_words, copy, crates_below

# the crates of the toolchain that a program here may use
OF_KIT = ("crossbeam_utils", "hex")


def uses_of(folder):
    """The crates that the sources and proofs name."""
    text = ""
    for at, _, names in os.walk(folder):
        for name in names:
            with open(f"{at}/{name}", encoding="utf-8") as file:
                text += file.read()
    return [it for it in (*crates_below([]), *OF_KIT) if re.search(rf"\b{it}::|Rattle\.{it}\.", text)]


def take(name, here, there):
    """Copies a file or folder of the tests of the cells, which then speaks of this program."""
    source = f"{TOP}/crates/cell_tests/{there}"
    files = [source] if os.path.isfile(source) else [f"{source}/{it}" for it in sorted(os.listdir(source))]
    for file in files:
        to = here if file == source else f"{here}/{os.path.basename(file)}"
        os.makedirs(os.path.dirname(to), exist_ok=True)
        with open(file, encoding="utf-8") as it:
            text = it.read()
        theirs, ours = (re.sub(r"^.*?/proofs/", "", it).replace("/", ".") for it in (source, here))
        with open(to, "w", encoding="utf-8") as it:
            it.write(text.replace(f"Rattle.cell_tests.proofs.{theirs}.", f"Rattle.{name}.proofs.{ours}."))


def lay(name, room):
    """Puts the program into the folder of a crate, and returns what it uses."""
    source, to = f"{TOP}/programs/{name}", f"{room}/crates/{name}"
    for at, _, files in os.walk(source):
        for file in files:
            if file.endswith(".txt"):
                inside = f"{to}/{os.path.relpath(at, source)}"
                os.makedirs(inside, exist_ok=True)
                shutil.copyfile(f"{at}/{file}", f"{inside}/{file[:-4]}")
    if os.path.isfile(f"{source}/taken"):
        with open(f"{source}/taken", encoding="utf-8") as lines:
            for here, there in map(str.split, lines):
                take(name, f"{to}/{here}", there)
    os.makedirs(f"{to}/proofs", exist_ok=True)
    open(f"{to}/proofs/Lib.antt", "a", encoding="utf-8").close()
    return uses_of(to)


def run(words, folder):
    """Runs a command there; where that fails, shows the end of what it said, and returns False."""
    ran = subprocess.run(words, cwd=folder, stdin=subprocess.DEVNULL, capture_output=True, text=True, errors="replace")
    if ran.returncode:
        sys.stderr.write("\n".join((ran.stdout + ran.stderr).splitlines()[-20:]) + "\n")
    return ran.returncode == 0


def build(name, room):
    """Proves and compiles the program over the crates that it stands on, which rt ci proves first, or takes where the kit has kept them."""
    with tempfile.TemporaryDirectory() as first:
        uses = lay(name, first)
    crates = crates_below([it for it in uses if it not in OF_KIT])
    if not os.path.isdir(room):
        copy(crates, room)
    if not run(["rt", "ci"], room):
        return False
    lay(name, room)
    folder, made = f"{room}/crates/{name}", f"out/{name}"
    os.makedirs(f"{folder}/out", exist_ok=True)
    words, kit = build_words(name, "src/main.rt", uses, crates, room)
    link = [f"{kit}/bin/rattle-link", "--target", "x86_64-unknown-linux-gnu", "--toolchain", f"{kit}/toolchain", "-o", made, f"{made}.o"]
    well = run([*words, "-o", f"{made}.o"], folder) and run([*link, f"{kit}/c/libos_c.a", f"{kit}/c/liblibc_c.a"], folder)
    # (rt ci reads what lies in crates/, and this program is none of its)
    shutil.copy(f"{folder}/{made}", f"{room}/{name}") if well else None
    shutil.rmtree(folder)
    return well


def check_all(names):
    failed = []
    for name in names:
        with tempfile.TemporaryDirectory(prefix="shfl-programs-") as room:
            well = build(name, f"{room}/{name}")
        print(f"{name}: {'proved' if well else 'NOT PROVED'}", flush=True)
        failed += [] if well else [name]
    return 1 if failed else 0


def main():
    names = sorted(it for it in os.listdir(f"{TOP}/programs") if os.path.isdir(f"{TOP}/programs/{it}"))
    if sys.argv[1:] == ["--check"]:
        return check_all(names)
    if len(sys.argv) != 3 or sys.argv[2] not in names:
        sys.stderr.write(f"{__doc__}\nThe programs: {' '.join(names)}\n")
        return 2
    room, name = os.path.realpath(sys.argv[1]), sys.argv[2]
    os.makedirs(room, exist_ok=True)
    if not build(name, f"{room}/{name}"):
        return 1
    print(f"{room}/{name}/{name}")
    return 0


sys.exit(main())
