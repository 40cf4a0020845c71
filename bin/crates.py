"""What the commands of this repository share that work on a copy of its crates."""
import os, shutil, subprocess

TOP = os.path.dirname(os.path.dirname(os.path.realpath(__file__)))


def crates_below(names):
    """The crates of the repository that these are made of, the lowest first: each with its line of crates.txt, what it uses, and whether it is a
    library for C. None where crates.txt lacks one of the names."""
    lines = {}
    with open(f"{TOP}/crates.txt", encoding="utf-8") as file:
        for line in file:
            head, colon, uses = line.partition(":")
            if colon and not line.startswith("#"):
                lines[head.split()[0]] = (line, uses.split(), "staticlib" in head.split())
    found = {}

    def add(name):
        if name in lines and name not in found:
            for below in lines[name][1]:
                add(below)
            found[name] = lines[name]

    for name in names or lines:
        add(name)
    return found if all(it in lines for it in names) else None


def copy(crates, room):
    """Puts the crates, without their wrong bodies, into a folder of their own, which rt takes for the top of a repository."""
    os.makedirs(f"{room}/.git")
    shutil.copyfile(f"{TOP}/HANDLES", f"{room}/HANDLES")
    with open(f"{room}/crates.txt", "w", encoding="utf-8") as file:
        file.writelines(line for line, _, _ in crates.values())
    for name in crates:
        left_out = shutil.ignore_patterns("out", "must-fail", "more-edits", "*.md")
        shutil.copytree(f"{TOP}/crates/{name}", f"{room}/crates/{name}", ignore=left_out)


def build_words(name, top, uses, crates, room):
    """The words by which rattle proves and compiles a crate over crates that rt ci has proved in the folder `room`; and the folder of the toolchain."""
    kit = os.path.dirname(subprocess.run(["rt", "doc"], check=True, capture_output=True, text=True).stdout.strip())
    words = ["rattle", "build", "--crate-name", name, top, "-L", f"dependency={kit}/rlibs"]
    # (std is never listed, and always there)
    for below in [*uses, "std"]:
        at = f"{room}/crates/{below}/out/rlib" if below in crates else f"{kit}/rlibs"
        words += ["--extern", f"{below}={at}/{below}.rlib"]
    for below in crates:
        words += ["-L", f"dependency={room}/crates/{below}/out/rlib"] if below != name else []
    words += ["--antt-project", f"{kit}/rattle/logic/antt-project.json", "--logic-built", f"{kit}/logic_built", "--jobs", "2"]
    return words + ["--links", f"{name}=", "--toolchain", f"{kit}/toolchain", "--backend", "llvm"], kit


if __name__ == "__main__":
    # bin/crates.py ROOM NAME..: a copy of the crates that these are made of, in the new folder ROOM
    import sys

    below = crates_below(sys.argv[2:])
    if below is None:
        sys.exit("crates.txt has no crate of one of these names")
    copy(below, sys.argv[1])
