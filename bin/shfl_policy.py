"""Policies of classes: their digits, and how a class comes to have one."""
import contextlib, os, re, subprocess, tempfile, time

from shfl_process import Failed, ask, classes_of, refusal

TOP = os.path.dirname(os.path.dirname(os.path.realpath(__file__)))


def made_by(command, **more):
    """What a command of another program writes."""
    try:
        ran = subprocess.run(command, capture_output=True, **more)
    except FileNotFoundError:
        raise Failed(69, f"{command[0]} isn't there") from None
    except OSError as error:
        raise Failed(70, f"{command[0]}: {error.strerror}") from None
    if ran.returncode:
        raise Failed(1, ran.stderr.decode(errors="replace").strip())
    return ran.stdout


# where the examples lie in C, with what a policy sees: in the sources, or where libshfl/install puts them
CONTEXT = [f"-I{it}" for it in (f"{TOP}/examples/policies", f"{TOP}/../../share/shfl/policies") if os.path.isdir(it)]


def object_of(file, room):
    """The object of a C file, with the lines that its instructions come from, which change none of them."""
    # (as clang places blocks by itself a switch may jump back, which is refused)
    made_by(["clang", "-target", "bpf", "-O2", "-mllvm", "-disable-block-placement", "-g", *CONTEXT, "-c", file, "-o", f"{room}/policy.o"])
    return f"{room}/policy.o"


def compiled(file):
    """The digits of the function in a C file, as bin/policy compiles it; whether it is accepted the process says."""
    with tempfile.TemporaryDirectory() as room:
        made = object_of(file, room)
        functions = re.findall(r" F \.text\s.*?(\S+)$", made_by(["llvm-objdump", "-t", made]).decode(errors="replace"), re.M)
        if len(functions) > 1:
            raise Failed(1, f"{file}: more than one function in the section .text ({', '.join(functions)}), and the first would run: make static what the policy calls")
        made_by(["llvm-objcopy", "-O", "binary", "--only-section=.text", made, f"{room}/policy.bin"])
        with open(f"{room}/policy.bin", "rb") as bytes_of:
            digits = bytes_of.read(4097).hex()
    if not digits:
        raise Failed(1, f"{file}: no function in the section .text")
    return digits


def line_of(file, slot):
    """The line of C that a slot of the program comes from, as compilers show one; nothing where that isn't known."""
    try:
        with tempfile.TemporaryDirectory() as room:
            told = made_by(["llvm-addr2line", "-e", object_of(file, room), f"{8 * slot:#x}"]).decode(errors="replace")
        place = re.match(r"(.+):([1-9][0-9]*)\b", told)
        if not place:
            return ""
        with open(place[1], encoding="utf-8", errors="replace") as source:
            text = source.read().split("\n")[int(place[2]) - 1].strip()
        return f"\n{file if os.path.samefile(file, place[1]) else place[1]}:{place[2]}: {text}"
    except (Failed, OSError, IndexError):
        return ""


@contextlib.contextmanager
def with_line(file):
    """What a process refuses is told with the line of C, where the policy comes from there."""
    try:
        yield
    except Failed as failed:
        if failed.slot is None or not file.endswith(".c"):
            raise
        raise Failed(failed.status, f"{failed}{line_of(file, failed.slot)}", failed.slot) from None


def assemblers():
    """The programs that read assembly, where they are built."""
    return [f"{TOP}/crates/{it}/out/{it}" for it in ("syncord", "syncord_single")]


def digits_of(file, profile):
    """The digits of a program in a file."""
    try:
        with open(file, "rb") as at:
            text = at.read(1 << 20)
    except OSError as error:
        raise Failed(3, f"{file}: {error.strerror}") from None
    if file.endswith(".c"):
        return compiled(file)
    if file.endswith(".asm"):
        built = next((it for it in assemblers() if os.access(it, os.X_OK)), None)
        if not built:
            raise Failed(70, "assembly is read by bin/shfl of the sources, where bin/build-program syncord_single has been run; or give what bin/syncord asm makes of it")
        # (a line for each slot)
        return "".join(made_by([built, "asm"] + (["2"] if profile == "2" else []), input=text).decode().split())
    digits = re.sub(rb"\s", b"", text).decode("ascii", "replace").lower()
    if not re.fullmatch(r"([0-9a-f]{2})*", digits):
        raise Failed(1, f"{file}: no digits of a program")
    return digits


def programs_of(file, hook, profile):
    """As `attach` has them: the profile, the digits of should and those of skip."""
    digits = digits_of(file, profile)
    if not digits:
        # (which in a request stands for no program)
        raise Failed(6, refusal(["refused", "1", hook, "0", "0"]))
    if len(digits) > 8192:
        # (of a longer one the process takes no more: it has the same fault)
        digits = digits[:8192 + (len(digits) % 16 or 16)]
    return (profile, "-", digits) if hook == "skip" else (profile, digits, "-")


def attach(pid, to, file, hook, profile):
    with with_line(file):
        return ask(pid, "attach", to, *programs_of(file, hook, profile))[0].split()[1]


def policy_of(pid, to):
    """What the class has now, to be attached again: both programs are `-` where it has none."""
    return tuple(ask(pid, "policy", to)[0].split()[1:])


def version_of(pid, to):
    return next((it["version"] for it in classes_of(pid) if it["class"] == int(to)), 0)


def words_of_policy(words, usage, anywhere=False):
    """The hook and the profile among the words, and the other words. The hook is the last one, or the fourth before other options."""
    profile, words = "1", list(words)
    if "--profile" in words:
        k = words.index("--profile")
        profile = words[k + 1] if k + 1 < len(words) else ""
        del words[k:k + 2]
    place = 3 if anywhere else len(words) - 1
    hook = words.pop(place) if len(words) > 3 and words[place] in ("should", "skip") else "should"
    if profile not in ("1", "2"):
        raise Failed(2, usage)
    return words, hook, profile


def drained(pid, to, seconds=2):
    """Whether no round is answered by an older version any more."""
    until = time.monotonic() + seconds
    while time.monotonic() < until:
        if any(it["class"] == int(to) and it["drained"] for it in classes_of(pid)):
            return "drained"
        time.sleep(0.01)
    return "not drained yet"
