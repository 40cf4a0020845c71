"""Each fault of the verifier, by the programs that docs/ERRORS.md has: bin/shfl says it in that page's words, and the program goes on by the
policy that it had. Of policies in C the line is told besides: faults.py PROGRAM."""
import os, re, shutil, subprocess, sys, tempfile
from target import TOP, must, shfl, until, with_target
from shfl_process import FAULTS

# by the fault: a policy in C, of which the verifier refuses the marked line
IN_C = {
    4: """struct its { unsigned long at[5]; };
unsigned long policy(struct its *it)
{
    if (it->at[0] == 7)
        it->at[1] = 3; /* refused */
    return 1;
}
""",
    8: """struct its { unsigned long at[5]; };
unsigned long policy(const struct its *it)
{
    unsigned long sum = 0;
    for (unsigned long k = 0; k < it->at[0]; k++) /* refused */
        sum = sum * it->at[1] + k;
    return sum & 1;
}
""",
    11: """struct its { unsigned long at[5]; };
unsigned long policy(const struct its *it)
{
    unsigned long first = it->at[0];
    if (it->at[1] == 3)
        return first + (unsigned long)it; /* refused */
    return 1;
}
""",
    12: """struct its { unsigned long at[6]; };
static inline unsigned long far(const struct its *it)
{
    return it->at[5]; /* refused */
}
unsigned long policy(const struct its *it)
{
    unsigned long near = it->at[0];
    return near == far(it);
}
"""}


def page():
    """Of the page's section on programs: the words of each fault, and its smallest program with what `verify` says of it."""
    with open(f"{TOP}/docs/ERRORS.md", encoding="utf-8") as file:
        text = file.read().split("\n## Programs\n")[1].split("\n## ")[0]
    words = {}
    for bold in re.findall(r"\*\*(.*?)\*\*", text, re.S):
        for number, said in re.findall(r"(\d+): (.*?)\.(?= \d+: |$)", bold.replace("\n", " ")):
            words[int(number)] = said
    programs = {}
    for command, said in re.findall(r"^    \$ (printf .*) \| bin/syncord verify\n    syncord: (refused .*)$", text, re.M):
        digits = subprocess.run(["bash", "-c", command], capture_output=True, check=True, text=True).stdout
        programs[int(said.split()[1])] = (digits, said)
    return words, programs


def refused(target, fault, words, digits, said):
    """By the tool; for `should` and for `skip`."""
    file = f"{target.apart}/policy.hex"
    with open(file, "w", encoding="ascii") as at:
        at.write(digits)
    for hook in ("should", "skip"):
        wanted = f"shfl: the program {hook} is {said}: {words}\n"
        told = shfl("attach", str(target.pid), "0", file, hook)
        must(told == (6, wanted), f"fault {fault}: {told[0]} {told[1]}not {wanted}")
    os.unlink(file)


def each_fault(target):
    words, programs = page()
    must(sorted(words) == sorted(programs) == list(range(1, 13)), f"docs/ERRORS.md has the faults {sorted(words)} {sorted(programs)}")
    must(words == FAULTS, "the tool's words aren't those of docs/ERRORS.md")
    must(shfl("attach", str(target.pid), "0", f"{TOP}/examples/policies/socket.hex")[0] == 0, "no policy")
    before = target.versions()
    for fault in range(1, 13):
        asked = target.counts(b"shfl 1 classes\n", "questions")
        refused(target, fault, words[fault], *programs[fault])
        must(target.versions() == before, f"fault {fault}: the policy is another one")
        until(lambda: target.counts(b"shfl 1 classes\n", "questions") > asked, f"fault {fault}: the policy isn't asked any more")


def lines_of_c(target):
    """The line that is refused is told by attach and compare; not where nobody knows it."""
    if not shutil.which("clang") or not all(map(shutil.which, ("llvm-objcopy", "llvm-objdump"))):
        return print("tests/tool.sh: there is no clang, llvm-objcopy or llvm-objdump, so no policy in C was tried")
    pid, usual = str(target.pid), os.environ["PATH"]
    with tempfile.TemporaryDirectory() as room:
        file = f"{room}/policy.c"
        for fault, text in IN_C.items():
            with open(file, "w", encoding="ascii") as at:
                at.write(text)
            number, line = next((k, it.strip()) for k, it in enumerate(text.split("\n"), 1) if "/* refused */" in it)
            first = rf"shfl: the program should is refused {fault} at slot \d+( register \d)?: {re.escape(FAULTS[fault])}\n"
            wanted = first + re.escape(f"{file}:{number}: {line}\n")
            told = shfl("attach", pid, "0", file)
            must(told[0] == 6 and re.fullmatch(wanted, told[1]), f"fault {fault} in C: {told}")
        told = shfl("compare", pid, "0", file, "--seconds", "0.01")
        must(told[0] == 6 and re.fullmatch(wanted, told[1]), f"compared: {told}")
        with open(f"{room}/two.c", "w", encoding="ascii") as at:
            at.write("unsigned long other(const void *c) { return 1; }\nunsigned long policy(const void *c) { return 0; }\n")
        told = shfl("attach", pid, "0", f"{room}/two.c")
        must(told[0] == 1 and "more than one function" in told[1], f"two functions: {told}")
        for it in ("clang", "llvm-objcopy", "llvm-objdump"):
            os.symlink(shutil.which(it), f"{room}/{it}")
        os.environ["PATH"] = room
        told = shfl("attach", pid, "0", file)
        os.environ["PATH"] = usual
        must(told[0] == 6 and re.fullmatch(first, told[1]), f"without llvm-addr2line: {told}")


holds = with_target(sys.argv[1], 4, [each_fault, lines_of_c])[0]
print(f"12 faults, each refused in docs/ERRORS.md's words, and exact counts of {holds} holds")
