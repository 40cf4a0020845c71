"""functions.py FILE..: of the C files of libshfl, each function has fewer than 40 lines, and the comment at the head of each file that has a function says
what of it is proved, or that nothing is. Status 1: not so, and the lines say where."""
import re
import sys

MOST = 40
# a function's first line stands at the margin and opens its body, which a brace at the margin closes
FIRST = re.compile(r"^(?!(?:struct|union|enum|typedef)\b[^()]*\{$)[A-Za-z_][^;=]*\)\s*\{$")


def functions_of(lines):
    """The first line and the length of each function."""
    begun = None
    for number, line in enumerate(lines, 1):
        if FIRST.match(line):
            begun = number
        elif line.startswith("}") and begun:
            yield begun, number - begun + 1
            begun = None


def faults_of(path):
    with open(path, encoding="utf-8") as file:
        text = file.read()
    lines = text.splitlines()
    found = [*functions_of(lines)]
    for first, length in found:
        if length >= MOST:
            yield f"{path}:{first}: a function of {length} lines"
    head = re.match(r"/\*.*?\*/", text, re.S)
    in_one_line = any(re.match(r"^[a-z][^;=]*\)\s*\{.*\}$", line) for line in lines)
    if (found or in_one_line) and not (head and re.search(r"prove|proof", head[0], re.I)):
        yield f"{path}: the comment at its head doesn't say what is proved"


def main():
    if not sys.argv[1:]:
        sys.exit(__doc__)
    faults = [fault for path in sys.argv[1:] for fault in faults_of(path)]
    print(*faults, sep="\n", end="\n" if faults else "")
    sys.exit(bool(faults))


main()
