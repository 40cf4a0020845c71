"""What bin/shfl says of its words."""

FRONT = """Shows the locks of programs that use libshfl, and changes the order of waiting
there (docs/OPERATING.md).
"""
PLACE = """The sockets are in the directory that SHFL_CONTROL names, in
XDG_RUNTIME_DIR/shfl, or in /tmp/shfl-UID. `shfl WORD --help` tells more."""
STATUS = """Status: 0 done; 1 the process refuses the request, or no lock is meant; 2 the
words; 3 the process can't be asked, or a file not be read; 4 a write failed;
5 memory ran out; 6 the policy is refused; 69, 70 it could not be compiled."""
SELECTOR = """A SELECTOR is a symbol, an address (0x..), a file as it is mapped (libc.so.6, or
heap), `by FUNCTION` for the call that found the lock taken first, or all."""
FILE = """FILE has digits, assembly (.asm) or C (.c). The question is should where it
isn't skip; the profile is 1."""

# the usage, what it does in a line, and what is to know
WORDS = {
    "run": ("run [--form F] [--limit N] [--class CLASS=SELECTOR]..\n             [--policy CLASS=FILE].. PROGRAM ARGS..", "starts a program that can be asked",
            """The program runs under libshfl_preload.so where that is found: what SHFL_PRELOAD
names, or in ../lib, /usr/local/lib or /usr/lib. Classes and policies come to be
as soon as the locks are there, in 10 seconds at most. The status is the
program's. F is rw, or rw-park, in which waiters make a few steps more. N is the
most waiters that a policy brings together, 1 to 1024; with 1 it moves nobody.

""" + SELECTOR),
    "list": ("list", "this user's processes that can be asked", ""),
    "stat": ("stat PID [--json]", "the locks by waiting, and the classes",
            """taken: how often a call came to hold the lock. found: how often one found it
taken, tries in vain too. mean, p99 and longest are of the calls that waited; 99
of 100 were no longer than p99, which is a power of two or the longest. within
and across: hand-overs to another thread, of the same socket and of another.
asked, yes: the questions to the policy. A lock without a symbol is shown by the
call that found it taken first. --json has all."""),
    "top": ("top PID [SECONDS]", "the same of the last second, or SECONDS, over and over",
            """The longest wait is the one since the lock's first use."""),
    "classes": ("classes PID", "the classes and their policies", ""),
    "class": ("class PID SELECTOR CLASS", "puts locks into a class, 0 to 63", SELECTOR),
    "attach": ("attach PID CLASS FILE [skip] [--profile 2]", "a policy from now on", FILE + """
The program is verified in the process; where it is refused nothing changes."""),
    "detach": ("detach PID CLASS", "no policy from now on", ""),
    "record": ("record PID SELECTOR SECONDS [-o FILE] [--svg FILE] [--most N]", "what happens at one lock, in order",
            """Writes each hold, wait and question to the policy as a text (docs/OPERATING.md),
and a picture of its beginning. Of several locks that are meant it is the one
waited for longest. The text ends after N events, 200,000 where nothing is said.
While it is recorded the lock is slower. Where events are missing, it says so.

""" + SELECTOR),
    "compare": ("compare PID CLASS FILE [skip] [--profile 2] [--seconds N] [--rounds R]\n             [--json] [--html FILE]",
                "a class without the policy and with it, in turns",
            """Off, on, off, on: N seconds each (5), R times (2). Tells the holds a second and
the waits of each, and says `no difference seen` of what overlaps. At the end
the class has the policy that it had before. --html writes a page.

""" + FILE),
}


def whole():
    rows = [FRONT]
    for usage, what, _ in WORDS.values():
        rows += [f"    shfl {usage}", f"        {what}"]
    return "\n".join(rows + ["", PLACE, STATUS])


def of(word):
    usage, what, more = WORDS[word]
    return f"shfl {usage}\n\n{what[0].upper()}{what[1:]}.\n" + (f"\n{more}\n" if more else "") + f"\n{STATUS}"


def usage(word):
    return " ".join(WORDS[word][0].split())
