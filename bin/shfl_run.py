"""Starts a program that can be asked."""
import os, re, signal, subprocess, sys, time

import shfl_help
from shfl_locks import none_meant, put
from shfl_policy import TOP, attach
from shfl_process import Failed, ask, class_of, directory, sweep, sweep_one


def preload():
    """The library that stands in for libc's locks, where there is one."""
    told = os.environ.get("SHFL_PRELOAD", "")
    # (where it is installed it stands in lib/shfl)
    for it in ([told] if told else [f"{TOP}/../libshfl_preload.so", f"{TOP}/../lib/libshfl_preload.so", "/usr/local/lib/libshfl_preload.so", "/usr/lib/libshfl_preload.so"]):
        if os.path.isfile(it):
            return preloadable(os.path.realpath(it))
    return None


def preloadable(place):
    """(The loader parts the names in LD_PRELOAD at blanks and colons.)"""
    if re.search(r"[ :]", place):
        raise Failed(3, f"{place} can't be preloaded: a blank or a colon in its name")
    return place


def set_up(child, wishes):
    """Does what was wished as soon as the process can be asked; says what didn't come to be."""
    until = time.monotonic() + 10
    while wishes and time.monotonic() < until and child.poll() is None:
        try:
            ask(child.pid, "hello")
        except Failed:
            time.sleep(0.02)
            continue
        left = []
        for option, to, value in wishes:
            # (a lock has an address from its first use on)
            if option == "--policy":
                attach(child.pid, to, value, "should", "1")
            elif put(child.pid, value, to) == 0:
                left.append((option, to, value))
        wishes = left
        time.sleep(0.05)
    for option, to, value in wishes:
        print(f"shfl: {option} {to}={value}: {not_done(child, option, value)}", file=sys.stderr)


def not_done(child, option, value):
    """Why a wish didn't come to be."""
    if child.poll() is not None:
        return "not done: the program ended before"
    try:
        return "not done in 10 seconds" + (f": {none_meant(child.pid, value)}" if option == "--class" else "")
    except Failed as failed:
        return f"not done in 10 seconds: {failed}"


def form_of(word):
    if word not in ("rw", "rw-park"):
        raise Failed(2, f"{word} is no form that readers can share: rw or rw-park")
    return word


def limit_of(word):
    if not re.fullmatch(r"[1-9][0-9]{0,3}", word) or int(word) > 1024:
        raise Failed(2, f"{word} is no limit of a batch: 1 to 1024")
    return word


def wish_of(option, text):
    """A class or a policy that is to come to be, as set_up does it."""
    form = "CLASS=SELECTOR" if option == "--class" else "CLASS=FILE"
    to, _, value = text.partition("=")
    if not value:
        raise Failed(2, f"{option} {form}")
    try:
        class_of(to)
    except Failed as failed:
        raise Failed(2, f"{option} {form}: {failed}") from None
    if option == "--policy":
        try:
            os.stat(value)
        except OSError as error:
            raise Failed(3, f"{value}: {error.strerror}") from None
    return option, to, value


def options_of(words):
    """What stands before the program: the wishes, and what the environment says to the library; and the program's own words."""
    wishes, env = [], {}
    while words and words[0].startswith("-"):
        option, text = (words + [None])[:2]
        if option not in ("--form", "--limit", "--class", "--policy") or text is None:
            raise Failed(2, f"{option} is no option here, or has no value")
        if option == "--form":
            env["SHFL_FORM"] = form_of(text)
        elif option == "--limit":
            env["SHFL_LIMIT"] = limit_of(text)
        else:
            wishes.append(wish_of(option, text))
        words = words[2:]
    if not words:
        raise Failed(2, shfl_help.usage("run"))
    return wishes, env, words


def do_run(words):
    wishes, more, words = options_of(words)
    room, env = directory(), {**os.environ, **more}
    os.makedirs(room, 0o700, exist_ok=True)
    # (the program may go to another directory)
    env["SHFL_CONTROL"] = os.path.abspath(room)
    library = preload()
    if library:
        env["LD_PRELOAD"] = " ".join(filter(None, (library, env.get("LD_PRELOAD"))))
    try:
        # (what is open here is the program's, as without this)
        child = subprocess.Popen(words, env=env, close_fds=False)
    except OSError as error:
        raise Failed(3, f"{words[0]}: {error.strerror}") from None
    # (the program gets the terminal's signals itself, and its end is this one's; what is sent to this one is meant for it)
    signal.signal(signal.SIGINT, signal.SIG_IGN)
    for it in (signal.SIGTERM, signal.SIGHUP, signal.SIGUSR1, signal.SIGUSR2):
        if signal.getsignal(it) != signal.SIG_IGN:
            signal.signal(it, lambda number, _: child.send_signal(number))
    try:
        set_up(child, wishes)
    except Failed as failed:
        print(f"shfl: {failed}", file=sys.stderr)
    status = child.wait()
    # (it was killed)
    sweep_one(f"{room}/shfl-{child.pid}")
    sweep()
    return status if status >= 0 else 128 - status
