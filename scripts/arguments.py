"""For the scripts beside it: `--help` prints what a script says of itself, with status 0; wrong arguments end a script with one line
on standard error and status 2."""
import os, signal, sys

# a reader that wants no more ends a script, as it ends other commands
signal.signal(signal.SIGPIPE, signal.SIG_DFL)
SCRIPT = os.path.basename(sys.argv[0])


def refuse(why):
    print(f"{SCRIPT}: {why}; {SCRIPT} --help tells more", file=sys.stderr)
    sys.exit(2)


def arguments(text):
    """The arguments of a script that says this of itself."""
    if sys.argv[1:2] == ["--help"]:
        print(text.strip())
        sys.exit(0)
    return sys.argv[1:]


def number(text, least, most):
    """The number of some decimal digits."""
    if not (text.isascii() and text.isdigit() and len(text) <= 10 and least <= int(text) <= most):
        refuse(f"{text!r} is no number from {least} to {most}")
    return int(text)
