"""How a command of these tools ends: with its status, and without a word if nobody reads what it prints."""
import os
import sys


def run(name, main):
    """Runs a command with the words behind its name, and ends with its status; with 4 if standard output fails or isn't read to its end."""
    try:
        status = main(sys.argv[1:])
        if sys.stdout:
            sys.stdout.flush()
    except OSError as fault:
        if not isinstance(fault, BrokenPipeError):
            print(f"{name}: standard output: {fault.strerror}", file=sys.stderr)
        os.dup2(os.open(os.devnull, os.O_WRONLY), 1)
        status = 4
    sys.exit(status)
