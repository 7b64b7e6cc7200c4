"""What the tools share.

Every tool is run from the repository's root, the folder that has crates.txt."""
import os
import signal
import sys

signal.signal(signal.SIGPIPE, signal.SIG_DFL)               # `tools/edits --fits | head` ends without a word


def stop(message):
    """Say what is wrong and end, with status 2."""
    print(message, file=sys.stderr)
    sys.exit(2)


def at_root(crate=None):
    """See that this is the repository's root and that it has the crate."""
    if not os.path.exists("crates.txt"):
        stop("run this from the repository's root: there is no crates.txt here")
    if crate and not os.path.isdir(f"crates/{crate}"):
        stop(f"there is no crate crates/{crate}")


def content(path):
    """What a file holds; nothing where there is none."""
    if not os.path.exists(path):
        return None
    with open(path) as file:
        return file.read()


def write(path, text):
    """Write a file, with its folder."""
    os.makedirs(os.path.dirname(path), exist_ok=True)
    with open(path, "w") as file:
        file.write(text)
