"""The program that a benchmark runs, without the launcher, whose own time would count."""
import os
import re
import resource
import subprocess
import sys

LAUNCHER = os.path.join(os.path.dirname(os.path.dirname(os.path.abspath(__file__))), "orc")


def program_of(words):
    """Returns the path of the program that the first of these words names, if there is one, else of the one that the launcher runs,
    which is asked for it. What is run from here on has the settings that the launcher gives a program."""
    take_settings()
    if words:
        return os.path.abspath(words[0])
    asked = subprocess.run([LAUNCHER, "which"], stdin=subprocess.DEVNULL, stdout=subprocess.PIPE, text=True, check=False)
    if asked.returncode != 0:
        # (the launcher has said why)
        sys.exit(asked.returncode)
    return asked.stdout.removesuffix("\n")


def take_settings():
    """Sets what the launcher sets, as it stands there: the C library's settings, where the caller set none, and the stack's size."""
    with open(LAUNCHER, encoding="utf-8") as file:
        text = file.read()
    os.environ.setdefault("GLIBC_TUNABLES", re.search(r"GLIBC_TUNABLES:-([^}]+)", text)[1])
    size = int(re.search(r"ulimit -S -s (\d+)", text)[1]) * 1_024
    hard = resource.getrlimit(resource.RLIMIT_STACK)[1]
    if hard == resource.RLIM_INFINITY or size <= hard:
        resource.setrlimit(resource.RLIMIT_STACK, (size, hard))
