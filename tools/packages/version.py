"""What the packages say of themselves: the number of release/VERSION, the commit, and its time, which is that of every file in them."""
import os
import subprocess
import sys

NAME = "onfiseq"
SAID = "A proved checker, verifier and sequencer for the channels of NAND flash"


def number():
    """The number of the release."""
    with open("release/VERSION") as it:
        return it.read().strip()


def git(*words):
    return subprocess.run(["git", *words], check=True, stdout=subprocess.PIPE, stderr=subprocess.DEVNULL, text=True).stdout.strip()


def commit():
    """The commit, with -dirty where a file isn't as that has it; unknown outside of a repository."""
    try:
        return git("rev-parse", "HEAD") + ("-dirty" if git("status", "--porcelain", "--untracked-files=no") else "")
    except (OSError, subprocess.CalledProcessError):
        return "unknown"


# The first day of 1980, before which ZIP has no times.
FIRST_DAY = 315532800


def time():
    """The seconds that SOURCE_DATE_EPOCH names, else those of the commit; the first day of 1980 outside of a repository."""
    try:
        return max(FIRST_DAY, int(os.environ.get("SOURCE_DATE_EPOCH") or git("log", "-1", "--format=%ct")))
    except ValueError:
        sys.exit("SOURCE_DATE_EPOCH is a number of seconds, and not `%s`" % os.environ["SOURCE_DATE_EPOCH"])
    except (OSError, subprocess.CalledProcessError):
        return FIRST_DAY
