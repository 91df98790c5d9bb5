"""The moment that the pages and the package tell: that of the last commit, or the one that SOURCE_DATE_EPOCH names, so that the same
sources make the same files."""

import os
import subprocess
import time


def moment(top):
    """In seconds since 1970."""
    named = os.environ.get("SOURCE_DATE_EPOCH", "")
    if named.isdecimal():
        return int(named)
    try:
        ran = subprocess.run(["git", "-C", top, "log", "-1", "--format=%ct"], check=True, capture_output=True, text=True)
        return int(ran.stdout)
    except (OSError, ValueError, subprocess.CalledProcessError):
        return int(time.time())


def day(seconds):
    return time.strftime("%Y-%m-%d", time.gmtime(seconds))
