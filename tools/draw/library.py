"""The Python library that makes the SVG elements, `svgwrite`, where it is there."""
import os
import subprocess
import sys

# Debian's package is for Debian's own Python, which may not be the first on the PATH.
DEBIAN = "/usr/bin/python3"
# The version that the pictures of the documents were made with; another one may write other bytes.
USED = "1.4.3"
MISSING = "the Python library svgwrite isn't here: apt-get install python3-svgwrite (Debian), or pip install svgwrite"


def is_here():
    """Whether this Python has the library, or Debian's has."""
    try:
        import svgwrite  # noqa: F401
        return True
    except ImportError:
        return debian_has_it()


def debian_has_it():
    if not os.access(DEBIAN, os.X_OK) or os.path.realpath(sys.executable) == os.path.realpath(DEBIAN):
        return False
    return subprocess.run([DEBIAN, "-c", "import svgwrite"], stderr=subprocess.DEVNULL).returncode == 0


def need(tool):
    """Returns where the library is there; else runs the script anew by Debian's Python, or ends with status 1."""
    try:
        import svgwrite  # noqa: F401
    except ImportError:
        if debian_has_it():
            os.execv(DEBIAN, [DEBIAN, *sys.argv])
        sys.exit(f"{tool}: {MISSING}")
