"""The texts of this repository, as tools/dev/try-facts and its parts read them."""
import glob
import os
import re

TOP = os.path.dirname(os.path.dirname(os.path.dirname(os.path.realpath(__file__))))
PAGES = ["README.md", "crates/README.md", "tools/README.md", *sorted(glob.glob("docs/*.md", root_dir=TOP))]


def text_of(path):
    with open(f"{TOP}/{path}", encoding="utf-8") as file:
        return file.read()


def files(folder, ending):
    found = glob.glob(f"{folder}/**/*{ending}", root_dir=TOP, recursive=True)
    return sorted(it for it in found if "/out/" not in it)


def edges():
    """The libraries that each crate uses, by crates.txt."""
    rows = (it.partition("#")[0].strip() for it in text_of("crates.txt").splitlines())
    return {it.partition(":")[0].split()[0]: it.partition(":")[2].split() for it in rows if it}


def crates():
    return [*edges()]


def named(cell):
    return re.findall(r"`([^`]+)`", cell)
