#!/usr/bin/env python3
"""Writes the files of viewer/ as constants of hub_page, which puts them into pages.

    embed_viewer.py [--check]

With --check nothing is written, and the status is 1 where a constant is not what its file says.
"""
import pathlib
import sys

ROOT = pathlib.Path(__file__).resolve().parent.parent
SOURCES = ROOT / "crates" / "hub_page" / "src" / "viewer"
FILES = ["head.html", "style.css", "body.html", "story.html", "scripts.html", "data.js", "view.js", "paint.js", "panel.js",
         "main.js", "end.html"]


MOST = 9000  # so many bytes a constant has at most: the prover takes no longer ones
WIDTH = 100  # so wide lines of sources are
NAMES = ["FIRST", "SECOND"]


def literal(text):
    return text.replace("\\", "\\\\").replace('"', '\\"')


def parts_of(text):
    """As many whole lines as a constant has room for, again and again."""
    parts = [""]
    for line in text.splitlines(keepends=True):
        if len(parts[-1]) + len(line) > MOST:
            parts.append("")
        parts[-1] += line
    return parts


def constant(begin, value):
    """As `rt fmt` lays it out."""
    return begin + (" " if len(begin) + 1 + value.index("\n") <= WIDTH else "\n    ") + value


def source_of(name):
    parts = parts_of((ROOT / "viewer" / name).read_text(encoding="ascii"))
    names = ["TEXT"] if len(parts) == 1 else NAMES[: len(parts)]
    assert len(names) == len(parts), f"{name} is too long"
    constants = (constant(f"pub(super) const {const}: &str =", f'"{literal(part)}";\n') for const, part in zip(names, parts))
    return f"//! `viewer/{name}`, as `tools/embed_viewer.py` writes it.\n\n" + "\n".join(constants)


def main():
    if sys.argv[1:] not in ([], ["--check"]):
        sys.exit(__doc__.split("\n\n")[1])
    wrong = 0
    for name in FILES:
        path, source = SOURCES / (name.split(".")[0] + ".rt"), source_of(name)
        if not sys.argv[1:]:
            path.write_text(source)
        elif not path.exists() or path.read_text() != source:
            wrong += 1
            print(f"{path.relative_to(ROOT)} is not viewer/{name}: run tools/embed_viewer.py")
    return min(wrong, 1)


if __name__ == "__main__":
    sys.exit(main())
