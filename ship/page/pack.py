#!/usr/bin/env python3
"""Puts the page together: one file with the program, the examples, the styles and the scripts in it.

    ship/page/pack.py MODULE OUT MADE

MODULE is the program for the browser, and MADE the line that says what it was made of. The module may import nothing.
"""
import base64
import gzip
import hashlib
import json
import pathlib
import re
import sys

HERE = pathlib.Path(__file__).resolve().parent
TOP = HERE.parent.parent
IMPORT, EXPORT = 2, 7
WANTED = {"memory", "circ_page", "page_room"}


def number_at(module, at):
    """A number in LEB128, and the place behind it."""
    value = shift = 0
    while True:
        byte = module[at]
        value |= (byte & 127) << shift
        at, shift = at + 1, shift + 7
        if byte < 128:
            return value, at


def sections(module):
    """The kind and the bytes of each section of a module."""
    at = 8
    while at < len(module):
        kind = module[at]
        size, at = number_at(module, at + 1)
        yield kind, module[at:at + size]
        at += size


def exported(section):
    """The names of an export section."""
    count, at = number_at(section, 0)
    for _ in range(count):
        size, at = number_at(section, at)
        yield section[at:at + size].decode()
        _, at = number_at(section, at + size + 1)


def look_at(module):
    """Ends with a message unless the module imports nothing and exports what the page calls."""
    found = dict(sections(module))
    if IMPORT in found:
        sys.exit("the module imports something")
    missing = WANTED - set(exported(found.get(EXPORT, b"\0")))
    if missing:
        sys.exit(f"the module does not export {', '.join(sorted(missing))}")


def examples():
    """The examples of examples.txt, in order, as the script of the page has them."""
    lines = (HERE / "examples.txt").read_text().splitlines()
    rows = [line.split(" | ") for line in lines if line and not line.startswith("#")]
    texts = {
        title: {"theory": (TOP / theory).read_text(), "goals": (TOP / goals).read_text()}
        for title, theory, goals in rows
    }
    return json.dumps(texts, ensure_ascii=False).replace("<", "\\u003c")


def policy(script, style):
    """What the page may do: run its own script and its own worker, and ask no network for anything."""
    def source(text):
        return "'sha256-" + base64.b64encode(hashlib.sha256(("\n" + text).encode()).digest()).decode() + "'"
    return (f"default-src 'none'; script-src {source(script)} 'wasm-unsafe-eval' blob:; worker-src blob:; "
            f"style-src {source(style)}; img-src data:; base-uri 'none'; form-action 'none'")


def main():
    module, out, made = sys.argv[1:]
    program = pathlib.Path(module).read_bytes()
    look_at(program)
    script, style, worker = ((HERE / name).read_text() for name in ("page.js", "page.css", "worker.js"))
    parts = {
        "POLICY": policy(script, style),
        "STYLE": style,
        "SCRIPT": script,
        "WORKER": worker,
        "EXAMPLES": examples(),
        "PROGRAM": base64.b64encode(gzip.compress(program, 9, mtime=0)).decode(),
        "MADE": made,
    }
    page = re.sub("@([A-Z]+)@", lambda found: parts[found[1]], (HERE / "page.html").read_text())
    pathlib.Path(out).write_text(page)


if __name__ == "__main__":
    main()
