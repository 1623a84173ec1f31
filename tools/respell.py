#!/usr/bin/env python3
"""Respells the repository's own definitions: `mostStations` becomes `most_stations`, and a field or constructor `sets-long` `sets_long`. Run
at the top, after the port's script.

Goes over .antt and .rt files and the must-fail edits, outside string literals, and over what stands between backquotes in README and docs.
Names of src/ are in this spelling already, and texts, inputs and outputs are left alone. A name that falls together with another one
of its file stops the run before anything is written.
"""
import pathlib
import re
import subprocess
import sys

CAMEL = re.compile(r"(?<![A-Za-z0-9_'])[a-z][a-z0-9]*(?:[A-Z][a-z0-9]*)+(?![A-Za-z0-9])")
STRING = re.compile(r'"(?:[^"\\\n]|\\.)*"')
# A name that is no part of a path: the paths of src/'s functions are modules, and share no names with definitions.
WORD = re.compile(r"(?<![A-Za-z0-9_'.-])[A-Za-z][A-Za-z0-9_'-]*(?![A-Za-z0-9_'.-])")


def snake(name):
    return re.sub(r"[A-Z]", lambda m: "_" + m.group(0).lower(), name).replace("-", "_")


def members(text):
    """The fields and constructors of the text's records and data types whose names have a dash."""
    out, depth = set(), None
    for line in text.split("\n"):
        if not line.strip():
            continue
        indent = len(line) - len(line.lstrip())
        if depth is not None and indent <= depth:
            depth = None
        if re.match(r"\s*(?:pub )?(?:record|data) .* where$", line):
            depth = indent
        elif depth is not None:
            found = re.match(r"\s+(?:pub )?([a-z][A-Za-z0-9_']*(?:-[A-Za-z0-9_']+)+) :", line)
            out |= {found.group(1)} if found else set()
    return out


def respelled(text):
    return DASHED.sub(lambda m: snake(m.group(0)), CAMEL.sub(lambda m: snake(m.group(0)), text))


def outside(pattern, text, change):
    """The text with `change` made of each piece that `pattern` does not match."""
    out, at = [], 0
    for found in pattern.finditer(text):
        out += [change(text[at : found.start()]), found.group(0)]
        at = found.end()
    return "".join(out + [change(text[at:])])


def quoted(text):
    return re.sub(r"`[^`\n]+`", lambda m: respelled(m.group(0)), text)


def fallen(text):
    """Two names of the text that would become one."""
    code = STRING.sub("", re.sub(r"(--|//).*", "", text))
    old = set(WORD.findall(code))
    return sorted(name for name in old if respelled(name) != name and respelled(name) in old)


files = subprocess.run(["git", "ls-files"], capture_output=True, text=True, check=True).stdout.split()
dashed = {respelt for name in files if name.endswith(".antt") for respelt in members(pathlib.Path(name).read_text())}
DASHED = re.compile(r"(?<![A-Za-z0-9_'-])(?:" + "|".join(sorted(map(re.escape, dashed), key=len, reverse=True) or ["(?!)"]) + r")(?![A-Za-z0-9_'-])")
changed, met = {}, []
for name in files:
    path = pathlib.Path(name)
    if name.startswith("crates/") and path.suffix in (".antt", ".rt", ".edit"):
        text = path.read_text()
        met += [f"{name}: {word}" for word in fallen(text)] if path.suffix == ".antt" else []
        changed[path] = outside(STRING, text, respelled)
    elif path.suffix == ".md":
        changed[path] = quoted(path.read_text())
if met:
    sys.exit("falls together:\n" + "\n".join(met))
for path, text in changed.items():
    path.write_text(text)
