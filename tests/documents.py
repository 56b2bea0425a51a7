#!/usr/bin/env python3
"""Checks that the documents say of this repository's files what is so.

    tests/documents.py            # a second or two; status 1 where a check finds a fault
    tests/documents.py --write    # draws the graph of docs/CRATES.md anew from crates.txt, and then checks

It checks that the graph of crates is that of crates.txt, without the edges that others imply, and that each crate
stands in one layer of docs/ARCHITECTURE.md, above those that it stands on; that the sample fare files are the same text
everywhere, in the examples, in the sources and for the stored session, and that the one differs from the other in its
caps alone; that relative links lead to a file, and to a heading of it where they name one; that the files, crates,
calls and other names of the repository that the documents give in backticks are there; that the toolchain that they
name is the one that is here, by its logic; that the texts that the wrong bodies of crates/NAME/refused and
crates/NAME/planted change stand once; and that no theme of tests/program.py imports another, as CONTRIBUTING says. It
needs Python 3.8 or later, and the command rt in PATH.
"""

import argparse
import functools
import glob
import itertools
import os
import re
import shutil
import subprocess
import sys

# Nothing is kept beside the sources.
sys.dont_write_bytecode = True
from support.repository import ROOT

ARCHITECTURE = "docs/ARCHITECTURE.md"
GRAPH = "docs/CRATES.md"
BEGIN, END = "<!-- The graph is drawn by tests/documents.py --write. -->", "<!-- The end of the graph. -->"
DOCUMENTS = [
    *("README.md", "SECURITY.md", "CHANGELOG.md", "CONTRIBUTING.md", "examples/README.md", "bench/README.md"),
    *sorted(f"docs/{name}" for name in os.listdir(f"{ROOT}/docs") if name.endswith(".md")),
]

# The names of the tables whose calls are looked up in the sources.
CALLS = {"docs/PROVED.md": "Call", ARCHITECTURE: "Kept by"}
# The documents that say by which toolchain the repository is proved.
NAMES_TOOLCHAIN = ["README.md", "docs/PROVED.md"]


def read(path):
    with open(f"{ROOT}/{path}", encoding="utf-8") as it:
        return it.read()


def stands_on():
    """What each crate stands on, by the lines of crates.txt: those below come first."""
    lines = [line.split(":") for line in read("crates.txt").splitlines() if line.strip() and not line.startswith("#")]
    return {name.strip(): those.split() for name, those in lines}


def without_implied(below):
    """The same without the edges that others imply: what is reached through another crate is not named again."""
    reached = {}
    for name, those in below.items():
        reached[name] = {it for direct in those for it in (direct, *reached.get(direct, ()))}
    return {
        name: [it for it in those if it not in below or not any(it in reached.get(other, ()) for other in those)]
        for name, those in below.items()
    }


def edges(below):
    return sum(it in below for those in below.values() for it in those)


def graph(below):
    """The graph in characters. Each crate has a row and a column; a dot says that the row's crate stands on the
    column's."""
    rows = list(reversed(below))
    width, column = max(map(len, rows)) + 1, {name: at for at, name in enumerate(rows)}
    # The last column and the first row that a crate's line reaches.
    right = {name: max([column[name], *(column[it] for it in below[name] if it in column)]) for name in rows}
    top = {name: min(column[it] for it in rows if it == name or name in below[it]) for name in rows}

    def mark(row, at):
        """What stands at the row's crate and the crate of the column."""
        name, other = rows[row], rows[at]
        if at == row:
            return {(0, 0): "╴", (0, 1): "─", (1, 0): "┘", (1, 1): "┴"}[top[other] < row, right[name] > at]
        if other in below[name]:
            return "●"
        passes, goes_on = top[other] < row < at, at < right[name]
        return {(0, 0): " ", (0, 1): "─", (1, 0): "│", (1, 1): "┼"}[passes, goes_on]

    for row, name in enumerate(rows):
        marks = [mark(row, at) for at in range(len(rows))]
        # A crate's line begins at its name.
        joined = "".join(f"{'──' if at <= right[name] else '  '}{it}" for at, it in enumerate(marks))
        libraries = " ".join(it for it in below[name] if it not in column)
        yield f"{name:<{width}}{joined}   {libraries}".rstrip()


def block(below):
    """The lines of the graph's block, between its two markers."""
    drawn = without_implied(below)
    counted = f"{edges(drawn)} of the {edges(below)} edges of `crates.txt` are drawn: those that no other edges imply."
    return "\n".join([BEGIN, "", "```text", *graph(drawn), "```", "", counted, "", END])


def write():
    text = read(GRAPH)
    before, rest = text.split(BEGIN)
    with open(f"{ROOT}/{GRAPH}", "w", encoding="utf-8") as it:
        it.write(before + block(stands_on()) + rest.split(END)[1])


def crate_graph():
    """the graph of crates is that of crates.txt, without the edges that others imply"""
    below = stands_on()
    for name, those in below.items():
        for it in those:
            if it.startswith("pay_") and list(below).index(it) >= list(below).index(name):
                yield f"crates.txt: {name} stands before {it}, on which it stands"
    folders = set(os.listdir(f"{ROOT}/crates"))
    for name in sorted(folders ^ set(below)):
        yield f"{name} is {'not in crates.txt' if name in folders else 'not a folder of crates/'}"
    if block(below) not in read(GRAPH):
        yield f"{GRAPH}: the graph is not that of crates.txt; tests/documents.py --write draws it anew"


def layers():
    """each crate stands in one layer, above those that it stands on"""
    below, rank = stands_on(), {}
    for at, row in enumerate(columns(ARCHITECTURE, "Crates of the layer")):
        for name in re.findall(r"`(\w+)`", row):
            if name in rank:
                yield f"{ARCHITECTURE}: {name} stands in two layers"
            rank[name] = at
    for name in sorted(set(below) ^ set(rank)):
        yield f"{ARCHITECTURE}: {name} {'stands in no layer' if name in below else 'is no crate'}"
    for name, those in below.items():
        for it in those:
            # The layers are told from the top down; crates of one layer may stand on each other.
            if it in rank and name in rank and rank[it] < rank[name]:
                yield f"{ARCHITECTURE}: {name} stands on {it}, which is in a layer above it"


def string_constant(path, name):
    """The value of a constant of text in a source, plain or raw; None where it is not there."""
    found = re.search(
        rf'\bconst {name}: &(?:\'static )?str\s*=\s*(?:r(#*)"(.*?)"\1|"((?:[^"\\]|\\.)*)")\s*;', read(path), re.S
    )
    if not found:
        return None
    if found[2] is not None:
        return found[2]
    # A backslash at the end of a line leaves out the newline and the spaces after it.
    text = re.sub(r"\\\n\s*", "", found[3])
    return re.sub(r"\\(.)", lambda it: {"n": "\n", "t": "\t", "r": "\r", "0": "\0"}.get(it[1], it[1]), text)


def difference(text, whole):
    """Where two texts differ first."""
    at = next(at for at, (a, b) in enumerate(itertools.zip_longest(text, whole)) if a != b)
    return f"from {text[at:at + 30]!r} on, for {whole[at:at + 30]!r}"


def without_caps(text):
    """A sample fare file without its first line, a comment, and without its bands."""
    return re.sub(r"^band = \[\n.*?^\]\n", "", text.partition("\n")[2], flags=re.S | re.M)


def sources():
    """The paths of the crates' sources."""
    return sorted(os.path.relpath(path, ROOT) for path in paths_below(f"{ROOT}/crates") if path.endswith(".rt"))


def samples():
    """the sample fare files are the same text everywhere"""
    bus, capped = read("examples/bus.toml"), read("examples/sample.toml")
    if read("crates/farebox/data/bus.toml") != bus:
        yield "crates/farebox/data/bus.toml is another text than examples/bus.toml"
    for name, whole, file in (("BUS_FARES", bus, "bus.toml"), ("SAMPLE_FARES", capped, "sample.toml")):
        for path in sources():
            if not re.search(rf"\bconst {name}:", read(path)):
                continue
            text = string_constant(path, name)
            if text is None:
                yield f"{path} has no {name} that can be read"
            elif text != whole:
                yield f"{path}: {name} is another text than examples/{file}, {difference(text, whole)}"
    if "\nband = " in bus or "\nband = " not in capped:
        yield "examples/sample.toml has to have bands, and examples/bus.toml none"
    elif without_caps(capped) != without_caps(bus):
        where = difference(without_caps(capped), without_caps(bus))
        yield f"examples/sample.toml without its bands is another text than examples/bus.toml, {where}"


@functools.lru_cache
def paths_below(folder):
    """The files in a folder and below it, but for what is built and what git keeps."""
    found = []
    for at, folders, names in os.walk(folder):
        folders[:] = [it for it in folders if it not in ("out", ".git", "__pycache__")]
        found += [os.path.join(at, name) for name in names]
    return found


def prose(text):
    """A document without its blocks of code."""
    return re.sub(r"^```.*?^```$", "", text, flags=re.S | re.M)


def anchors(path):
    """The headings of a document, as links name them."""
    headings = re.findall(r"^#+ (.*)$", prose(read(path)), re.M)
    return {re.sub(r"[^\w\- ]", "", heading.lower()).replace(" ", "-") for heading in headings}


def links():
    """relative links lead somewhere"""
    for path in DOCUMENTS:
        for link in re.findall(r"\]\(([^)\s]+)\)", prose(read(path))):
            if re.match(r"[a-z]+:", link):
                continue
            target, _, anchor = link.partition("#")
            leads_to = os.path.normpath(os.path.join(os.path.dirname(path), target)) if target else path
            if not os.path.exists(f"{ROOT}/{leads_to}"):
                yield f"{path}: the link {link} leads to no file"
            elif anchor and anchor not in anchors(leads_to):
                yield f"{path}: the link {link} leads to no heading"


def braces(text):
    """A path with `{a,b}` in it, as those that it stands for."""
    found = re.search(r"\{([^{}]*)\}", text)
    if not found:
        return [text]
    return [each for one in found[1].split(",") for each in braces(text[:found.start()] + one + text[found.end():])]


def is_named(document, path):
    """Whether a document names this path as one of the repository's."""
    if re.search(r"\s", path) or path.startswith(("/", "./")):
        return False
    first = path.split("/")[0]
    if "/" in path:
        return first in {".ci", *os.listdir(ROOT), *os.listdir(f"{ROOT}/crates")}
    return bool(re.fullmatch(r"[\w.-]+\.(md|py|rs|txt|rt|antt)|(bus|sample)\.toml", path))


def files():
    """files that are named are there"""
    for document in DOCUMENTS:
        for named in re.findall(r"`([^`\n]+)`", prose(read(document))):
            if not is_named(document, named):
                continue
            for path in braces(named):
                # What is built is not kept, and NAME stands for any name.
                path = path.split("/out/")[0].rstrip("/").replace("NAME", "*")
                bases = (ROOT, f"{ROOT}/crates", os.path.join(ROOT, os.path.dirname(document)))
                # A source, a definition or a proof may be named without its folder.
                anywhere = path.endswith((".rt", ".antt")) and any(
                    it.endswith(f"/{path}") for it in paths_below(f"{ROOT}/crates")
                )
                if not anywhere and not any(glob.glob(os.path.join(base, path)) for base in bases):
                    yield f"{document}: {named} is not there"


def cells(line):
    return [cell.strip() for cell in re.split(r"(?<!\\)\|", line.strip().strip("|"))]


def columns(path, title):
    """The cells of the columns of this title, in the tables of a document."""
    at = None
    for line in read(path).splitlines():
        if not line.startswith("|"):
            at = None
        elif at is not None:
            yield cells(line)[at]
        elif title in cells(line):
            at = cells(line).index(title)


def declared():
    """The names that the sources of the crates declare."""
    kinds = r"\b(?:fn|struct|enum|trait|type|const|mod)\s+(\w+)"
    return {name for path in sources() for name in re.findall(kinds, read(path))}


def is_declared_of(owner, name):
    """Whether a source that declares a type or a trait, or implements it, declares this too."""
    for text in map(read, sources()):
        if re.search(rf"\b(?:struct|enum|trait|impl)\b[^{{;]*\b{owner}\b", text) and re.search(rf"\b{name}\b", text):
            return True
    return False


def calls():
    """calls that the tables name are declared"""
    there = declared()
    for path, title in CALLS.items():
        if not os.path.exists(f"{ROOT}/{path}"):
            continue
        for cell in columns(path, title):
            for named in re.findall(r"`([^`]+)`", cell):
                for name in re.findall(r"\w+", named):
                    if name not in there:
                        yield f"{path}: no crate declares {name}"
                for owner, name in re.findall(r"\b([A-Z]\w*)::(\w+)", named):
                    if not is_declared_of(owner, name):
                        yield f"{path}: nothing of {owner} is {name}"


def crates():
    """crates that are named are there"""
    there = set(stands_on())
    for document in DOCUMENTS:
        for name in sorted(set(re.findall(r"`(pay_[a-z_]+)`|\b(pay_[a-z_]+)/", read(document)))):
            if "".join(name) not in there:
                yield f"{document}: there is no crate {''.join(name)}"


def of_crates():
    """what is said to be of a crate is there"""
    for document in DOCUMENTS:
        for listed, crate in re.findall(r"((?:`[^`\n]+`(?:, | and ))*`[^`\n]+`) of `(pay_\w+)`", prose(read(document))):
            there = words_of(paths_below(f"{ROOT}/crates/{crate}"))
            for name in re.findall(r"\w+", " ".join(re.findall(r"`([^`]+)`", listed))):
                if name not in there and not re.fullmatch(r"rt|antt|\d+", name) and name != crate:
                    yield f"{document}: {crate} has no {name}"


def told_by_rt(word):
    """What rt prints for this word, or None if rt is not in PATH."""
    return subprocess.run(
        ["rt", word], stdout=subprocess.PIPE, text=True
    ).stdout.strip() if shutil.which("rt") else None


def words_of(paths):
    """Every word of these files. An identifier is one."""
    found = set()
    for path in paths:
        with open(path, encoding="utf-8", errors="replace") as it:
            found.update(re.findall(r"\w+", it.read()))
    return found


def names():
    """names in backticks occur in the repository, or in the toolchain's guides"""
    first_guide = told_by_rt("doc")
    if not first_guide:
        yield "the command rt is not in PATH, so the names of the toolchain cannot be told from others"
        return
    ours = [it for it in paths_below(ROOT) if not it.endswith(".md")]
    there = words_of(ours) | {it for path in ours for it in re.findall(r"\w+", os.path.relpath(path, ROOT))}
    # What may stand in backticks beside names of the repository: the toolchain's own words.
    folder = os.path.dirname(first_guide)
    parts = ("*.md", "rattle/*.md", "rattle/*/*.md", "rattle/std/**/*.md")
    guides = words_of(it for part in parts for it in glob.glob(f"{folder}/{part}", recursive=True))
    for document in DOCUMENTS:
        # A table of replies or of texts may have any words in it: only what looks like a name of code is looked up.
        for named in re.findall(r"`([^`\n]+)`", prose(read(document))):
            for name in re.findall(r"\b[A-Za-z]+_\w+\b|\b[A-Z][a-z]+[A-Z]\w*\b", named):
                if name not in there and name not in guides:
                    yield f"{document}: {name} stands nowhere in the repository"


def toolchain():
    """the documents name the toolchain that is here, by its logic"""
    version = told_by_rt("version")
    if version is None:
        yield "the command rt is not in PATH, so the toolchain's logic cannot be compared"
        return
    logic = re.search(r"\blogic ([0-9a-f]{16})\b", version)
    if not logic:
        yield f"rt version names no logic: {version}"
        return
    for document in DOCUMENTS:
        told = re.findall(r"\blogic ([0-9a-f]{8,})\b", read(document))
        for it in set(told) - {logic[1]}:
            yield f"{document}: the toolchain's logic is {logic[1]} here, and not {it}"
        if document in NAMES_TOOLCHAIN and not told:
            yield f"{document} does not name the toolchain's logic, {logic[1]}"


def planted():
    """wrong bodies change text that is there"""
    for path in sorted(glob.glob(f"{ROOT}/crates/*/refused/*") + glob.glob(f"{ROOT}/crates/*/planted/*")):
        path, texts, file, old = os.path.relpath(path, ROOT), {}, None, None
        crate = os.path.dirname(os.path.dirname(path))
        for line in read(path).splitlines():
            kind, _, text = line.partition(": ")
            if kind == "file":
                file = f"{crate}/{text}"
                if os.path.isfile(f"{ROOT}/{file}"):
                    texts.setdefault(file, read(file))
            elif kind == "old":
                old, count = text, texts.get(file, "").count(text)
                if count != 1:
                    yield f"{path}: {old.strip()} stands {count} times in {file}, and not once"
            elif kind == "new" and file in texts and old:
                texts[file] = texts[file].replace(old, text)
        if old is None or not path.endswith(".edit"):
            yield f"{path} changes nothing, or is no .edit"


def themes():
    """themes of tests/program.py import what is shared, and no other theme"""
    for path in sorted(glob.glob(f"{ROOT}/tests/themes/*.py") + glob.glob(f"{ROOT}/tests/support/*.py")):
        path = os.path.relpath(path, ROOT)
        for module in re.findall(r"^ *(?:from|import) (themes\b\S*)", read(path), re.M):
            yield f"{path} imports {module}"


CHECKS = [crate_graph, layers, samples, links, files, crates, of_crates, calls, names, toolchain, planted, themes]


def main():
    words = argparse.ArgumentParser(description="checks what the documents say of this repository's files")
    words.add_argument("--write", action="store_true", help=f"draw the graph of {GRAPH} anew from crates.txt first")
    if words.parse_args().write:
        write()
    count = 0
    for check in CHECKS:
        faults = list(check())
        count += len(faults)
        print(f"{check.__doc__}: {f'{len(faults)} faults' if faults else 'yes'}")
        for fault in faults:
            print(f"  {fault}")
    print(
        f"documents: {len(CHECKS)} checks, {count} faults"
        if count
        else f"documents: {len(CHECKS)} checks, each as it has to be"
    )
    return 1 if count else 0


if __name__ == "__main__":
    sys.exit(main())
