#!/usr/bin/env python3
"""Holds the docs to the repository: tools/check-docs.py [FOLDER], from anywhere; FOLDER is a copy of the repository.

- No line of a doc has over 200 characters.
- What the docs put in backticks is there, but for the manual, which names much that is the user's, and docs/CHANGES.md and
  docs/PORT.md, which name what was. A path is a file or a folder. `crate::name` is declared in that crate. A name with a hyphen, an underscore or a
  capital inside is declared somewhere; and where the text says "`name`, `name` in `file`", in that file. In README.md,
  docs/PROVED.md and docs/DEMANDS.md any other word stands somewhere in the sources.
- docs/DEMANDS.md names every public function of the crates, and each must-fail edit that it names is one. The table of files of
  docs/ARCHITECTURE.md has all of specs/ and proofs/, and nothing else.
- docs/PROVED.md gives the number of lines of each specs file that it names.
- The figures of docs/BENCHMARK.md are those that harness/figures.py draws from the stored run, and what it quotes stands there.
- A link leads to a file, and to a heading where it names one.

Says each thing that is wrong, with its file and line, and ends with 1 if there is one.
"""

import re
import subprocess
import sys
import tempfile
from pathlib import Path

ROOT = Path(sys.argv[1] if len(sys.argv) > 1 else Path(__file__).parent.parent).resolve()
DOCS = [Path("README.md"), *sorted(path.relative_to(ROOT) for path in ROOT.glob("docs/*.md")), Path("models/README.md")]
# Docs of which every word in backticks is looked up, and those of which names and paths are.
STRICT = [Path("README.md"), Path("docs/PROVED.md"), Path("docs/DEMANDS.md")]
NAMING = [*STRICT, Path("docs/ARCHITECTURE.md"), Path("docs/DECISIONS.md"), Path("docs/BENCHMARK.md"), Path("models/README.md")]
SOURCES = [".rt", ".antt", ".rs", ".py", ".sh", ".h", ".c", ".txt", ".edit", ".toml", ".model", ""]
LONGEST = 200

wrong = []


def say(doc, number, words):
    wrong.append(f"{doc}:{number}: {words}")


def lines_of(doc):
    return list(enumerate((ROOT / doc).read_text().splitlines(), 1))


# ---- what the sources declare ----


def files():
    """Every file of the repository but the docs."""
    for path in sorted(ROOT.rglob("*")):
        inside = path.relative_to(ROOT)
        if path.is_file() and inside.parts[0] not in (".git", "target") and "target" not in inside.parts[:2] and "out" not in inside.parts:
            if path.suffix in SOURCES and inside not in DOCS:
                yield inside


NAME = r"[^\s(){}.,;:∷\[\]]+"
DECLARED = {
    ".antt": re.compile(rf"^\s*(?:unfoldable |abbrev |pub |record |data |mod )*({NAME})(?: [({{].*| [a-zA-Z_𝓥𝓛].*)? :(?: |$)", re.M),
    # items, then the cases of an enum, then fields
    ".rt": re.compile(r"\b(?:const|fn|struct|enum|mod) (\w+)|^    ([A-Z]\w*)(?:\(|,)|^    (?:pub )?([a-z]\w*): ", re.M),
    ".rs": re.compile(r"\b(?:fn|const|struct|enum|mod|static|type) (\w+)"),
    ".sh": re.compile(r"^(\w+)\(\) ", re.M),
    ".py": re.compile(r"^ *(?:def|class) (\w+)|^([A-Z_]+) = ", re.M),
    ".h": re.compile(r"(?:#define |enum |\bvoid |^    )(\w+)", re.M),
}

TEXT = {path: (ROOT / path).read_text(errors="replace") for path in files()}
BY_FILE = {
    path: {name for found in DECLARED[path.suffix].finditer(text) for name in found.groups() if name}
    for path, text in TEXT.items()
    if path.suffix in DECLARED
}
# where each name is declared; a file is a module, and can be named as one
PLACES = {}
for path, names in BY_FILE.items():
    for name in names | {path.stem}:
        PLACES.setdefault(name, []).append(str(path))
EDITS = {path.stem for path in TEXT if path.suffix == ".edit"}
FILE_NAMES = {path.name for path in [*TEXT, *DOCS]}
KIT = {"std"}
ALL_TEXT = "\n".join(TEXT.values()) + "\n".join(map(str, TEXT))


def find(path):
    """The file or folder that a doc names: under crates/, with or without its ending, or from the root."""
    for base in (ROOT / "crates", ROOT):
        for ending in ("", ".antt", ".rt"):
            there = base / (path + ending)
            if there.exists():
                return there.relative_to(ROOT)
    return None


def declared_in(name, place):
    """Whether a file, or a file of a folder, declares a name."""
    return any(f"{path}/".startswith(f"{place}/") for path in PLACES.get(name, []))


def owned_by(name):
    """The files that declare a type, or have an `impl` of it or for it."""
    impl = re.compile(rf"^impl\b.*\b{name}\b", re.M)
    return [path for path in PLACES.get(name, []) if path.endswith(".rt")] + [str(path) for path, text in TEXT.items() if path.suffix == ".rt" and impl.search(text)]


# ---- names ----

WORD = re.compile(r"`([^`]+)`")
# names joined by commas or "and", then "in" and a file
RUN = re.compile(r"((?:`[^`]+`(?:, | and |, and ))*`[^`]+`) in `([^`]+)`")
QUALIFIED = re.compile(r"([A-Za-z_]\w*)::(\w+)$")
PATH = re.compile(r"^[\w.+-]+(/[\w.+-]+)*/$|^[\w.+-]+(/[\w.+-]+)+$")
IDENTIFIER = re.compile(r"^[A-Za-z]\S*$")


def is_special(word):
    """Whether a word can only be a name that something declares."""
    return bool(re.search(r"[-_]|[a-z][A-Z]|^[A-Z][a-z]+[A-Z]", word)) and " " not in word


def check_word(doc, number, word):
    qualified = QUALIFIED.match(word)
    if re.match(r"[\w-]+=", word):  # what the prover prints
        return
    if PATH.match(word):
        # of some crate, or of each
        patterns = (f"crates/*/{word}", word.replace("NAME", "*"))
        if find(word.rstrip("/")) is None and not any(any(ROOT.glob(pattern)) for pattern in patterns):
            say(doc, number, f"there is no file or folder `{word}`")
    elif qualified:
        owner, name = qualified.groups()
        if owner in KIT:
            return
        crate = Path("crates", owner, "src")
        places = [crate] if (ROOT / crate).is_dir() else owned_by(owner)
        if not any(declared_in(name, place) for place in places):
            say(doc, number, f"`{owner}` declares no `{name}`")
    elif re.fullmatch(r"[\w+-]+\.(rs|py|sh|h|c|txt|model|md|svg)", word):
        if word not in FILE_NAMES:
            say(doc, number, f"there is no file `{word}`")
    elif is_special(word) and IDENTIFIER.match(word):
        if word not in PLACES and word not in EDITS and find(word) is None:
            say(doc, number, f"nothing declares `{word}`")
    elif doc in STRICT and word not in ALL_TEXT:
        first = word.split()[0].removeprefix("./")
        if find(first) is None and first not in ("bash", "rt", "python3"):
            say(doc, number, f"`{word}` stands nowhere in the sources")


def check_names(doc):
    for number, line in lines_of(doc):
        for run, place in RUN.findall(line):
            there = find(place) if PATH.match(place) else None
            if there is None:
                continue
            for name in WORD.findall(run):
                if not declared_in(name.rpartition("::")[2], there):
                    say(doc, number, f"`{name}` is not declared in `{place}`")
        for word in WORD.findall(line):
            check_word(doc, number, word)


def check_edits(doc):
    """`crate/must-fail`: `edit`, `edit`, up to the next folder of that kind or the cell's end."""
    for number, line in lines_of(doc):
        for folder, rest in re.findall(r"`(\w+)/must-fail`:((?: `\w+`,?)+)", line):
            for edit in WORD.findall(rest):
                if not (ROOT / "crates" / folder / "must-fail" / f"{edit}.edit").is_file():
                    say(doc, number, f"`{folder}/must-fail` has no edit `{edit}`")


def check_functions(doc):
    named = set(re.findall(r"`(?:\w+::)?(\w+)`", (ROOT / doc).read_text()))
    for path, text in TEXT.items():
        if path.parts[0] == "crates" and path.suffix == ".rt":
            for name in re.findall(r"^\s*pub (?:extern \"C\" )?fn (\w+)", text, re.M):
                if name not in named:
                    say(doc, 0, f"the public function `{name}` of {path} is not named")


def check_files(doc):
    """The table of files: for each crate, which its first column names or the row above does, what stands in specs/ and proofs/."""
    there = {
        (path.parts[1], path.parts[2], path.stem)
        for path in TEXT
        if path.parts[0] == "crates" and len(path.parts) == 4 and path.suffix == ".antt" and path.stem != "Lib"
    }
    crate, named = None, set()
    for number, line in lines_of(doc):
        cells = [cell.strip() for cell in line.split("|")[1:-1]]
        if len(cells) != 3:
            continue
        crate = cells[0].strip("`") or crate
        for folder, cell in zip(("specs", "proofs"), cells[1:]):
            for name in WORD.findall(cell):
                named.add((crate, folder, name))
                # the table's head names the two folders
                if (crate, folder, name) not in there and name != f"{folder}/":
                    say(doc, number, f"`{crate}` has no file `{name}` in {folder}/")
    for crate, folder, name in sorted(there - named):
        say(doc, 0, f"the table of files lacks crates/{crate}/{folder}/{name}")


# ---- lines that a reader is asked for ----


def asked_lines(text):
    """Definitions and comments, without imports, module lists and blank lines."""
    return sum(1 for line in text.splitlines() if line.strip() and not re.match(r"(ghost )?use |pub mod ", line))


def check_counts(doc):
    total = 0
    for number, line in lines_of(doc):
        for place, count in re.findall(r"`(\w+/specs/\w+)` (\d+)", line):
            there = find(place)
            if there is None:
                continue
            total += int(count)
            counted = asked_lines((ROOT / there).read_text())
            if counted != int(count):
                say(doc, number, f"`{place}` asks for {counted} lines, and not for {count}")
        for told in re.findall(r"([\d,]+) lines in all", line):
            if int(told.replace(",", "")) != total:
                say(doc, number, f"the files above ask for {total:,} lines in all, and not for {told}")


# ---- the benchmark ----


def check_benchmark(doc):
    run = ROOT / "docs/benchmark/run.txt"
    with tempfile.TemporaryDirectory() as folder:
        subprocess.run([sys.executable, ROOT / "harness/figures.py", run, folder], check=True)
        drawn = {path.name: path.read_text() for path in Path(folder).iterdir()}
    stored = {path.name: path.read_text() for path in (ROOT / "docs/benchmark").glob("*.svg")}
    for name in sorted(drawn.keys() | stored.keys()):
        if drawn.get(name) != stored.get(name):
            say(f"docs/benchmark/{name}", 0, "is not what harness/figures.py draws from the stored run")
        if f"(benchmark/{name})" not in (ROOT / doc).read_text():
            say(doc, 0, f"does not show {name}")
    quotes = re.findall(r"^```\n(.*?)^```$", (ROOT / doc).read_text(), re.M | re.S)
    for quote in quotes:
        if quote not in run.read_text():
            say(doc, 0, f"quotes what the stored run does not have: {quote.splitlines()[0]}")


# ---- lines and links ----


def anchors(text):
    """The headings' names in links, as the usual hosts make them."""
    heads = re.findall(r"^#+ (.*)$", text, re.M)
    return {re.sub(r"[^\w\- ]", "", head.lower()).replace(" ", "-") for head in heads}


def check_text(doc):
    for number, line in lines_of(doc):
        if len(line) > LONGEST:
            say(doc, number, f"has {len(line)} characters, over {LONGEST}")
        for link in re.findall(r"\]\(([^)]+)\)", line):
            path, _, part = link.partition("#")
            there = (ROOT / doc).parent / path if path else ROOT / doc
            if not there.exists():
                say(doc, number, f"the link leads nowhere: {link}")
            elif part and part not in anchors(there.read_text()):
                say(doc, number, f"there is no such heading: {link}")


for each in DOCS:
    check_text(each)
for each in NAMING:
    check_names(each)
    check_edits(each)
check_functions(Path("docs/DEMANDS.md"))
check_files(Path("docs/ARCHITECTURE.md"))
check_counts(Path("docs/PROVED.md"))
check_benchmark(Path("docs/BENCHMARK.md"))
for words in wrong:
    print(words)
if wrong:
    sys.exit(1)
print(f"{len(DOCS)} docs are as the repository is")
