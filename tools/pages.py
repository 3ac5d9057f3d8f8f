#!/usr/bin/env python3
"""Makes the pages of docs/ that repeat what the sources say, so that they can't fall behind.

    tools/pages.py           # makes them anew
    tools/pages.py --check   # ends with 1 where one differs from what is made
    tools/pages.py --count   # tells how many definitions, and lines of them, each clause of `top` and prefix durability rest on

`docs/proved.md` has a section for each room of `crates.txt` and an entry for each crate: the `//!` at the head of its root file, and its
laws, which are public functions with an empty body, each with its comment. `docs/definitions.md` has, behind its line `<!-- made -->`, the
definitions that clauses of the crates cite and that no page has by hand, each with the comment above it. In `docs/theorem.md` the
definitions of prefix durability are listed by hand, in the order of reading: a count in it, between `<!-- count -->` marks, is put there,
and a definition that stands in none of its tables is a fault.
"""
import functools
import pathlib
import re
import sys
import textwrap

TOP = pathlib.Path(__file__).resolve().parent.parent
CRATES = TOP / "crates"
WIDTH = 140

# ---- crates, by rooms


def rooms():
    """The rooms of crates.txt, in order, each with its crates: a line `# ROOM: ..` begins one."""
    found, title = [], None
    for line in (TOP / "crates.txt").read_text().splitlines():
        if line.startswith("# ROOM: "):
            found.append((line.removeprefix("# ROOM: "), []))
        elif line and not line.startswith("#"):
            found[-1][1].append(line.split(":")[0].split()[0])
    return found


def root_of(crate):
    """The root file of a crate."""
    lib = CRATES / crate / "src/lib.rt"
    return lib if lib.exists() else CRATES / crate / "src/main.rt"


def head_of(crate):
    """The paragraphs of the `//!` at the head of a crate's root file."""
    lines = [it[3:].strip() for it in root_of(crate).read_text().splitlines() if it.startswith("//!")]
    return [" ".join(it.split()) if not it.lstrip().startswith("- ") else it for it in "\n".join(lines).split("\n\n")]


LAW = re.compile(r"((?:^[ ]*///.*\n)+)^[ ]*pub fn ([a-z_0-9]+)(?:<[^>]*>)?\(\)\n(?:^(?!\{).*\n)*?^\{\}$", re.MULTILINE)


def laws_of(crate):
    """The laws of a crate, each with its comment, in the order of its files."""
    found = []
    for file in sorted((CRATES / crate / "src").rglob("*.rt")):
        for comment, name in LAW.findall(file.read_text()):
            found.append((name, " ".join(it.strip().removeprefix("///").strip() for it in comment.splitlines())))
    return found


# ---- definitions

BEGIN = re.compile(r"^(?:(?:abbrev|unfoldable)\s+)?(pub\s+)?(?:(record|data)\s+)?(◌\S+◌|[^\s:(){}]+)(?=\s|$)")


class Definition:
    """A definition of a file of specs/: its crate, file and name, the comment above it, and its text."""

    def __init__(self, crate, file, name, is_public, comment, text):
        self.crate, self.file, self.name, self.is_public, self.comment, self.text = crate, file, name, is_public, comment, text

    def lines(self):
        return len(self.text.strip().splitlines())


class File:
    """A file of specs/: its definitions by name, what it imports, and what it passes on."""

    def __init__(self, path):
        self.crate, self.name = path.relative_to(CRATES).parts[0], path.stem
        self.module = ".".join((self.crate, "specs", *path.relative_to(CRATES / self.crate / "specs").with_suffix("").parts))
        self.imports, self.aliases, self.definitions, self.passes = {}, {}, {}, {}
        self.read(path.read_text())

    def read(self, text):
        """Reads a file. Its first lines say what it is about."""
        head = []
        for line in text.splitlines():
            if not line.startswith("--"):
                break
            head.append(line[2:].strip())
        self.head = " ".join(head)
        for block in re.split(r"\n\s*\n", text):
            comment, body = [], []
            for line in block.splitlines():
                if body and re.match(r"^(--|abbrev |unfoldable |pub |[A-Za-z_]+ :)", line) and not self.goes_on(body, line):
                    self.add(comment, body)
                    comment, body = [], []
                if line.startswith("--"):
                    comment.append(line[2:].strip())
                elif re.match(r"(?:unfoldable )?(?:pub )?use ", line):
                    self.use(line.removeprefix("unfoldable "))
                    comment = []
                elif line.startswith(("pub mod ", "mod ", "infix")):
                    comment = []
                else:
                    body.append(line)
            if body:
                self.add(comment, body)

    @staticmethod
    def goes_on(body, line):
        """Whether a line is one more equation of the definition that has begun."""
        found = BEGIN.match(body[0])
        return bool(found) and line.split()[0] == found[3]

    def add(self, comment, body):
        found = BEGIN.match(body[0])
        if not found or body[0].startswith((" ", "module", "open", "unfolding")):
            return
        name = found[3]
        if name in self.definitions:
            self.definitions[name].text += "\n" + "\n".join(body)
            return
        said = " ".join(it for it in comment if it and not it.startswith("----"))
        self.definitions[name] = Definition(self.crate, self.name, name, bool(found[1]), said, "\n".join(body))

    def use(self, line):
        found = re.match(r"(pub )?use Rattle\.([\w.]+)(?:\.\{(.*)\})?(?: as (\S+))?$", line.rstrip(";"))
        if not found:
            return
        public, module, names, alias = found.groups()
        if names is None:
            self.aliases[alias or module.rsplit(".", 1)[-1]] = module
            return
        for it in names.split(","):
            name, _, other = it.strip().partition(" as ")
            self.imports[other or name] = (module, name)
            if public:
                self.passes[other or name] = (module, name)


@functools.cache
def files():
    """All files of specs/, by module."""
    return {it.module: it for it in (File(path) for path in sorted(CRATES.glob("*/specs/**/*.antt")) if "out" not in path.parts)}


def resolve(module, name):
    """The definition of this name in a module, through files that pass it on. None where it is of the library or of Rust."""
    file = files().get(module)
    while file and name not in file.definitions:
        if name not in file.passes:
            return None
        module, name = file.passes[name]
        file = files().get(module)
    return file.definitions[name] if file else None


WORD = re.compile(r"[^\s(){}\[\],;λ]+")


def cited(file, text):
    """The definitions that a text in a file cites."""
    for word in WORD.findall(re.sub(r"--.*", "", text)):
        for part in {word, word.rstrip("."), word.strip("'")}:
            if part in file.definitions:
                yield file.definitions[part]
            elif part in file.imports:
                found = resolve(*file.imports[part])
                if found:
                    yield found
            elif "." in part:
                alias, name = part.split(".", 1)
                if alias in file.aliases:
                    found = resolve(file.aliases[alias], name)
                    if found:
                        yield found
    for name in file.imports:
        if name.startswith("◌") and name.strip("◌") in text:
            found = resolve(*file.imports[name])
            if found:
                yield found


def closure(roots):
    """All definitions that these rest on, themselves among them."""
    seen, todo = {}, list(roots)
    while todo:
        one = todo.pop()
        if (one.crate, one.file, one.name) in seen:
            continue
        seen[one.crate, one.file, one.name] = one
        for file in files().values():
            if file.crate == one.crate and file.name == one.file and one.name in file.definitions:
                todo += cited(file, one.text)
    return list(seen.values())


FUNCTION = re.compile(r"^([ ]*)(pub )?(?:const )?fn [a-z_0-9]+.*?^\1(?:\{\}?$|[^\n]*;$)", re.MULTILINE | re.DOTALL)


def public_clauses(text):
    """The text of the clauses of the public functions of a source, of its public traits, and of what types are seen as."""
    traits = "".join(re.findall(r"^pub trait .*?^\}$", text, re.MULTILINE | re.DOTALL))
    for found in FUNCTION.finditer(text):
        if found[2] or found[0] in traits:
            yield "\n".join(re.split(r"^\s*(?=(?:requires|ensures)\b)", found[0], flags=re.MULTILINE)[1:])
    yield from re.findall(r"^[ ]*ghost (?:view|invariant|Value|[a-z_]+): ?.*$|^[ ]*ghost (?:view|invariant|Value|[a-z_]+) = .*?\};$", text, re.MULTILINE | re.DOTALL)


class Source(File):
    """A file of src/: what its clauses import, and their text."""

    def __init__(self, path):
        self.imports, self.aliases, self.definitions, self.passes = {}, {}, {}, {}
        text = path.read_text()
        for line in text.splitlines():
            if line.lstrip().startswith("ghost use "):
                self.use(line.strip().removeprefix("ghost "))
        self.clauses = "\n".join(public_clauses(text))


def clauses_of(crate):
    """The definitions that the clauses of a crate's sources cite, in order."""
    for path in sorted((CRATES / crate / "src").rglob("*.rt")):
        source = Source(path)
        yield from cited(source, source.clauses)


def prefix_durability():
    """The definitions that prefix durability rests on."""
    return closure([resolve("bstore_top.specs.Run", "EachCrashLeavesPrefix")])


# ---- pages


def wrapped(text, first="", rest=""):
    """A paragraph as lines of the page."""
    return textwrap.wrap(text, WIDTH, initial_indent=first, subsequent_indent=rest, break_long_words=False, break_on_hyphens=False)


def entry_of(crate):
    """What a crate is and what is proved of it, and its laws, as lines of a list."""
    said, *more = head_of(crate)
    lines = wrapped(f"- **`{crate}`**: {said}", rest="  ")
    for paragraph in more:
        lines += ["", *([f"  {it}" for it in paragraph.splitlines()] if paragraph.startswith("- ") else wrapped(paragraph, "  ", "  "))]
    laws = laws_of(crate)
    if laws:
        lines += ["", "  Laws:", ""]
    for name, comment in laws:
        lines += wrapped(f"- `{name}`: {comment}", "  ", "    ")
    return [*lines, ""]


def proved():
    """What is proved, room by room."""
    lines = []
    for title, crates in rooms():
        lines += [f"## {title}", ""]
        for crate in crates:
            lines += entry_of(crate)
    return lines


def named_in(page):
    """The definitions that the tables of a page name by hand."""
    text = re.sub(r"<!-- made.*?<!-- until here -->", "", (TOP / "docs" / page).read_text(), flags=re.DOTALL)
    cells = [row.split("|")[1] for row in text.splitlines() if row.startswith("| `")]
    return {name for cell in cells for name in re.findall(r"`([^` ]+)[^`]*`", cell)}


def table(definitions):
    """Definitions as rows of a table. Those that have no comment of their own stand with the one before them, as in their file."""
    order, said = {}, {}
    for file in files().values():
        comment = file.head
        for at, it in enumerate(file.definitions.values()):
            comment = it.comment or comment
            order[id(it)], said[id(it)] = (file.crate, file.name, at), comment
    rows = []
    for one in sorted(definitions, key=lambda it: order[id(it)]):
        if not one.comment and rows and rows[-1][1:] == (said[id(one)], one.file):
            rows[-1][0].append(one.name)
        else:
            rows.append(([one.name], said[id(one)], one.file))
    lines = ["| Definition | Says | File |", "|---|---|---|"]
    for names, comment, file in rows:
        said = comment.replace("|", "\\|")
        lines.append(f"| {', '.join(f'`{it}`' for it in names)} | {said} | `{file}` |")
    return [*lines, ""]


def by_crate(definitions):
    """Tables of definitions, one a crate, from the top down."""
    lines = []
    for _, crates in reversed(rooms()):
        for crate in reversed(crates):
            own = [it for it in definitions if it.crate == crate]
            if own:
                lines += [f"### `{crate}`", "", *table(own)]
    return lines


def definitions():
    """The definitions that the clauses of the program's call and its laws rest on, and those that clauses of single crates cite."""
    by_hand = named_in("theorem.md") | named_in("definitions.md")
    of_top = [it for it in closure(clauses_of("bstore_top")) if it.name not in by_hand]
    known = {id(it) for it in of_top}
    of_crates = {id(it): it for _, crates in rooms() for crate in crates for it in clauses_of(crate) if it.crate == crate}
    others = [it for at, it in of_crates.items() if at not in known and it.name not in by_hand]
    return ["## What the program's call rests on", "", *by_crate(of_top), "## What single crates say", "", *by_crate(others)]


def count():
    """How many definitions prefix durability rests on, and their lines."""
    found = prefix_durability()
    missing = sorted({it.name for it in found} - named_in("theorem.md"))
    if missing:
        print(missing)
    return f"{len(found)} definitions in {sum(it.lines() for it in found)} lines"


def made(page):
    """A page as it is to be."""
    if page == "map.svg":
        return drawn_map()
    text = (TOP / "docs" / page).read_text()
    parts = {"proved.md": proved, "definitions.md": definitions}
    if page in parts:
        body = "\n".join(parts[page]()).rstrip()
        text = re.sub(r"(<!-- made[^>]*-->\n).*?(\n<!-- until here -->)", lambda it: f"{it[1]}\n{body}\n{it[2]}", text, flags=re.DOTALL)
    return re.sub(r"(<!-- count -->).*?(<!-- -->)", lambda it: f"{it[1]}{count()}{it[2]}", text, flags=re.DOTALL)


# ---- the map

COLORS = {"code": "#dbe9f6", "definitions and laws": "#fdf0cf", "programs": "#d8efd8", "cases and timing": "#eeeeee"}


def kind_of(crate, title):
    """What is drawn of a crate: whether it has functions that do something."""
    if title == "Cases apart":
        return "cases and timing"
    if root_of(crate).name == "main.rt":
        return "programs"
    texts = (it.read_text() for it in (CRATES / crate / "src").rglob("*.rt"))
    return "code" if any(re.search(r"^[ ]*\{$", it, re.MULTILINE) for it in texts) else "definitions and laws"


def text_at(x, y, text, size=14, anchor="start", weight="normal", color="#111"):
    return f'<text x="{x}" y="{y}" font-size="{size}" text-anchor="{anchor}" font-weight="{weight}" fill="{color}">{text}</text>'


def box_at(x, y, width, height, color):
    return f'<rect x="{x}" y="{y}" width="{width}" height="{height}" rx="4" fill="{color}" stroke="#444"/>'


def drawn_map():
    """The rooms and their crates, the program above and bytes below."""
    lines, x, y = [], 20, 20
    for kind, color in COLORS.items():
        lines += [box_at(x, y, 16, 16, color), text_at(x + 24, y + 13, kind, 13)]
        x += 60 + 8 * len(kind)
    y += 34
    for title, crates in reversed(rooms()):
        top, x = y, 250
        boxes = []
        for crate in crates:
            width = 22 + 8 * len(crate)
            if x + width > 1100:
                x, y = 250, y + 36
            boxes += [box_at(x, y + 8, width, 28, COLORS[kind_of(crate, title)]), text_at(x + width / 2, y + 27, crate, 13, "middle")]
            x += width + 8
        y += 44
        lines.append(f'<rect x="12" y="{top}" width="1096" height="{y - top}" fill="none" stroke="#bbb"/>')
        lines += [text_at(24, top + 27, title, 14, weight="bold"), *boxes]
    head = f'<svg xmlns="http://www.w3.org/2000/svg" width="1120" height="{y + 16}" viewBox="0 0 1120 {y + 16}"'
    return "\n".join([
        f'{head} font-family="DejaVu Sans, Verdana, Arial, sans-serif">',
        "<title>bstore: rooms of crates, each on rooms below it</title>",
        f'<rect width="1120" height="{y + 16}" fill="#ffffff"/>',
        *lines,
        "</svg>\n",
    ])


PAGES = ("proved.md", "definitions.md", "theorem.md", "map.svg")


def main():
    if "--count" in sys.argv:
        print(count())
        return 0
    behind = [page for page in PAGES if made(page) != (TOP / "docs" / page).read_text()]
    if "--check" in sys.argv:
        for page in behind:
            print(f"docs/{page} isn't what tools/pages.py makes of the sources")
        print(f"{len(PAGES) - len(behind)} passed, {len(behind)} failed")
        return 1 if behind else 0
    for page in behind:
        (TOP / "docs" / page).write_text(made(page))
        print(f"docs/{page} made anew")
    return 0


if __name__ == "__main__":
    sys.exit(main())
