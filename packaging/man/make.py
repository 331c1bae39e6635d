#!/usr/bin/env python3
"""Makes the manual pages from *.md in this folder and the documents that these take parts of.

Usage: make.py [--check]     (--check: change nothing, and name each page that would be another)

A source is Markdown as the project's documents use it, and begins with the line `# NAME SECTION`.
`## ` begins a section of the page and `### ` a part of one. A line `@FILE` is replaced by what FILE
says before its first section, and a line `@FILE TITLE` by the section of that title; `@@FILE` and
`@@FILE TITLE` leave tables and examples out. Of what is taken, links keep their text alone, the
list of other documents at the head of a document goes, and so does each sentence that names a
crate's files: a reader of the pages does not have them.
"""
import pathlib
import re
import sys

HERE = pathlib.Path(__file__).resolve().parent
ROOT = HERE.parent.parent
TITLES = {"1": "General Commands Manual", "5": "File Formats Manual", "7": "Miscellaneous Information Manual"}
# Which manual page has what a document says.
PAGES = {"docs/QUERY.md": "steno-query(7)", "docs/FORMAT.md": "steno-format(5)"}
LINE = 76
TABLE = 68
GAP = 3
SHORT = 12
LONGEST_WORD = 24


# ---- what is taken from a document

def sections(text):
    """The text before the first heading but the title, by None, and that of each heading, with its
    depth."""
    found, title, depth, fenced = {None: (1, [])}, None, 1, False
    inside = []
    for line in text.split("\n"):
        fenced ^= line.startswith("```")
        mark = re.match(r"(#+) (.*)", line)
        if mark and not fenced:
            depth, title = len(mark[1]), mark[2]
            if depth == 1:
                inside = [None]
                continue
            inside = [name for name in inside if name is not None and found[name][0] < depth] + [title]
            found[title] = (depth, [])
            for name in inside[:-1]:
                found[name][1].append(line)
            continue
        for name in inside:
            found[name][1].append(line)
    return found


def without_examples(lines):
    kept, fenced = [], False
    for line in lines:
        if line.startswith("```"):
            fenced = not fenced
        elif not fenced and not line.startswith(("|", "    ", "<!--")):
            kept.append(line)
    return kept


def taken(request, depth):
    """The lines that a request for a part of a document is replaced by, under a heading of this
    depth."""
    short = request.startswith("@@")
    file, _, title = request.lstrip("@").partition(" ")
    found = sections((ROOT / file).read_text(encoding="ascii"))
    if (title or None) not in found:
        sys.exit(f"{file} has no section {title!r}")
    was, lines = found[title or None]
    lines = [re.sub(r"^#+", lambda mark: "#" * (len(mark[0]) - was + depth), line) if line.startswith("#") else line for line in lines]
    return without_examples(lines) if short else lines


def expanded(text):
    lines, depth = [], 1
    for line in text.split("\n"):
        if line.startswith("#"):
            depth = len(line) - len(line.lstrip("#"))
        lines += taken(line, depth) if line.startswith("@") else [line]
    return lines


def readable(text):
    """A paragraph without what only a reader of the sources can follow."""
    text = re.sub(r"See also (the )?\[.*", "", text)
    for file, page in PAGES.items():
        text = re.sub(r"\[[^\]]*\]\((\.\./)?" + re.escape(file.split("/")[1]) + r"\)", page, text).replace(file, page)
    text = re.sub(r"\[([^\]]*)\]\([^)]*\)", r"\1", text)
    sentences = re.split(r"(?<=[.:])\s+(?=[A-Z`*])", text)
    return " ".join(sentence for sentence in sentences if "`crates/" not in sentence).strip()


# ---- roff

def escaped(text):
    return text.replace("\\", "\\e").replace("-", "\\-").replace("'", "\\(aq").replace("`", "\\(ga").replace('"', "\\(dq").replace("^", "\\(ha").replace("~", "\\(ti")


def roff(text):
    """A text with its marks as roff has them: `code` and **words** bold, *words* underlined."""
    parts = []
    for piece in re.split(r"(`[^`]+`|\*\*[^*]+\*\*|\*[^* ][^*]*\*)", text):
        if piece.startswith("`"):
            parts.append("\\fB" + escaped(piece[1:-1]) + "\\fR")
        elif piece.startswith("**"):
            parts.append("\\fB" + escaped(piece[2:-2]) + "\\fR")
        elif piece.startswith("*") and len(piece) > 2:
            parts.append("\\fI" + escaped(piece[1:-1]) + "\\fR")
        else:
            parts.append(escaped(piece).replace("\\-", "-"))
    return "".join(parts)


def guarded(line):
    return "\\&" + line if line.startswith((".", "\\(aq")) else line


def filled(text):
    """A text as lines that are not too long, none of which looks like a request."""
    lines, line = [], ""
    for word in roff(" ".join(text.split())).split(" "):
        if line and len(line) + 1 + len(word) > LINE:
            lines.append(line)
            line = word
        else:
            line = f"{line} {word}" if line else word
    return [guarded(line) for line in lines + [line] if line]


def verbatim(lines):
    return [".PP", ".RS 4", ".EX"] + [guarded(escaped(line)) for line in lines] + [".EE", ".RE"]


def width(text):
    return len(re.sub(r"[`*]", "", text))


def widths(rows):
    """How wide each column is: its longest word at least, and then what makes the rows short."""
    columns = list(zip(*rows))
    words = [max(width(word) for text in column for word in text.split() or [""]) for column in columns]
    wanted = [max(width(text) for text in column) for column in columns]
    given = [min(wide, max(SHORT, min(word, LONGEST_WORD))) for wide, word in zip(wanted, words)]
    room = TABLE - GAP * (len(columns) - 1) - sum(given)
    while room > 0 and given != wanted:
        open_columns = (place for place in range(len(columns)) if given[place] < wanted[place])
        given[max(open_columns, key=lambda place: wanted[place] / given[place])] += 1
        room -= 1
    return given


def breakable(line):
    """A long run of hexadecimal digits may be broken after each eight of them."""
    return re.sub(r"[0-9a-f]{25,}", lambda run: "\\:".join(re.findall(".{1,8}", run[0])), line)


def cell(text, wide):
    if width(text) <= wide and len(roff(text)) < 70:
        return guarded(roff(text))
    return "T{\n" + "\n".join(breakable(line) for line in filled(text)) + "\nT}"


def table(rows):
    """Two columns are a list of terms; more are a table."""
    head, rows = rows[0], rows[2:]
    if len(head) == 2:
        lines = []
        for term, meaning in rows:
            lines += [".TP", guarded(roff(term))] + filled(meaning)
        return lines
    given = widths([head] + rows)
    lines = [".PP", ".TS", "tab(@);", " ".join(["lb"] * len(head)), " ".join(f"lw({wide}n)" for wide in given) + "."]
    for row in [head] + rows:
        lines.append("@".join(cell(text, wide) for text, wide in zip(row, given)))
    return lines + [".TE"]


def cells(line):
    return [part.strip().replace("\0", "|") for part in re.sub(r"`[^`]*`", lambda code: code[0].replace("|", "\0"), line).strip().strip("|").split("|")]


def is_item(line):
    return re.match(r"(- |\d+\. )", line)


def item(lines, place, page):
    """One member of a list, with all that is indented under it; gives where the next line is."""
    mark = is_item(lines[place])
    indent = len(mark[0])
    inside, at = [lines[place][indent:]], place + 1
    while at < len(lines) and (lines[at].startswith(" " * indent) or not lines[at].strip() and at + 1 < len(lines) and lines[at + 1].startswith(" " * indent)):
        inside.append(lines[at][indent:])
        at += 1
    page.append(".IP \\(bu 2" if mark[0] == "- " else f".IP {mark[0].strip()} 4")
    body = blocks(inside)
    page += body[1:] if body[:1] == [".PP"] else body
    return at


def paragraph_end(lines, place):
    while place < len(lines) and lines[place].strip() and not lines[place].startswith(("|", "#", "```")) and not is_item(lines[place]):
        place += 1
    return place


def blocks(lines):
    """Markdown as roff."""
    page, place = [], 0
    while place < len(lines):
        line = lines[place]
        if not line.strip() or line.startswith("<!--"):
            place += 1
        elif line.startswith("#"):
            depth, title = len(line) - len(line.lstrip("#")), line.lstrip("# ")
            page += [f".SH {roff(title.upper())}" if depth == 2 else f".SS {roff(title)}" if depth == 3 else ".PP\n" + roff(f"**{title}**")]
            place += 1
        elif line.startswith("```"):
            end = next(at for at in range(place + 1, len(lines)) if lines[at].startswith("```"))
            page += verbatim(lines[place + 1:end])
            place = end + 1
        elif line.startswith("    "):
            end = place
            while end < len(lines) and (lines[end].startswith("    ") or not lines[end].strip()):
                end += 1
            code = "\n".join(each[4:] for each in lines[place:end]).strip("\n").split("\n")
            page += verbatim(code)
            place = end
        elif line.startswith("|"):
            end = place
            while end < len(lines) and lines[end].startswith("|"):
                end += 1
            page += table([cells(each) for each in lines[place:end]])
            place = end
        elif is_item(line):
            rest, inner = [], []
            place = item(lines, place, inner)
            nested = any(row.startswith((".IP", ".PP", ".TP")) for row in inner[1:])
            if nested:
                first = next(at for at in range(1, len(inner)) if inner[at].startswith((".IP", ".PP", ".TP")))
                inner = inner[:first] + [".RS"] + inner[first:] + [".RE"]
            page += inner + rest
        else:
            end = max(paragraph_end(lines, place), place + 1)
            text = readable(" ".join(lines[place:end]))
            if text:
                page += [".PP"] + filled(text)
            place = end
    return page


def tidy(page):
    """Without a paragraph that begins right after a heading, and with no two breaks in a row."""
    kept = []
    for line in page:
        if line == ".PP" and kept and kept[-1].startswith((".SH", ".SS", ".PP", ".RS")):
            continue
        kept.append(line)
    return kept


# ---- pages

def released():
    """The version, and the day on which the list of changes says that it came out."""
    version = (ROOT / "VERSION").read_text(encoding="ascii").strip()
    changes = (ROOT / "CHANGELOG.md").read_text(encoding="ascii")
    day = re.search(r"^## \[" + re.escape(version) + r"\] - (\d{4}-\d\d-\d\d)$", changes, re.M)
    if not day:
        sys.exit(f"CHANGELOG.md has no day for version {version}")
    return version, day[1]


def page_of(source):
    """The name of a page, and its text."""
    text = source.read_text(encoding="ascii")
    name, number = re.match(r"# (\S+) (\d)\n", text).groups()
    version, day = released()
    sources = f"packaging/man/{source.name}"
    head = ["'\\\" t", f'.\\" Made by packaging/man/make.py from {sources}; changes here are lost.',
            f'.TH {name.upper()} {number} "{day}" "steno {version}" "{TITLES[number]}"', ".ad l", ".nr HY 0", ".nh"]
    body = tidy(blocks(expanded(text.split("\n", 1)[1])))
    body[1] = body[1].replace(" - ", " \\- ")
    return f"{name}.{number}", "\n".join(head + body) + "\n"


def main(arguments):
    if arguments not in ([], ["--check"]):
        sys.exit("usage: make.py [--check]")
    other = 0
    for source in sorted(HERE.glob("*.md")):
        name, text = page_of(source)
        path = HERE / name
        if arguments and (not path.exists() or path.read_text(encoding="ascii") != text):
            print(f"packaging/man/{name} is not what packaging/man/make.py makes")
            other = 1
        elif not arguments:
            path.write_text(text, encoding="ascii")
    return other


if __name__ == "__main__":
    sys.exit(main(sys.argv[1:]))
