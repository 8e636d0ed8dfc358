"""Pages of the manual, in the macros of man(7), made from the documents in Markdown.

It knows what the documents use: headings, paragraphs, lists, tables, indented text, bold, italic, code and links.
Pictures are left out."""
import re
from collections.abc import Iterator


def make_page(name: str, section: int, summary: str, version: str, markdown: str) -> str:
    """A page: its name and number, one line about it, and a document."""
    head = f'.TH {name.upper()} {section} "" "gmr {version}" "gmr"\n.SH NAME\n{escape(name)} \\- {escape(summary)}\n'
    return head + "".join(line + "\n" for line in convert(markdown))


def convert(markdown: str) -> Iterator[str]:
    """The lines of a page for the blocks of a document; its title is left out, since the page has one."""
    for block in blocks_of(markdown):
        first = block[0]
        if first.startswith(("# ", "![")):
            continue
        if first.startswith("## "):
            yield f".SH {inline(first[3:]).upper()}"
        elif first.startswith("#"):
            yield f".SS {inline(first.lstrip('# '))}"
        elif first.startswith("    "):
            yield from [".PP", ".RS 4", ".nf", *(escape(line[4:]) for line in block), ".fi", ".RE"]
        elif first.startswith("|"):
            yield from table_of(block)
        elif re.match(r"(- |\d+\. )", first):
            mark, text = first.split(" ", 1)
            shown = "\\(bu" if mark == "-" else escape(mark)
            yield from [f'.IP "{shown}" 4', inline(" ".join([text, *block[1:]]))]
        else:
            yield from [".PP", inline(" ".join(block))]


def blocks_of(markdown: str) -> Iterator[list[str]]:
    """The blocks of a document: lines that belong together. Indented text keeps its empty lines."""
    block: list[str] = []
    for line in [*markdown.splitlines(), "", "end"]:
        is_code, was_code = line.startswith("    "), bool(block) and block[0].startswith("    ")
        if was_code and not line:
            block.append(line)
            continue
        starts = is_code != was_code or re.match(r"(#|- |\d+\. )", line) or not line
        if block and starts:
            while not block[-1]:
                block.pop()
            yield block
            block = []
        if line:
            block.append(line)


def table_of(rows: list[str]) -> Iterator[str]:
    """A table as a list: the first cell of a row stands over the others."""
    for row in rows[2:]:
        first, *others = (cell.strip() for cell in re.split(r"(?<!\\)\|", row.strip().strip("|")))
        yield from [".TP", inline(first) or "\\&", inline("; ".join(cell for cell in others if cell)) or "\\&"]


def inline(text: str) -> str:
    """A text without line ends, with its bold, italic and code as fonts."""
    text = re.sub(r"!?\[([^]]*)\]\([^)]*\)", r"\1", text)
    parts = re.split(r"(`[^`]+`)", text)
    return "".join(font("B", part[1:-1]) if part.startswith("`") and len(part) > 1 else styled(part) for part in parts)


def styled(text: str) -> str:
    """A text without code, with its bold and italic as fonts."""
    text = escape(text)
    text = re.sub(r"\*\*([^*]+)\*\*", r"\\fB\1\\fR", text)
    return re.sub(r"(?<![\w*])\*([^*\s][^*]*)\*(?![\w*])", r"\\fI\1\\fR", text)


def font(letter: str, text: str) -> str:
    """A text in a font."""
    return f"\\f{letter}{escape(text)}\\fR"


def escape(text: str) -> str:
    """A text that the formatter prints as it is."""
    text = text.replace("\\", "\\e").replace("-", "\\-").replace("'", "\\(aq")
    return "\\&" + text if text.startswith((".", "\\(aq")) else text
