"""A document as a tree beside its bytes, on lines of a terminal or as a page of HTML."""
import html
import os
import re
from itertools import islice
from typing import Iterator, List, NamedTuple

from ._parts import WORD, Part, counted, parts_of

_TEMPLATE = os.path.join(os.path.dirname(os.path.abspath(__file__)), "page.html")
_BYTES_IN_LINE = 12
_LINES_OF_PAYLOAD = 4
_BYTES_IN_PAGE_LINE = 16
# Browsers take seconds to show more.
MOST_PARTS = 20_000
_COLORS = {"array": "1", "object": "1", "scalar": "1", "key": "36", "string": "32", "number": "33",
           "boolean": "35", "null": "35", "extension": "31"}
_ENTRY_COLOR, _PLACE_COLOR = "34", "2"


def grouped(data: bytes) -> str:
    """The bytes in hexadecimal, with a space after each four."""
    return re.sub("(.{8})(?=.)", r"\1 ", data.hex())


class _Painter:
    """Colors words for a terminal, or leaves them as they are."""

    def __init__(self, is_colored: bool) -> None:
        self._is_colored = is_colored

    def __call__(self, text: str, color: str) -> str:
        return f"\x1b[{color}m{text}\x1b[0m" if self._is_colored and text.strip() else text


def lines_of(document: bytes, is_whole: bool, is_colored: bool) -> Iterator[str]:
    """A line for each part: its entry word, its own bytes, and it in the tree.

    Bytes that fill more than four lines are cut, unless all are wanted.
    """
    width = max(len(str(len(document))), 2)
    payload_width = len(grouped(bytes(_BYTES_IN_LINE)))
    paint = _Painter(is_colored)

    def line(entry: str, place: str, shown: str, color: str, tree: str) -> str:
        entry_place, _, word = entry.partition(" ")
        columns = [paint(f"{entry_place:>{width}}", _PLACE_COLOR), paint(f"{word:8}", _ENTRY_COLOR),
                   "", paint(f"{place:>{width}}", _PLACE_COLOR),
                   paint(f"{shown:{payload_width}}", color), "", tree]
        return " ".join(columns).rstrip()

    head = [f"{'':{width}} {'entry':8}", f"{'':{width}} {'bytes':{payload_width}}", "tree"]
    yield paint("  ".join(head), _PLACE_COLOR)
    goes_on: List[bool] = []
    for part in parts_of(document):
        goes_on[part.level:] = [not part.is_last]
        around = "".join("│  " if it else "   " for it in goes_on[1:part.level])
        branch = ("└─ " if part.is_last else "├─ ") if part.level else ""
        color = _COLORS[part.kind]
        entry = "" if part.entry is None else \
            f"{part.entry} {document[part.entry:part.entry + WORD].hex()}"
        tree = around + branch + paint(part.title, color)
        rest = around + ("   " if part.is_last else "│  ") if part.level else ""
        places = range(part.begin, part.own_end, _BYTES_IN_LINE)
        if not places:
            yield line(entry, "", "", color, tree)
        shown = places if is_whole else places[:_LINES_OF_PAYLOAD]
        for at in shown:
            data = document[at:min(at + _BYTES_IN_LINE, part.own_end)]
            yield line(entry, str(at), grouped(data), color, tree)
            entry, tree = "", rest
        if len(shown) < len(places):
            left = part.own_end - places[_LINES_OF_PAYLOAD]
            yield line("", "", f".. {left:,} more bytes", color, rest)


class _Run(NamedTuple):
    """Bytes that are shown together: an entry word, or the own bytes of a part."""
    begin: int
    end: int
    part: int
    kind: str


def page_of(document: bytes, name: str) -> str:
    """One page that needs no other file, in which a part lights up in the tree and in the bytes.

    ValueError: the document has more than MOST_PARTS parts.
    """
    parts = list(islice(parts_of(document), MOST_PARTS + 1))
    if len(parts) > MOST_PARTS:
        raise ValueError(f"a page has at most {MOST_PARTS:,} parts, and the document has more")
    tree = "\n".join(map(_item_of, range(len(parts)), parts, _lasts(parts)))
    about = f"{counted(len(document), 'byte')}, {counted(len(parts), 'part')}"
    with open(_TEMPLATE, encoding="utf-8") as file:
        page = file.read()
    # What is filled in is escaped, so it has no such comment.
    for mark, filling in (("NAME", html.escape(name)), ("ABOUT", about), ("TREE", tree),
                          ("BYTES", "\n".join(_page_lines(document, parts)))):
        page = page.replace(f"<!--{mark}-->", filling)
    return page


def _lasts(parts: List[Part]) -> List[int]:
    """For each part the number of the last one inside it, or its own."""
    lasts = list(range(len(parts)))
    opened: List[int] = []
    for number, part in enumerate(parts):
        del opened[part.level:]
        for it in opened:
            lasts[it] = number
        opened.append(number)
    return lasts


def _item_of(number: int, part: Part, last: int) -> str:
    """The line of the tree for a part."""
    where = [part.title]
    if part.entry is not None:
        where.append(f"entry at {part.entry:,}")
    if part.begin < part.end:
        where.append(f"{counted(part.end - part.begin, 'byte')} at {part.begin:,}")
    about = html.escape("; ".join(where))
    return (f'<div role="treeitem" aria-level="{part.level + 1}" tabindex="{-1 if number else 0}" '
            f'style="--level:{part.level}" class="{part.kind}" data-part="{number}" '
            f'data-last="{last}" data-about="{about}">{html.escape(part.title)}</div>')


def _page_lines(document: bytes, parts: List[Part]) -> Iterator[str]:
    """The bytes on lines, each after the place of its first one."""
    runs = [_Run(it.begin, it.own_end, number, it.kind) for number, it in enumerate(parts)]
    runs += [_Run(it.entry, it.entry + WORD, number, f"{it.kind} entry")
             for number, it in enumerate(parts) if it.entry is not None]
    width = len(f"{len(document):,}")
    line: List[str] = []
    at = 0
    for run in sorted(runs):
        while at < run.end:
            end = min(run.end, at - at % _BYTES_IN_PAGE_LINE + _BYTES_IN_PAGE_LINE)
            line.append(f'<span class="{run.kind}" data-part="{run.part}">'
                        f'{document[at:end].hex(" ")}</span>')
            at = end
            if at % _BYTES_IN_PAGE_LINE == 0 or at == len(document):
                first = (at - 1) // _BYTES_IN_PAGE_LINE * _BYTES_IN_PAGE_LINE
                yield f"<div><i>{first:>{width},}</i>{' '.join(line)}</div>"
                line = []
