#!/usr/bin/env python3
"""Makes the tables and the picture of speed out of what the bench printed.

    for n in 1 2 3; do bench/run.sh BASELINE; done > bench/results.txt
    bench/tables.py

Each row of bench/results.txt has the speed of both sides, and our share of the Rust crate's time.
The tables show the median of several runs, and of shares also the lowest and the highest, in
brackets. It replaces the tables of bench/README.md and README.md, and writes bench/speed.svg.
"""
import collections
import math
import pathlib
import re
import statistics

HERE = pathlib.Path(__file__).resolve().parent
BEGIN, END = "<!-- bench/tables.py -->\n", "<!-- end -->\n"
BEGIN_SPEED = "<!-- bench/tables.py, speed -->\n"
ROW = re.compile(r"^(.+?) +([\d.]+) (MB/s|ns), the crate +([\d.]+) (?:MB/s|ns): "
                 r"([\d.]+) of its time(.*)$")

# What README shows: a line of the bench, and what it is called there.
CHOICE = [
    ("objects check", "check a document"),
    ("objects build", "read it into a value"),
    ("objects encode", "write a value as a document"),
    ("middle of 1000 scattered", "find a key among 1,000 scattered ones"),
    ("middle of 1000 numbered", "find a key among 1,000 numbered ones"),
    ("numbers sort once", "sort 100,000 numbers, checked once"),
    ("arrays sort", "sort 100,000 arrays, not checked before"),
    ("objects print", "print a document (serde_json)"),
    ("text parse", "read a JSON text of records (serde_json)"),
    ("services parse", "read a text as services send them (serde_json)"),
]

# What bench/README.md shows first, in the same form.
SPEEDS = [
    ("objects check", "check a document"),
    ("objects build", "read it into a value"),
    ("objects encode", "write a value as a document"),
    ("middle of 10 scattered", "find a key among 10"),
    ("middle of 10 scattered (get of a document)", "the same in a checked `Document`"),
    ("middle of 1000 scattered", "find a key among 1,000"),
    ("middle of 1000 scattered (get of a document)", "the same in a checked `Document`"),
    ("numbers sort", "sort 100,000 numbers, not checked before"),
    ("numbers sort once", "the same, checked once"),
    ("arrays sort", "sort 100,000 arrays, not checked before"),
    ("arrays sort once", "the same, checked once"),
    ("arrays sort views", "the same, by `sort_views`"),
    ("arrays sort by keys", "the same, by comparable keys, which are made first"),
    ("objects array", "build an array of 100,000 documents"),
    ("objects array checked", "the same, of checked documents"),
    ("text parse", "read a JSON text of records (serde_json)"),
    ("services parse", "read a text as services send them (serde_json)"),
    ("objects print", "print a document (serde_json)"),
    ("objects text", "the same of a checked `Document`"),
]

# The texts of texts.py, and what they hold.
KINDS = [
    ("text", "records of five members"),
    ("any_order", "records of 4 to 20 members, keys in any order"),
    ("services", "messages of a service, strings with some beyond ASCII"),
    ("seats", "small numbers under long keys"),
    ("seats_indented", "the same, indented"),
    ("integers", "100,000 integers below 1,000"),
    ("prices", "50,000 decimals with two digits after the point"),
    ("decimals", "40,000 decimals with 14"),
    ("escapes", "strings with escapes"),
    ("beyond_ascii", "strings beyond ASCII"),
    ("row", "a row of ten members"),
    ("short", "a text of 46 bytes"),
]

# Whom the texts are read beside, as the driver's rows end.
SIDES = ["", " (without exact numbers)", " (simdjson)"]


def rows():
    """The rows of all runs: the shares of each, and the speeds of both sides with their unit."""
    shares, speeds = collections.defaultdict(list), collections.defaultdict(list)
    for line in (HERE / "results.txt").read_text().splitlines():
        if row := ROW.match(line):
            name = " ".join((row[1] + row[6]).split())
            shares[name].append(float(row[5]))
            speeds[name].append((float(row[2]), float(row[4]), row[3]))
    return shares, speeds


def cell(row):
    if not row:
        return ""
    if len(row) == 1:
        return f"{row[0]:.2f}"
    return f"{statistics.median(row):.2f} ({min(row):.2f} to {max(row):.2f})"


def speed(row, side):
    """The median speed of a side: 0 is this library, 1 the crate."""
    median = statistics.median(it[side] for it in row)
    return f"{median:,.{0 if median >= 100 else 1}f} {row[0][2]}"


def table(head, lines):
    rule = "|" + "---|" * len(head)
    rows = ["| " + " | ".join(line) + " |" for line in [head] + lines]
    return "\n".join([rows[0], rule] + rows[1:]) + "\n"


def tables(found):
    """All tables of bench/README.md."""
    shapes = ["numbers", "objects", "of 3000", "deep"]
    documents = [[call] + [cell(found[f"{shape} {call}"]) for shape in shapes]
                 for call in ["check", "build", "encode"]]
    look_ups = []
    for kind in ["numbered", "scattered"]:
        for count in ["10", "1000", "100000"]:
            for call, name in [("", ""), (" (get of a document)", ", `get`")]:
                places = [cell(found[f"{place} of {count} {kind}{call}"])
                          for place in ["first", "middle", "last"]]
                look_ups.append([f"{int(count):,} {kind}{name}"] + places)
    sorts = [[name] + [cell(found[f"{shape} {call}"])
                       for call in ["sort", "sort views", "sort once", "sort by keys",
                                    "keys made"]]
             for name, shape in [("numbers", "numbers"), ("strings", "strings"),
                                 ("objects of 4 keys", "objects"), ("objects of 20", "of 20"),
                                 ("arrays of 50", "arrays")]]
    builders = [[name] + [cell(found[f"{shape} {call}"])
                          for call in ["array", "array checked", "object", "object checked"]]
                for name, shape in [("numbers", "numbers"),
                                    ("objects of four strings", "objects")]]
    nested = [[f"{name}{levels}", cell(found[f"{row}{levels} encode"]),
               cell(found[f"{row}{levels} canon"])]
              for name, row, depths in [("`[[..],1]`, ", "arrays ", [100, 1000, 10000]),
                                        ('`{"a":..,"b":1}`, ', "objects ", [100, 1000, 10000]),
                                        ("`[1,[..]]`, ", "last ", [100, 1000, 10000]),
                                        ("`[[..],[]]`, ", "beside ", [100, 1000, 10000]),
                                        ("a binary tree, ", "halves ", [17]),
                                        ("a large object below, ", "large ", [200, 400, 800])]
              for levels in depths if f"{row}{levels} canon" in found]
    texts = [["parse, against `from_str`", cell(found["text parse"])],
             ["parse, against `from_str` and the crate's encoder", cell(found["text document"])],
             ["`to_string` of a view, against `to_string`", cell(found["objects print"])],
             ["`to_string` of a `Document`, the same", cell(found["objects text"])]]
    kinds = [[name] + [cell(found[f"{row} parse{side}"]) for side in SIDES]
             for row, name in KINDS]
    return "\n".join([
        table(["", "numbers", "objects", "an object of 3,000", "1,000 deep"], documents),
        table(["look-up of the", "first", "middle", "last"], look_ups),
        table(["sort of 100,000", "views (`RawJsonb`)", "by `sort_views`",
               "checked once (`SortKey`)", "by comparable keys", "of which making the keys"],
              sorts),
        table(["100,000 documents put together", "array", "of checked ones", "object",
               "of checked ones"], builders),
        table(["containers in one another, levels", "encoder", "canonical form"], nested),
        table(["texts, against serde_json", ""], texts),
        table(["reading texts, against", "serde_json, which keeps all digits",
               "serde_json without that", "simdjson"], kinds),
    ])


def short_table(found, speeds):
    return table(["", "speed", "share of the crate's time"],
                 [[name, speed(speeds[row], 0), cell(found[row])] for row, name in CHOICE])


def speed_table(found, speeds):
    return table(["", "Kohiblad", "the crate", "share of its time"],
                 [[name, speed(speeds[row], 0), speed(speeds[row], 1), cell(found[row])]
                  for row, name in SPEEDS if row in speeds])


# The colors of the picture, in light and in dark.
STYLE = """\
<style>.ground{fill:#ffffff}text{fill:#1f2328}.grid{stroke:#d1d9e0}.one{stroke:#444444}
.faster{fill:#2b7a4b}.slower{fill:#b5542b}
@media (prefers-color-scheme:dark){.ground{fill:#0d1117}text{fill:#e6edf3}.grid{stroke:#3d444d}
.one{stroke:#9198a1}.faster{fill:#3fb950}.slower{fill:#e5804d}}</style>"""


def picture(found):
    """Bars from 1, the crate's time: faster calls to the left, slower ones to the right."""
    left, width, high, top = 300, 560, 26, 40
    scale = width / 8  # eight doublings, from 1/32 to 8
    at = lambda share: left + scale * (5 + math.log2(share))
    foot = top + high * len(CHOICE)
    parts = [f'<svg xmlns="http://www.w3.org/2000/svg" width="{left + width + 60}" '
             f'height="{foot + 40}" font-family="sans-serif" font-size="13">',
             STYLE, '<rect class="ground" width="100%" height="100%" rx="8"/>',
             f'<text x="{at(1):.0f}" y="20" text-anchor="middle">the time of the crate</text>']
    for power in range(-5, 4):
        x, share = at(2.0 ** power), (f"1/{2 ** -power}" if power < 0 else str(2 ** power))
        kind = "one" if power == 0 else "grid"
        parts.append(f'<path class="{kind}" d="M{x:.0f} {top - 8}V{foot}"/>')
        parts.append(f'<text x="{x:.0f}" y="{foot + 18}" text-anchor="middle">{share}</text>')
    for number, (row, name) in enumerate(CHOICE):
        share, y = statistics.median(found[row]), top + high * number
        start, end = sorted([at(1), at(share)])
        kind = "faster" if share <= 1 else "slower"
        parts.append(f'<text x="{left - 10}" y="{y + 15}" text-anchor="end">{name}</text>')
        parts.append(f'<rect class="{kind}" x="{start:.1f}" y="{y + 2}" '
                     f'width="{end - start:.1f}" height="{high - 8}"/>')
        parts.append(f'<text x="{end + 5:.1f}" y="{y + 15}">{share:.2f}</text>')
    return "\n".join(parts) + "\n</svg>\n"


def put(path, begin, text):
    page = path.read_text()
    before, rest = page.split(begin)
    path.write_text(before + begin + text + END + rest.split(END, 1)[1])


def main():
    found, speeds = rows()
    put(HERE / "README.md", BEGIN_SPEED, speed_table(found, speeds))
    put(HERE / "README.md", BEGIN, tables(found))
    put(HERE.parent / "README.md", BEGIN, short_table(found, speeds))
    (HERE / "speed.svg").write_text(picture(found))


if __name__ == "__main__":
    main()
