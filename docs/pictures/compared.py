"""Bars of docs/COMPARED.md: sizes as shares of the JSON text's, and times as shares of others'."""
import math
import re

from drawing import Drawing

FORMATS = [("Kohiblad", "blue"), ("jsonb", "amber"), ("CBOR", "green"), ("MessagePack", "violet")]
# The documents of the table of sizes that are drawn.
SHAPES = ["a log line of eight members", "a row of ten members", "an order of four lines",
          "1,000 such rows in an array", "20,000 numbers", "an object of 1,000 members"]
# Kohiblad's column of each place in the table of times, and the columns that it is compared with.
PLACES = [("jsonb, in PostgreSQL", 1, 2), ("text, in SQLite", 3, 4), ("json, in Python", 5, 6),
          ("cbor2, in Python", 5, 7), ("msgpack, in Python", 5, 8)]
LEFT, WIDTH, BAR = 216, 460, 13


def table_of(page, name):
    """The cells of a table that bench/compared.py wrote, without its head."""
    text = page.split(f"<!-- bench/compared.py, {name} -->\n")[1].split("<!-- end -->")[0]
    return [[it.strip() for it in line.strip("|").split("|")] for line in text.splitlines()[2:]]


def shares_of(page):
    """The shares of the JSON text's size, of each document that is drawn."""
    rows = {row[0]: [float(re.search(r"\((.*)\)", it)[1]) for it in row[2:]]
            for row in table_of(page, "sizes")}
    return [(name, rows[name]) for name in SHAPES]


def times_of(page):
    """The share of the other's time, of each place and call that has one."""
    number = lambda cell: float(cell.replace(",", ""))
    return [(place, [(row[0], number(row[ours]) / number(row[other]))
                     for row in table_of(page, "orders") if row[other]])
            for place, ours, other in PLACES]


def draw_sizes(drawing, page, top):
    shares = shares_of(page)
    most = max(max(it) for _, it in shares)
    scale = WIDTH / math.ceil(most * 4) * 4
    foot = top + sum(len(it) * BAR + 12 for _, it in shares)
    for quarter in range(0, math.ceil(most * 4) + 1, 2):
        x = LEFT + scale * quarter / 4
        drawing.arrow(f"M{x:g} {top - 6}V{foot - 6}", has_head=False)
        drawing.text(x, foot + 8, f"{quarter / 4:g}", "dim small")
    for name, row in shares:
        drawing.text(LEFT - 10, top + len(row) * BAR / 2 + 4, name, "", "end")
        for share, (_, color) in zip(row, FORMATS):
            drawing.box(LEFT, top, scale * share, BAR - 2, color)
            drawing.text(LEFT + scale * share + 5, top + 9, f"{share:.2f}", "small", "start")
            top += BAR
        top += 12
    return foot


def draw_times(drawing, page, top):
    times = times_of(page)
    all_shares = [share for _, calls in times for _, share in calls]
    low = math.floor(min(map(math.log2, all_shares)))
    high = math.ceil(max(map(math.log2, all_shares)))
    at = lambda share: LEFT + WIDTH * (math.log2(share) - low) / (high - low)
    foot = top + sum(len(calls) * (BAR + 3) + 22 for _, calls in times)
    for power in range(low, high + 1):
        x = at(2.0 ** power)
        drawing.arrow(f"M{x:g} {top - 6}V{foot - 6}", has_head=False)
        drawing.text(x, foot + 8, f"1/{2 ** -power}" if power < 0 else str(2 ** power), "dim small")
    for place, calls in times:
        drawing.text(LEFT - 10, top + 10, place, "title", "end")
        top += 18
        for call, share in calls:
            begin, end = sorted([at(1), at(share)])
            drawing.text(LEFT - 10, top + 10, call, "", "end")
            drawing.box(begin, top, max(end - begin, 1), BAR, "green" if share <= 1 else "red")
            drawing.text(end + 5, top + 10, f"{share:.2f}", "small", "start")
            top += BAR + 3
        top += 4
    return foot


def draw(read):
    page = read("docs/COMPARED.md")
    height = 2 * 66 + sum(len(it) * BAR + 12 for _, it in shares_of(page)) + 30
    height += sum(len(calls) * (BAR + 3) + 22 for _, calls in times_of(page))
    drawing = Drawing(
        LEFT + WIDTH + 60, height, "Sizes and times beside other formats",
        "The first bars are the sizes of documents as shares of the size of their JSON text, in "
        "four formats. The others are Kohiblad's times for orders as shares of the time that "
        "another way takes in the same place: bars to the left are faster.")
    drawing.text(LEFT, 24, "Size, as a share of the JSON text's", "title", "start")
    for number, (name, color) in enumerate(FORMATS):
        x = LEFT + 110 * number
        drawing.box(x + 0.5, 34, 12, 12, color)
        drawing.text(x + 18, 45, name, "dim", "start")
    foot = draw_sizes(drawing, page, 62)
    drawing.text(LEFT, foot + 40, "Time for 100,000 orders, as a share of what the other takes",
                 "title", "start")
    draw_times(drawing, page, foot + 58)
    return drawing
