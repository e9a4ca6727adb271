"""The order of all values, by kind and within a kind, and of all other bytes."""
from drawing import Drawing

# From the least to the greatest, with some values of each in ascending order.
KINDS = [
    ("extension", ["binary", "< date", "< timestamp", "< with zone", "< interval", "< opaque"]),
    ("boolean", ["false", "< true"]),
    ("number", ["-7.5", "< -7", "< 0", "< 1.5", "= 1.50", "< 2"]),
    ("string", ['""', '< "Z"', '< "a"', '< "ab"', '< "é"']),
    ("object", ["{}", '< {"a":1}', '< {"a":1,', '   "b":0}', '< {"a":2}', '< {"b":0}']),
    ("array", ["[]", "< [0]", "< [1]", "< [1,0]", "< [[]]"]),
    ("null", ["null"]),
    ("other bytes", ["by bytes"]),
]
COLUMN, LEFT, TOP, GAP = 114, 16, 66, 14


def draw(read):
    width = 2 * LEFT + COLUMN * len(KINDS) - GAP
    most = max(len(values) for _, values in KINDS)
    height = TOP + 40 + 20 * most + 22
    drawing = Drawing(
        width, height, "The order of all values",
        "From the least to the greatest: extension values, booleans, numbers, strings, objects, "
        "arrays, null, and bytes that are not a document. Under each kind some values in order.")
    drawing.text(LEFT, 28, "the least", "dim", "start")
    drawing.text(width - LEFT, 28, "the greatest", "dim", "end")
    drawing.arrow(f"M{LEFT + 70} 24H{width - LEFT - 92}")
    for number, (kind, values) in enumerate(KINDS):
        x = LEFT + COLUMN * number
        colors = ("blue", "green", "amber", "violet")
        color = "plain" if kind == "other bytes" else colors[number % len(colors)]
        drawing.box(x, TOP - 20, COLUMN - GAP, 32, color)
        drawing.text(x + (COLUMN - GAP) / 2, TOP, kind)
        for row, value in enumerate(values):
            drawing.text(x + 6, TOP + 38 + 20 * row, value, "mono", "start")
    return drawing
