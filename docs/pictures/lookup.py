"""A look-up of a key in an object: the words that are read, in which order, and what is skipped."""
from drawing import Drawing

LEFT, TOP, HEIGHT = 18, 96, 44
NAME = "price"
# The pairs, each with its value as a text, the type of its entry and the length of its payload.
PAIRS = [("id", "7", "number", 2), ("price", "1.50", "number", 10), ("tags", "[]", "array", 4)]
WORD = 74


def boxes():
    """The words and payloads in stored order: two lines of text, a width and a color."""
    found = [key for key, *_ in PAIRS].index(NAME)
    yield "header", "3 pairs", WORD, "blue"
    for key, *_ in PAIRS:
        yield "key", f"{len(key)} bytes", WORD, "blue"
    for number, (_, _, kind, length) in enumerate(PAIRS):
        yield kind, f"{length} bytes", WORD, "blue" if number <= found else "plain"
    for key, *_ in PAIRS:
        # Only a key of the name's length is compared with it.
        yield f'"{key}"', "", 30 + 8 * len(key), "amber" if len(key) == len(NAME) else "plain"
    for number, (_, value, _, length) in enumerate(PAIRS):
        yield value, "", 34 + 4 * length, "green" if number == found else "plain"


def draw(read):
    listed = list(boxes())
    width = 2 * LEFT + sum(it for _, _, it, _ in listed)
    drawing = Drawing(
        width, 212, f'The look-up of "{NAME}" in an object of three',
        "Words and payloads in a row. The look-up reads the header, the three entries of keys, and "
        "the entries of values up to that of its own: six words, numbered in their order. It "
        "compares the one key that has the name's length, and skips all other keys and values.")
    text = ",".join(f'"{key}":{value}' for key, value, *_ in PAIRS)
    drawing.text(LEFT, 28, f'the value of "{NAME}" in {{{text}}}', "title", "start")
    words, x = 0, LEFT
    places = []
    for first, second, box_width, color in listed:
        drawing.box(x + 1, TOP, box_width - 2, HEIGHT, color)
        middle = x + box_width / 2
        places.append(middle)
        drawing.text(middle, TOP + (19 if second else 27), first, "mono")
        if second:
            drawing.text(middle, TOP + 36, second, "small dim")
        if color == "blue":
            words += 1
            drawing.text(middle, TOP + HEIGHT + 20, str(words), "title")
        x += box_width
    found = [key for key, *_ in PAIRS].index(NAME)
    count = len(PAIRS)
    for start, end in ((1 + found, 1 + 2 * count + found),
                       (1 + count + found, 1 + 3 * count + found)):
        begin, end = places[start], places[end]
        drawing.arrow(f"M{begin:g} {TOP - 3}C{begin:g} {TOP - 44} {end:g} {TOP - 44} "
                      f"{end:g} {TOP - 2}")
    legend = [("blue", f"a word that is read: {words} of {1 + 2 * count}"),
              ("amber", "a key that is compared"), ("green", "the value"), ("plain", "not read")]
    x = LEFT
    for color, about in legend:
        drawing.box(x + 0.5, TOP + HEIGHT + 40, 14, 14, color)
        drawing.text(x + 22, TOP + HEIGHT + 51, about, "dim", "start")
        x += 60 + 7 * len(about)
    assert words == count + found + 2
    return drawing
