"""The document of docs/FORMAT.md in bytes, with an arrow from each entry word to its payload."""
import re

from drawing import Drawing

CELL, LEFT, TOP, HEIGHT = 27, 18, 92, 30
# What is written under the bytes of each line of the listing.
LABELS = [
    ("header:", "array of 3"), ("entry: false,", "no payload"), ("entry: number", "of 2 bytes"),
    ("entry: object", "of 14 bytes"), ("10",), ("header:", "object of 1"),
    ("entry: key", "of 1 byte"), ("entry: string", "of 1 byte"), ('"k"',), ('"v"',),
]


def listing(page):
    """The lines of the first listing of FORMAT: a place, the bytes and what they are."""
    block = re.search(r"```text\nplace  bytes\n(.*?)```", page, re.S)[1]
    found = re.findall(r"^ *(\d+)  ((?:[0-9a-f]{2} )+) *(.*)$", block, re.M)
    return [(int(place), bytes.fromhex(shown), about) for place, shown, about in found]


def payloads(document, at, size):
    """For each entry word in an array or object, its place and that of its payload."""
    header = int.from_bytes(document[at:at + 4], "big")
    count = (header & 0x1FFFFFFF) * (2 if header >> 29 == 2 else 1)
    begin = at + 4 + 4 * count
    for entry in range(at + 4, begin, 4):
        word = int.from_bytes(document[entry:entry + 4], "big")
        length = word & 0x0FFFFFFF
        if length:
            yield entry, begin
        if word >> 28 == 5:
            yield from payloads(document, begin, length)
        begin += length
    assert begin == at + size


def color_of(about):
    if "header" in about:
        return "violet"
    return "blue" if "entry" in about else "green"


def draw(read):
    lines = listing(read("docs/FORMAT.md"))
    document = b"".join(shown for _, shown, _ in lines)
    width = 2 * LEFT + CELL * len(document)
    drawing = Drawing(
        width, 256, "The document of [false,10,{\"k\":\"v\"}]",
        "32 bytes in a row: a header, three entry words, and after them the payloads. An arrow "
        "leads from each entry word that has a length to its payload. The last payload is an "
        "object, which has a header, entry words and payloads of its own.")
    drawing.text(LEFT, 28, '[false,10,{"k":"v"}] in 32 bytes', "title", "start")
    drawing.text(width - LEFT, 28, "an arrow leads from each entry to its payload", "dim", "end")
    for entry, payload in payloads(document, 0, len(document)):
        begin, end = LEFT + CELL * (entry + 2), LEFT + CELL * payload + CELL / 2
        rise = TOP - 12 - 4 * (payload - entry)
        drawing.arrow(f"M{begin:g} {TOP - 3}C{begin:g} {rise:g} {end:g} {rise:g} {end:g} {TOP - 2}")
    assert len(lines) == len(LABELS)
    for (place, shown, about), label in zip(lines, LABELS):
        x = LEFT + CELL * place
        drawing.text(x + 1, TOP + HEIGHT + 13, str(place), "dim small", "start")
        for number, byte in enumerate(shown):
            left = x + CELL * number
            drawing.box(left + 0.5, TOP, CELL - 1, HEIGHT, color_of(about))
            drawing.text(left + CELL / 2, TOP + 20, f"{byte:02x}", "mono")
        for number, line in enumerate(label):
            drawing.text(x + CELL * len(shown) / 2, TOP + HEIGHT + 32 + 15 * number, line, "small")
    inner = next(place for place, _, about in lines if "the object" in about)
    x, y = LEFT + CELL * inner, TOP + HEIGHT + 64
    drawing.arrow(f"M{x + 2} {y}v8H{width - LEFT - 2}v-8", has_head=False)
    drawing.text((x + width - LEFT) / 2, y + 26, "the object: a payload that is a document itself")
    for at, (color, about) in enumerate([("violet", "a header: kind and count"),
                                         ("blue", "an entry: type and length"),
                                         ("green", "a payload")]):
        drawing.box(LEFT + 0.5, TOP + HEIGHT + 64 + 20 * at, 14, 14, color)
        drawing.text(LEFT + 22, TOP + HEIGHT + 75 + 20 * at, about, "dim", "start")
    return drawing
