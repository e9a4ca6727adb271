"""The crates of crates.txt, each above those that it rests on."""
from drawing import Drawing

# Where each crate is: its column and its row, counted from below, and its kind.
PLACES = {
    "jsonb_value": (2, 0, "green"), "jsonb_codec": (2, 1, "green"), "jsonb": (2, 2, "green"),
    "answer_lines": (0.5, 3, "green"), "uses": (2.55, 3, "plain"),
    "jsonb_path": (4.55, 5, "green"), "jsonb_pattern": (1, 4, "green"),
    "jsonb_comparable": (4.05, 3, "green"), "jsonb_cli": (0, 4, "blue"),
    "jsonb_probe": (2, 4, "plain"), "typed_vector": (3.1, 4, "green"),
    "jsonb_functions": (4.4, 4, "green"), "json_fault": (5.5, 5, "green"),
    "typed_chunk": (1.5, 5, "green"),
    "text_lookup": (1.52, 3, "green"), "kept_rows": (0, 2, "green"),
    "jsonb_rows": (0.45, 5, "green"),
    "array_items": (0.9, 1, "green"),
    "kohiblad_shell": (0.5, 6, "blue"), "jsonb_typed_file": (2.8, 6, "green"),
    "jsonb_typed": (3.6, 5, "green"), "tests_of_calls": (4.1, 7, "plain"),
    "tests_of_documents": (2.55, 5, "plain"), "tests_of_paths": (5.5, 6, "plain"),
    "kohiblad": (5.5, 7, "violet"),
}
KINDS = [("green", "library"), ("blue", "program"), ("violet", "library for C"),
         ("plain", "tests and small callers"), ("amber", "bindings: tested, not proved")]
COLUMN, ROW, WIDTH, HEIGHT, LEFT, TOP = 152, 82, 142, 44, 20, 100
MOST_ROW = max(row for _, row, _ in PLACES.values())


def crates(text):
    """The crates of crates.txt, each with those of the repository and those of the kit it names."""
    found = {}
    for line in text.split("\n"):
        name, _, named = line.split("#")[0].partition(":")
        if name.strip():
            found[name.split()[0]] = named.split()
    return {name: ([it for it in named if it in found], [it for it in named if it not in found])
            for name, named in found.items()}


def nearest(name, found):
    """The crates that a crate rests on, without those that it has through another one."""
    def all_below(it):
        below = set(found[it][0])
        return below.union(*map(all_below, below))

    named = found[name][0]
    return [it for it in named if not any(it in all_below(other) for other in named)]


def middle(column):
    return LEFT + COLUMN * column + WIDTH / 2


def top(row):
    return TOP + ROW * (MOST_ROW - row)


def draw(read):
    found = crates(read("crates.txt"))
    if found.keys() != PLACES.keys():
        raise SystemExit(f"docs/pictures/crates.py: give a place to {found.keys() ^ PLACES.keys()}")
    width = int(LEFT * 2 + COLUMN * 5.5 + WIDTH)
    height = top(0) + HEIGHT + 24
    drawing = Drawing(
        width, height, "The crates, and what each rests on",
        "Boxes in rows. From each crate a line leads down to those that it rests on: all rest on "
        "jsonb_value, and the library for C, kohiblad, on most. The bindings are above it.")
    for name, (column, row, _) in PLACES.items():
        for other in nearest(name, found):
            other_column, other_row, _ = PLACES[other]
            assert other_row < row, (name, other)
            x, y, to, end = middle(column), top(row) + HEIGHT, middle(other_column), top(other_row)
            if row - other_row > 2 and x != to:
                drawing.arrow(f"M{x:g} {y}V{end + HEIGHT / 2 - 20:g}q0 20 -20 20"
                              f"H{to + WIDTH / 2 + 2:g}")
            else:
                bend = (y + end) / 2
                drawing.arrow(f"M{x:g} {y}C{x:g} {bend:g} {to:g} {bend:g} {to:g} {end - 2}")
    bindings = middle(PLACES["kohiblad"][0])
    drawing.arrow(f"M{bindings:g} {TOP - 30}V{TOP - 2}")
    drawing.box(bindings - 150, TOP - 74, 230, HEIGHT, "amber", dashed=True)
    drawing.text(bindings - 35, TOP - 56, "bindings", "mono")
    drawing.text(bindings - 35, TOP - 40, "Python, SQLite, PostgreSQL, Rust", "small dim")
    for name, (column, row, color) in PLACES.items():
        kit = found[name][1]
        wide = max(WIDTH, 6 * len(" ".join(kit)) + 12)
        drawing.box(middle(column) - wide / 2, top(row), wide, HEIGHT, color)
        drawing.text(middle(column), top(row) + (20 if kit else 27), name, "mono")
        if kit:
            drawing.text(middle(column), top(row) + 36, " ".join(kit), "small dim")
    for at, (color, about) in enumerate(KINDS):
        drawing.box(LEFT + 0.5, top(2) + 22 * at, 14, 14, color, dashed=color == "amber")
        drawing.text(LEFT + 22, top(2) + 11 + 22 * at, about, "dim", "start")
    about = "small, in a box: crates of the kit"
    drawing.text(LEFT, top(2) + 11 + 22 * len(KINDS), about, "dim", "start")
    return drawing
