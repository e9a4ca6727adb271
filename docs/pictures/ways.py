"""What the commands enc, dec, get, cmp and canon call in turn, and in which crate each call is."""
from drawing import Drawing
from rattle import file_of, function_in

# Of each command: what goes in, the calls with their files and what each does, and what comes out.
WAYS = [
    ("enc", "a JSON text", [
        ("OwnedJsonb::parse", "jsonb/owned.rt", "takes the text"),
        ("read_text", "jsonb_value/parser/reader.rt", "a loop over its bytes"),
        ("Tape::add", "jsonb_codec/tape.rt", "keeps payloads in order"),
        ("write_document", "jsonb_codec/tape/write.rt", "copies them once"),
    ], "a document"),
    ("dec", "bytes", [
        ("Document::new", "jsonb/document.rt", "takes the bytes"),
        ("DocumentBytes::new", "jsonb_codec/document/bytes.rt", "checks all, in one walk"),
        ("write_document", "jsonb/text.rt", "walks it, unchecked"),
        ("write_number", "jsonb_value/text.rt", "writes each value"),
    ], "a JSON text"),
    ("get", "bytes, a key", [
        ("Document::new", "jsonb/document.rt", "checks the bytes"),
        ("Members::find", "jsonb/nodes.rt", "reads entries of keys"),
        ("Node::of_part", "jsonb/node.rt", "shows the value in place"),
        ("Node::to_owned", "jsonb/node.rt", "copies it out"),
    ], "a document, or none"),
    ("cmp", "bytes, bytes", [
        ("cmp_bytes", "jsonb/order.rt", "equal bytes: equal"),
        ("SortKey::new", "jsonb/sort_key.rt", "checks each side"),
        ("cmp_documents", "jsonb/order/walk.rt", "walks both in step"),
        ("Number::cmp_value", "jsonb_value/order.rt", "by exact value"),
    ], "less, equal, greater"),
    ("canon", "bytes", [
        ("append_canonical", "jsonb_codec/canonical/rewrite.rt", "takes the bytes"),
        ("DocumentBytes::new", "jsonb_codec/document/bytes.rt", "checks all, in one walk"),
        ("append_document", "jsonb_codec/writer/append.rt", "measures, then writes"),
        ("Number::compact_encode", "jsonb_value/number.rt", "the one written form"),
    ], "a document"),
]
COLORS = {"jsonb": "green", "jsonb_codec": "blue", "jsonb_value": "amber"}
COLUMN, ROW, WIDTH, HEIGHT, LEFT, TOP = 200, 88, 190, 64, 16, 92


def test_call(call, file):
    """Fails unless the file has such a function."""
    crate, *module = file.removesuffix(".rt").split("/")
    if not function_in(file_of(crate, module), call):
        raise SystemExit(f"docs/pictures/ways.py: {file} has no {call}")


def draw(read):
    most = max(len(calls) for _, _, calls, _ in WAYS)
    width, height = 2 * LEFT + COLUMN * (len(WAYS) - 1) + WIDTH, TOP + ROW * most + 76
    drawing = Drawing(
        width, height, "The ways of the commands enc, dec, get, cmp and canon",
        "A column for each command: what goes in, the calls that are made one after another, and "
        "what comes out. The color of a call is that of its crate.")
    for number, (command, taken, calls, made) in enumerate(WAYS):
        left = LEFT + COLUMN * number
        middle = left + WIDTH / 2
        drawing.text(middle, 32, command, "mono title")
        drawing.text(middle, 62, taken)
        drawing.arrow(f"M{middle:g} 70V{TOP - 2}")
        for row, (call, file, about) in enumerate(calls):
            test_call(call, file)
            y = TOP + ROW * row
            drawing.box(left, y, WIDTH, HEIGHT, COLORS[file.split("/")[0]])
            drawing.text(middle, y + 19, call, "mono")
            drawing.text(middle, y + 37, about, "small")
            drawing.text(middle, y + 54, file, "dim small")
            drawing.arrow(f"M{middle:g} {y + HEIGHT}v{ROW - HEIGHT - 2}")
        drawing.text(middle, TOP + ROW * len(calls) + 14, made)
    for number, (crate, color) in enumerate(COLORS.items()):
        drawing.box(LEFT + 0.5 + 150 * number, height - 30, 14, 14, color)
        drawing.text(LEFT + 22 + 150 * number, height - 18, crate, "dim", "start")
    return drawing
