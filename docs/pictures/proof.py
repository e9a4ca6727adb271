"""How a proof carries a promise, by one example: all texts are taken from the code."""
import re

from drawing import LETTER, Drawing
from rattle import TOP, Specs, function_in

FILE, CALL, CLAUSE = "crates/jsonb/src/raw.rt", "jsonb_item_type", "document"
SPECS, DEFINITION = ("jsonb", "Kind"), "kind_of_tree"
WRONG = "crates/jsonb/wrong/every_kind_is_null.edit"
LINE, LEFT = 19, 22


def the_call():
    """The promise in words, the clause on its lines, and the body of the call."""
    call = function_in(f"{TOP}/{FILE}", CALL)
    promise, clause = call.promise(CLAUSE)
    clause = [it.strip() for it in clause]
    body = "\n".join(call.lines[call.body + 1:call.end]).strip()
    return promise, [clause[0], *(f"    {it}" for it in clause[1:])], body


def draw(read):
    promise, clause, body = the_call()
    sentence, lines = Specs(*SPECS).definition(DEFINITION)
    wrong = dict(line.split(": ", 1) for line in read(WRONG).strip().split("\n"))
    assert wrong["old"] == body and FILE.endswith(wrong["file"]), wrong
    boxes = Drawing(
        920, 446, "How a proof carries a promise",
        "A promise in words becomes a clause of a function. The clause cites a definition, which a "
        "reader has to believe. The prover accepts the body of the function, and has to refuse a "
        "wrong body.")
    wide, gap = 876, 28
    half = LETTER * 13 * max(map(len, lines)) + 28

    def box(x, y, width, color, title, rows, kind="mono", about=""):
        boxes.box(x, y, width, 34 + LINE * len(rows), color)
        boxes.text(x + 12, y + 21, title, "title", "start")
        boxes.text(x + width - 12, y + 21, about, "dim small", "end")
        for number, row in enumerate(rows):
            boxes.text(x + 12, y + 42 + LINE * number, row, kind, "start")
        return y + 34 + LINE * len(rows)

    end = box(LEFT, 22, wide, "plain", "The promise, in words", [promise], "")
    boxes.arrow(f"M{LEFT + 80} {end}V{end + 32}")
    boxes.text(LEFT + 92, end + 22, "is said exactly by", "dim", "start")
    at = end + 34
    clause_end = box(LEFT, at, wide, "blue", f"The clause {CLAUSE} of {CALL}", clause,
                     about="src/raw.rt")
    lines_at = clause_end + 42
    boxes.arrow(f"M{LEFT + 80} {clause_end}V{lines_at - 2}")
    boxes.text(LEFT + 92, clause_end + 26, "cites what a reader has to believe", "dim", "start")
    lines_end = box(LEFT, lines_at, half, "amber", "The definition", lines, about="specs/Kind.antt")
    boxes.text(LEFT + 12, lines_end + 18, f"“{sentence}” It cites others, down to bytes.",
               "dim small", "start")
    x = LEFT + half + gap
    width = wide - half - gap
    boxes.arrow(f"M{x + 80} {clause_end}V{lines_at - 2}")
    boxes.text(x + 92, clause_end + 26, "is proved of the body", "dim", "start")
    body_end = box(x, lines_at, width, "green", "The body: the prover accepts it", [body],
                   about="src/raw.rt")
    wrong_at = body_end + 40
    boxes.arrow(f"M{x + 80} {body_end}V{wrong_at - 2}", has_head=False)
    boxes.text(x + 92, body_end + 25, "and is false of this one", "dim", "start")
    wrong_end = box(x, wrong_at, width, "red", "A wrong body: it is refused",
                    re.findall(r".{1,50}(?:\)|$)", wrong["new"]), about="crates/jsonb/wrong")
    boxes.text(x + 12, wrong_end + 18, "If it passed, the clause would say too little.",
               "dim small", "start")
    return boxes
