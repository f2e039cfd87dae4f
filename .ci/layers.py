"""Makes the text of the picture of the layers, of `crates.txt` and of what each layer claims.

A layer has the crates that it is named by and all below them, but for those of the layers beneath. So each crate stands on crates of its own layer and of those beneath, and on no others."""

import sys

from rattle import libraries, reached

TITLE = "The layers: what each claims to those above it"
WIDE, LEFT = 34, 16
# From the bottom upward: a layer's name (with a star the one that the picture is about), the crates that it is named by (the last one has all that is left), and what is claimed of some crates, or of none by name.
LAYERS = (
    ("the words", "jr_word", (("jr_word", "what each word says, exactly, for every word"),)),
    ("the machine", "jr_model", (("jr_model", "the laws of its histories: no deleted handle resolves|again; stays and collections exclude each other;|what is named is present; .."),)),
    ("*the waist", "jr_steps", (("jr_steps", "*the trait Steps: each step adds its event to one*|*legal history, behind all that its thread had seen*"),)),
    ("the gate", "jr_gate", (("jr_gate", "a stay and a collection exclude each other"),)),
    ("what calls|are made of", "jr_row jr_elements jr_critical jr_census", (
        ("jr_critical", "all levels of a region lie in one stay"),
        ("jr_census", "what stands in a room is told of one step"),
        ("jr_weak  jr_compact", "exactly what nothing reaches goes; moves keep lists"),
        ("jr_elements  jr_heap", "a copy is a list of its own; objects are lists"),
        ("jr_frames  linked_lists", "a thread's local references are lists of lists"),
        ("jr_row", "references are created, looked up and deleted"),
        ("", "this layer and the gate are proved from the waist's|contract alone"),
    )),
    ("the room", "jr_rule", (("jr_rule", "keeps the waist's contract, by RoomSteps, PlainSteps:|the words are the image of the history's state"),)),
    ("the calls", "jr", (
        ("jr", "all names of the calls"),
        ("jr_alive", "a dump tells why an object is alive"),
        ("jr_stressed", "each answer is the env's, or a refusal that the machine lists"),
        ("jr_owned", "a room is closed by the last who owns it"),
        ("jr_threads", "a room is closed with a pass of each thread"),
        ("jr_env", "each call has the events, the answer and the|refusals of the machine's call"),
    )),
    ("scripts", "jr_scripts", (
        ("jr_scripts", "what a run prints is explained by one legal history"),
        ("jr_syntax", "a text is one script or has a first fault"),
        ("jr_world", "each call in its steps, without handles"),
        ("one_order", "what threads tell of one history is one order"),
    )),
    ("programs|and tests", "", (
        ("jrefs", "bytes in, bytes out"),
        ("jexplain", "the same scripts, told to people"),
        ("luthrady", "the calls, for Rust and C"),
        ("small_vm  first_room", "what an embedder's program has to have, and its|first hour"),
    )),
)
EDGES = {"top": "┌─┐", "between": "├─┤", "bottom": "└─┘", "opened": "╔═╗", "closed": "╚═╝"}


def members(named, tops, beneath):
    """Returns the crates of a layer."""
    found = {under for it in tops.split() for under in (it, *reached(it, named))} if tops else named
    return [it for it in named if it in found and it not in beneath]


def rows(crates, claims):
    """Yields the lines of a layer: names, and what is claimed. Those of which nothing is claimed by name follow side by side."""
    for names, claim in claims:
        for part in claim.split("|"):
            yield names, part
            names = ""
    line = ""
    for it in [it for it in crates if it not in " ".join(names for names, _ in claims).split()]:
        if len(f"{line}  {it}") > WIDE - 2:
            yield line, ""
            line = ""
        line = f"{line}  {it}".strip()
    if line:
        yield line, ""


def drawn(name, crates, claims):
    """Returns the lines of a layer, without its borders."""
    lost = [it for names, _ in claims for it in names.split() if it not in crates]
    if lost or not crates:
        sys.exit(f".ci/layers.py: by crates.txt the layer '{name}' has no {' '.join(lost) or 'crate'}")
    side, found = "║" if name.startswith("*") else "│", [*rows(crates, claims)]
    labels = name.strip("*").split("|") + [""] * len(found)
    return [f"  {label:{LEFT - 2}}{side} {names:{WIDE - 2}} {side}  {claim}".rstrip() for label, (names, claim) in zip(labels, found)]


def border(above, beneath):
    """Returns what stands between two layers, or at an end: the one that the picture is about has borders of its own."""
    ends = ["closed" if above.startswith("*") else "bottom"] if above else []
    begins = ["opened" if beneath.startswith("*") else "top"] if beneath else []
    both = ["between"] if ends + begins == ["bottom", "top"] else ends + begins
    return [" " * LEFT + EDGES[it][0] + EDGES[it][1] * WIDE + EDGES[it][2] for it in both]


def layers():
    """Returns the text of the picture."""
    named, beneath, found = libraries(), [], []
    for name, tops, claims in LAYERS:
        crates = members(named, tops, beneath)
        beneath += crates
        found.insert(0, (name, drawn(name, crates, claims)))
    lines, above = [TITLE, ""], ""
    for name, inside in found:
        lines += [*border(above, name), *inside]
        above = name
    kit = dict.fromkeys(it for names in named.values() for it in names if it not in named)
    return "\n".join([*lines, *border(above, ""), f"  {'of the kit':{LEFT}}{'  '.join(['std', *kit])}"]) + "\n"
