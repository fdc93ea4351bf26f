#!/usr/bin/env python3
"""Lists the places in src/ that are written as an older Rattle asked for, by the points of docs/DESIGN-PASS.md.

    python3 tools/places.py [POINT..]        from the top of the repository

A pattern finds a form, not a fault: some places that it finds are as they should be, and docs/DESIGN-PASS.md says of
each that is left why it stays.
"""
import glob
import re
import sys

# point, what is looked for, a pattern over the text of a whole file
FORMS = [
    (1, "an arm, or an `else`, that only hands a None or an Err on",
     r"(None => (?:return )?None|Err\((\w+)\) => (?:return )?Err\(\2\)|None => return Err|else \{\s*(?:return )?None;?\s*\})"),
    (1, "an Option that is an error", r"Option<(?:Refusal|Fault|Shortage)>"),
    (1, "`let .. else` or `if let` that only returns an Err", r"(?:else|refusal\(.*\)) \{\s*return Err\("),
    (1, "a number of a refusal by a match of one's own", r"=> \d+,"),
    (1, "a flag beside a value", r"\b(?!ghost)\w+: bool\b|let mut first = true"),
    (1, "a number that stands for nothing", r"\{\s*0\s*\}"),
    (2, "a walk with an answer `true` or `false` at its first find", r"return (?:true|false);\s*\}\s*\}"),
    (2, "a buffer of numbers with a count beside it", r"\[u32; \w+\],\s*(?:pub )?count: usize"),
    (2, "tables with room got at once, and that fact beside each", r"ghost \w+: \{ \w+ ≤ vec_capacity \w+ \}"),
    (2, "arms of one match that differ in the variant alone", r"(Line::(?:And|Or|Not|AllNext|SomeNext|AllUntil|SomeUntil) \{ [^}]*\} =>)"),
    (2, "a function that differs from another in a type or a name",
     r"fn (?:blank_rows|blank_witnesses|draft_call|sheet_call|limit|follow|state_refusal|edge_refusal|label_refusal)\b"),
    (3, "an index, a count down or a flag that a loop keeps by hand",
     r"for \w+ in (?:\()?(?:\w+|first)\.\.(?!case)(?!states)[^\n]*|let mut (?:left|first|refused|checks) = |for \((?:i|at), [^\n]*enumerate|while self\.\w+ <"),
    (4, "equality by hand", r"fn (?:equals|same|joins|says|same_boxes)\b"),
    (4, "a conversion by hand", r"fn (?:number|letter|character|of|read|copied|draft_call|sheet_call|from)\((?!&self)"),
    (4, "a type without derived comparison", r"#\[derive\((?:Clone, Copy|Drop)\)\]"),
    (5, "a fact about an argument that other contracts repeat",
     r"requires (?:lent|known|small|apart|letter|most|few|ordered)?\s*\{ [^}]*\}"),
    (5, "parameters that travel together", r"rows: &(?:mut )?\[Row<K::Box>\]|table: &(?:mut )?\[Witness<K::Box>\]"),
    (6, "an array or a buffer with its length or its use beside it",
     r"(?:lengths|words|numbers|values|boxes|marks): (?:&mut )?\[|bytes: Vec|count: usize"),
    (7, "a step by its number or its name", r"Step::\w+\)? =>|variable: usize,|piece: usize,"),
]


def main():
    wanted = {int(a) for a in sys.argv[1:]}
    files = sorted(f for f in glob.glob("crates/*/src/**/*.rt", recursive=True) if not f.startswith("crates/tests/"))
    totals = {}
    for point, what, pattern in FORMS:
        if wanted and point not in wanted:
            continue
        found = []
        for name in files:
            text = open(name, encoding="utf-8").read()
            for m in re.finditer(pattern, text):
                line = text.count("\n", 0, m.start()) + 1
                found.append(f"  {name}:{line}: {' '.join(m.group(0).split())[:90]}")
        totals[point] = totals.get(point, 0) + len(found)
        print(f"point {point}, {what}: {len(found)}")
        for f in found:
            print(f)
    print("\n".join(f"point {p}: {n}" for p, n in sorted(totals.items())))


main()
