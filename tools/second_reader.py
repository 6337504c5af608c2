#!/usr/bin/env python3
"""A second reader of netlists, written apart from the proved one, and the cases that both must agree on.

    tools/second_reader.py           writes crates/cases/data, args and stdout
    tools/second_reader.py --check   says whether they are what it would write
    tools/second_reader.py FILE      reads one netlist and prints what the cases program would
"""
import os
import re
import sys

ROOT = os.path.dirname(os.path.dirname(os.path.abspath(__file__)))
CASES = os.path.join(ROOT, "crates", "cases")
KINDS = {b"AND": (2, 4), b"NAND": (2, 4), b"OR": (2, 4), b"NOR": (2, 4), b"XOR": (2, 4), b"XNOR": (2, 4), b"NOT": (1, 1), b"BUFF": (1, 1)}
WORDS = {1: "misform", 2: "kind", 3: "pins", 4: "unknown", 5: "redriven", 6: "over", 7: "bare"}


class Refused(Exception):
    def __init__(self, number, line, column, layer):
        self.told = (number, line, column, layer)


def tokens(row, number):
    """(kind, text, line, column) of each token; the last is where the line ends."""
    found = []
    code = row.split(b"#", 1)[0]
    for m in re.finditer(rb"[A-Za-z0-9_]+|[^ \t\r]", code):
        word = m.group()
        sort = "name" if re.match(rb"[A-Za-z0-9_]", word) else word.decode("latin1")
        found.append((sort, word, number, m.start() + 1))
    return found + [("end", b"", number, len(row) + 1)]


def form(toks, wanted):
    """The tokens fit the wanted sorts one by one."""
    for tok, sort in zip(toks, wanted):
        if tok[0] != sort:
            raise Refused(1, tok[2], tok[3], "statement")
    return toks


def statement(toks):
    """None, or (what, name token, kind, pin tokens)."""
    head = toks[0]
    if head[0] == "end":
        return None
    if head[0] != "name":
        raise Refused(1, head[2], head[3], "statement")
    if head[1] in (b"INPUT", b"OUTPUT"):
        toks = toks + [toks[-1]] * 5
        form(toks, ["name", "(", "name", ")", "end"])
        return (head[1].decode(), toks[2], None, [])
    wide = toks + [toks[-1]] * 5
    form(wide, ["name", "=", "name", "(", "name"])
    at, pins = 5, [wide[4]]
    while wide[at][0] == ",":
        if wide[at + 1][0] != "name":
            raise Refused(1, wide[at + 1][2], wide[at + 1][3], "statement")
        pins.append(wide[at + 1])
        at += 2
    form(wide[at:], [")", "end"])
    word = wide[2]
    if word[1] not in KINDS:
        raise Refused(2, word[2], word[3], "statement")
    least, most = KINDS[word[1]]
    if not least <= len(pins) <= most:
        raise Refused(3, word[2], word[3], "statement")
    return ("GATE", head, word[1].decode(), pins)


def read(text):
    """(lines, outputs): lines are (name, kind, pins), an input's kind is INPUT and its pins its number."""
    if len(text) > 65536:
        raise Refused(6, 0, 0, "netlist")
    lines, names, asked, inputs = [], {}, [], 0
    rows = text.split(b"\n")
    for number, row in enumerate(rows, 1):
        said = statement(tokens(row, number))
        if said is None:
            continue
        what, name, kind, pins = said

        def refuse(n, tok):
            raise Refused(n, tok[2], tok[3], "statement")

        if len(name[1]) > 16:
            refuse(6, name)
        if what == "OUTPUT":
            if len(asked) == 63:
                refuse(6, name)
            asked.append(name)
            continue
        if len(lines) == 1024 or (what == "INPUT" and inputs == 64):
            refuse(6, name)
        for pin in pins:
            if len(pin[1]) > 16:
                refuse(6, pin)
        if name[1] in names:
            refuse(5, name)
        fed = []
        for pin in pins:
            if pin[1] not in names:
                refuse(4, pin)
            fed.append(names[pin[1]])
        if what == "INPUT":
            lines.append((name[1], "INPUT", [inputs]))
            inputs += 1
        else:
            lines.append((name[1], kind, fed))
        names[name[1]] = len(lines) - 1
    outputs = []
    for name in asked:
        if name[1] not in names:
            raise Refused(4, name[2], name[3], "netlist")
        outputs.append(names[name[1]])
    if inputs == 0 or not outputs:
        raise Refused(7, 0, 0, "netlist")
    return lines, outputs


def depth(lines):
    levels = []
    for _, kind, pins in lines:
        levels.append(0 if kind == "INPUT" else 1 + max(levels[p] for p in pins))
    return max(levels)


def report(name, text):
    try:
        lines, outputs = read(text)
    except Refused as refused:
        number, line, column, layer = refused.told
        return ["%s: refusal %d, %s, at %d:%d, %s" % (name, number, WORDS[number], line, column, layer)]
    inputs = sum(1 for l in lines if l[1] == "INPUT")
    out = ["%s: accepted, %d lines, %d inputs, %d outputs, depth %d" % (name, len(lines), inputs, len(outputs), depth(lines))]
    if len(lines) <= 16:
        for i, (word, kind, pins) in enumerate(lines):
            out.append("  %d %s %s %s" % (i, word.decode(), kind, " ".join(map(str, pins))))
        out.append("  shows %s" % " ".join(map(str, outputs)))
    return out


ABC = b"INPUT(a)\nINPUT(b)\nINPUT(c)\nOUTPUT(y)\nOUTPUT(z)\nm = NAND(a, b)\ny = OR(m, c)\nz = AND(m, c)\n"
C17 = open(os.path.join(ROOT, "crates", "safd", "data", "c17.bench"), "rb").read()


def cases():
    yield "abc", ABC
    yield "c17", C17
    yield "no-final-end", ABC[:-1]
    yield "carriage-returns", ABC.replace(b"\n", b"\r\n")
    yield "tabs-and-tight", b"\tINPUT\t(a)\nINPUT(b)#b\n y=AND(a,b)\n  OUTPUT ( y ) # shown\n"
    yield "comments", b"# a card\n#\nINPUT(a) # first\n   # nothing\ny = NOT(a)#tight\nOUTPUT(y)\n# end"
    yield "blank-lines", b"\n\n \t\r\nINPUT(a)\n\nOUTPUT(a)\n\n\n"
    yield "output-of-input", b"INPUT(a)\nOUTPUT(a)\n"
    yield "output-first-and-twice", b"OUTPUT(y)\nOUTPUT(y)\nINPUT(a)\ny = BUFF(a)\nOUTPUT(a)\n"
    yield "every-kind", b"INPUT(a)\nINPUT(b)\nc=AND(a,b)\nd=NAND(a,b,c)\ne=OR(a,b,c,d)\nf=NOR(a,e)\ng=XOR(f,e,d)\nh=XNOR(g,g)\ni=NOT(h)\nj=BUFF(i)\nOUTPUT(j)\n"
    yield "keywords-as-names", b"INPUT(INPUT)\nINPUT(OUTPUT)\nINPUT(AND)\nx = AND(INPUT, OUTPUT, AND)\nOUTPUT(INPUT)\n"
    yield "same-pin-twice", b"INPUT(a)\ny = XOR(a, a, a, a)\nOUTPUT(y)\n"
    yield "digits-and-case", b"INPUT(7)\nINPUT(Aa)\nINPUT(aA)\n_ = OR(7, Aa, aA)\nOUTPUT(_)\n"
    # 1, misform
    yield "misform-first", b"INPUT(a)\n= AND(a, a)\n"
    yield "misform-byte", b"INPUT(a)\ny = AND(a; a)\n"
    yield "misform-above-127", b"INPUT(\xe9)\n"
    yield "misform-zero-byte", b"INPUT(a)\n\x00\n"
    yield "misform-above-127-in-comment", b"INPUT(a) # \xff\xe9\nOUTPUT(a)\n"
    yield "misform-line-ends", b"INPUT(a)\ny = AND(a,\n"
    yield "misform-text-ends", b"INPUT(a)\ny = AND(a"
    yield "misform-comment-ends", b"INPUT(a)\ny = AND(a, # b)\n"
    yield "misform-after", b"INPUT(a) b\n"
    yield "misform-two-statements", b"INPUT(a) INPUT(b)\n"
    yield "misform-input-drives", b"INPUT = AND(a, b)\n"
    yield "misform-output-drives", b"OUTPUT = NOT(a)\n"
    yield "misform-no-pins", b"INPUT(a)\ny = AND()\n"
    yield "misform-no-name", b"INPUT()\n"
    yield "misform-double-comma", b"INPUT(a)\ny = AND(a,,a)\n"
    yield "misform-dash", b"INPUT(a-b)\n"
    yield "misform-two-names", b"INPUT(a b)\n"
    yield "misform-only-name", b"INPUT(a)\n  lonely   \n"
    yield "misform-before-kind", b"INPUT(a)\ny = FROB(a) z\n"
    yield "misform-lower-keyword", b"input(a)\n"
    # 2, kind
    yield "kind-unknown", b"INPUT(a)\ny = MUX(a, a)\n"
    yield "kind-lower", b"INPUT(a)\ny = nand(a, a)\n"
    yield "kind-longer", b"INPUT(a)\ny = ANDD(a, a)\n"
    yield "kind-buf", b"INPUT(a)\ny = BUF(a)\n"
    yield "kind-before-pins-over", b"INPUT(a)\naaaaaaaaaaaaaaaaa = DFF(a)\n"
    # 3, pins
    yield "pins-four", b"INPUT(a)\ny = AND(a, a, a, a)\nOUTPUT(y)\n"
    yield "pins-five", b"INPUT(a)\ny = AND(a, a, a, a, a)\nOUTPUT(y)\n"
    yield "pins-one", b"INPUT(a)\ny = OR(a)\n"
    yield "pins-not-two", b"INPUT(a)\ny =  NOT(a, a)\n"
    yield "pins-buff-two", b"INPUT(a)\ny = BUFF(a, b)\n"
    yield "pins-before-over", b"INPUT(a)\naaaaaaaaaaaaaaaaa = NOT(a, a)\n"
    # 4, unknown
    yield "unknown-pin", b"INPUT(a)\ny = AND(a, b)\nINPUT(b)\nOUTPUT(y)\n"
    yield "unknown-self", b"INPUT(a)\ny = AND(a, y)\n"
    yield "unknown-leftmost", b"INPUT(a)\ny = AND(a, c, b)\n"
    yield "unknown-output", b"INPUT(a)\nOUTPUT(a)\n  OUTPUT( b )\nOUTPUT(c)\n"
    yield "unknown-output-after-statements", b"OUTPUT(z)\nINPUT(a)\nINPUT(a)\n"
    # 5, redriven
    yield "redriven-input", b"INPUT(a)\nINPUT(a)\n"
    yield "redriven-gate", b"INPUT(a)\nINPUT(b)\nb = NOT(a)\n"
    yield "redriven-before-unknown", b"INPUT(a)\na = NOT(q)\n"
    # 6, over
    yield "name-16", b"INPUT(abcdefghijklmnop)\nOUTPUT(abcdefghijklmnop)\n"
    yield "name-17", b"INPUT(abcdefghijklmnopq)\nOUTPUT(abcdefghijklmnopq)\n"
    yield "name-17-output", b"INPUT(a)\nOUTPUT(abcdefghijklmnopq)\n"
    yield "name-17-pin", b"INPUT(a)\na = AND(a, q, abcdefghijklmnopq, bcdefghijklmnopqrs)\n"
    yield "name-17-driven-before-pin", b"INPUT(a)\nabcdefghijklmnopq = AND(a, bcdefghijklmnopqrs)\n"
    yield "names-differ-at-16", b"INPUT(abcdefghijklmno1)\nINPUT(abcdefghijklmno2)\nOUTPUT(abcdefghijklmno2)\n"
    inputs = b"".join(b"INPUT(i%d)\n" % i for i in range(64))
    yield "inputs-64", inputs + b"OUTPUT(i63)\n"
    yield "inputs-65", inputs + b"INPUT(i64)\nOUTPUT(i63)\n"
    yield "inputs-65-redriven", inputs + b" INPUT(i3)\nOUTPUT(i63)\n"
    outputs = b"OUTPUT(a)\n" * 63
    yield "outputs-63", b"INPUT(a)\n" + outputs
    yield "outputs-64", b"INPUT(a)\n" + outputs + b"OUTPUT(a)\n"
    chain = b"INPUT(g0)\n" + b"".join(b"g%d = NOT(g%d)\n" % (i, i - 1) for i in range(1, 1024))
    yield "lines-1024", chain + b"OUTPUT(g1023)\n"
    yield "lines-1025", chain + b"g1024 = NOT(g1023)\nOUTPUT(g1023)\n"
    yield "lines-1025-input", chain + b"INPUT(z)\nOUTPUT(g1023)\n"
    yield "lines-1025-before-long-pin", chain + b"z = NOT(abcdefghijklmnopq)\n"
    fill = b"INPUT(a)\nOUTPUT(a)\n"
    yield "text-65536", fill + b"#" * (65536 - len(fill))
    yield "text-65537", fill + b"#" * (65537 - len(fill))
    yield "text-65537-misform", b"(" * 65537
    # 7, bare
    yield "bare-empty", b""
    yield "bare-comment", b"# nothing\n"
    yield "bare-no-output", b"INPUT(a)\ny = NOT(a)\n"
    yield "bare-no-input", b"OUTPUT(y)\n"


def made():
    files, args, told = {}, [], []
    for name, text in cases():
        file = name + ".bench"
        assert file not in files, file
        files[file] = text
        args.append(file)
        told += report(file, text)
    return files, "\n".join(args) + "\n", "\n".join(told) + "\n"


def main():
    files, args, told = made()
    data = os.path.join(CASES, "data")
    if sys.argv[1:] == ["--check"]:
        same = set(os.listdir(data)) == set(files)
        same = same and all(open(os.path.join(data, f), "rb").read() == t for f, t in files.items())
        same = same and open(os.path.join(CASES, "args")).read() == args and open(os.path.join(CASES, "stdout")).read() == told
        print("the stored cases are %sthose of the second reader" % ("" if same else "not "))
        sys.exit(0 if same else 1)
    if sys.argv[1:]:
        print("\n".join(report(sys.argv[1], open(sys.argv[1], "rb").read())))
        return
    os.makedirs(data, exist_ok=True)
    for file in os.listdir(data):
        os.remove(os.path.join(data, file))
    for file, text in files.items():
        with open(os.path.join(data, file), "wb") as out:
            out.write(text)
    with open(os.path.join(CASES, "args"), "w") as out:
        out.write(args)
    with open(os.path.join(CASES, "stdout"), "w") as out:
        out.write(told)


main()
