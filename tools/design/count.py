#!/usr/bin/env python3
"""Counts the places that docs/DESIGN-PASS.md speaks of, by text.

    python3 tools/design/count.py [FOLDER] [--list]

FOLDER is a checkout, this one if none is named. A line for each search; with --list also each place that it finds.
"""
import collections
import glob
import os
import re
import sys

SEARCHES = [
    # point, name, pattern over one line of a file of src/
    ("1", "an Option for a fault", r"-> Option<\w*Fault>"),
    ("1", "a match or test that hands an error on by hand", r"Err\(fault\) => Err\(fault\)|unreachable\(\)|Err\(fault\) => Some\(fault\)"),
    ("1", "a bool in a field, a case, a parameter or the answer of a call that also writes", r"^\s*\w+: bool,|\(.*\bbool\)|\w+: bool[,)]|Result<bool>|^\s*\) -> bool|&mut .*\) -> bool"),
    ("1", "a case that stands for nothing", r"^\s+(Nothing|Pass|End|None),"),
    ("1", "a text for a kind of refusal", r"(Reason|Error|Unread)\(&'static str\)"),
    ("1", "a number for a refusal", r"number: u16,$"),
    ("3", "a loop over a range of numbers", r"\bfor \w+ in \(?[\w.]+\.\."),
    ("3", "a counter that is moved by hand", r"^\s*(while\b|\w[\w.]* \+= 1;|\w+ = \w+\.(wrapping|saturating)_add\(1\);)"),
    ("4", "a function that converts", r"fn (named|from_byte|of|field_name|element)\("),
    ("4", "a cast", r"\bas (u8|u16|u32|usize)\b(?!;$)"),
    ("4", "bytes of a number by hand", r"[*/%] 256|& 255|& 65535|>> 8"),
    ("4", "a comparison element by element", r"\[0\] (!=|==) .*(\|\||&&)|len\(\) == 1 && .*\[0\]"),
    ("4", "a function that prints a value", r"fn (print|say)_\w+"),
    ("6", "an array of which a part is used", r"\[[^;\]]*; ?(64|128|276|512|8192|MOST_\w+|SHELF_LEN)\]"),
    ("6", "a list of bytes written by index pairs", r"\[2 \* k|\[i \* 2"),
    ("7", "a match whose arms differ in the field alone", r"(FieldChoice|FieldName)::Byte => \{?$|(FieldChoice|FieldName)::Byte\)? => \w+\(|Ok\(FieldChoice::Byte\) => "),
    ("7", "a macro, a table of functions, a dyn", r"macro_rules!|\bdyn\b|: fn\("),
    ("7", "a match on a word", r'^\s+"\w+" => \w+\('),
]


def sources(top):
    return sorted(glob.glob(os.path.join(top, "crates", "*", "src", "**", "*.rt"), recursive=True))


def items(text):
    """Each function with its clauses and its body, and each struct, enum and impl, as (kind, name, text)."""
    out = []
    for m in re.finditer(r"^( *)(?:pub(?:\([\w ]+\))? )?(fn|struct|enum|impl)\b(.*)$", text, re.M):
        indent = m.group(1)
        if m.group(0).rstrip().endswith(("{}", ";")):
            continue
        end = re.search(r"^" + indent + r"\}", text[m.start():], re.M)
        bodiless = re.search(r"^ +(ensures|requires).*\};$|^" + indent + r"\{$", text[m.start():], re.M)
        if m.group(2) == "fn" and bodiless and bodiless.group(0).endswith(";"):
            continue
        if end:
            name = re.match(r"[^({]*", m.group(3)).group(0).strip()
            out.append((m.group(2), name, text[m.start():m.start() + end.end()]))
    return out


def shape(text, names=True):
    """The text with each name by its place of first appearance, and each literal as one sign."""
    text = re.sub(r"//[^\n]*", "", text)
    text = re.sub(r'b?"(?:[^"\\]|\\.|\\\n)*"|b?\'.\'|\b\d[\w]*', "#", text)
    seen = {}
    keep = {"fn", "pub", "for", "in", "if", "else", "let", "mut", "match", "return", "impl", "struct", "enum", "ensures", "requires", "result",
            "ghost", "self", "Ok", "Err", "Some", "None", "Self", "const", "crate", "where"}
    words = []
    for w in re.findall(r"\w+|[^\w\s]", text):
        if re.match(r"[A-Za-z_]", w) and w not in keep:
            w = "n%d" % seen.setdefault(w, len(seen))
        words.append(w)
    return " ".join(words), len(words)


def twins(top):
    groups = collections.defaultdict(list)
    for f in sources(top):
        for kind, name, text in items(open(f).read()):
            s, n = shape(text)
            if n >= 25:
                groups[(kind, s)].append(f"{os.path.relpath(f, top)}: {kind} {name}")
    return [g for g in groups.values() if len(g) > 1]


def clauses(top):
    """The facts that stand in the contracts of three functions or more of a crate, and the parameters that travel together."""
    facts = collections.defaultdict(set)
    pairs = collections.defaultdict(set)
    for f in sources(top):
        crate = os.path.relpath(f, top).split(os.sep)[1]
        for kind, name, text in items(open(f).read()):
            if kind != "fn":
                continue
            head = text.split("\n{", 1)[0]
            for m in re.finditer(r"(?:requires|ensures)(?: \w+)? \{((?:[^{}]|\{[^{}]*\})*)\}", head):
                facts[(crate, " ".join(m.group(1).split()))].add(name)
            params = re.findall(r"(\w+): ([^,\n]+)", head.split(" -> ")[0].split("\n        requires")[0])
            params = sorted({p for p, t in params if p not in ("F", "rt", "heap", "out", "result")})
            for i, a in enumerate(params):
                for b in params[i + 1:]:
                    pairs[(crate, a, b)].add(name)
    return ([(k, v) for k, v in facts.items() if len(v) > 2], [(k, v) for k, v in pairs.items() if len(v) > 2])


def answers(top):
    rows = []
    for c in sorted(glob.glob(os.path.join(top, "crates", "*"))):
        n = sum(len(re.findall(r"^pub \S+ : goal\.", open(f).read(), re.M)) for f in glob.glob(c + "/proofs/**/Answers.antt", recursive=True))
        lemmas = 0
        unused = []
        files = glob.glob(c + "/proofs/*.antt")
        text = {f: open(f).read() for part in ("specs", "proofs") for f in glob.glob(os.path.join(top, "crates", "*", part, "**", "*.antt"), recursive=True)}
        text.update({f: open(f).read() for f in sources(top)})
        for f in files:
            for m in re.finditer(r"^ *(?:abbrev |unfoldable )?pub ([^\s:]+) :", text[f], re.M):
                lemmas += 1
                word = re.compile(r"(?<![\w-])" + re.escape(m.group(1)) + r"(?![\w'-])")
                uses = sum(len(word.findall(t)) for g, t in text.items() if g != f)
                own = len([x for x in word.finditer(text[f])
                           if not re.match(r" *(?:abbrev |unfoldable )?(?:pub )?" + re.escape(m.group(1)) + r"(?= )",
                                           text[f][text[f].rfind("\n", 0, x.start()) + 1:])])
                if uses == 0 and own == 0:
                    unused.append(m.group(1))
        rows.append((os.path.basename(c), n, lemmas, unused))
    return rows


def main():
    listing = "--list" in sys.argv
    rest = [a for a in sys.argv[1:] if a != "--list"]
    top = rest[0] if rest else os.path.join(os.path.dirname(os.path.abspath(__file__)), "..", "..")
    top = os.path.abspath(top)

    def row(point, name, found):
        print(f"{point}  {len(found):4}  {name}")
        if listing:
            for x in found:
                print(f"            {x}")

    for point, name, pattern in SEARCHES:
        found = []
        for f in sources(top):
            for i, line in enumerate(open(f), 1):
                if re.search(pattern, line) and not line.strip().startswith("//"):
                    found.append(f"{os.path.relpath(f, top)}:{i}: {line.strip()}")
        row(point, name, found)
    row("2", "groups of functions, types and impls of one shape", [" = ".join(g) for g in twins(top)])
    facts, pairs = clauses(top)
    row("5", "facts in the contracts of three functions or more of a crate", [f"{k[0]}: {k[1]}: {', '.join(sorted(v))}" for k, v in facts])
    row("5", "pairs of parameters in three functions or more of a crate", [f"{k[0]}: {k[1]}, {k[2]}: {', '.join(sorted(v))}" for k, v in pairs])
    rows = answers(top)
    print(f"8  {sum(r[1] for r in rows):4}  answers; {sum(r[2] for r in rows)} lemmas, of which cited nowhere: {sum(len(r[3]) for r in rows)}")
    if listing:
        for r in rows:
            print(f"            {r[0]}: {r[1]} answers, {r[2]} lemmas; cited nowhere: {', '.join(r[3])}")


main()
