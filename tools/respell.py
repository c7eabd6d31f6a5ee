#!/usr/bin/env python3
"""Spells this repository's own definitions and lemmas as today's Rattle does: words in snake case, types in camel case.

usage: python3 tools/respell.py            at the top of a tree that port.py has just turned

It reads which names specs/ and proofs/ define, and respells each of them wherever it stands as a whole word in a .rt or .antt file.
Names that Rattle makes (steps, goals, arms) are left as they are, and so is what stands in strings and comments of src/.
"""
import collections
import glob
import re

WORD = r"[A-Za-z0-9_'ᴰ·₀-₉-]+"
# What would fall together with another name gets one of its own.
APART = {
    "blank-rows": "blank_rows_lem",
    "end-fault": "end_fault_lem",
    "every-run": "every_run_lem",
    "every-size": "every_size_lem",
    "is-tried": "is_tried_lem",
    "match-at": "match_at_lem",
    "read-elements": "read_elements_lem",
    "read-records": "read_records_lem",
    "sign-fault": "sign_fault_lem",
    "variable-of": "variable_of_lem",
}


def files(*ends):
    return sorted(p for e in ends for p in glob.glob(f"crates/**/*.{e}", recursive=True) if "/out/" not in p)


def defined():
    kinds = collections.defaultdict(set)
    for p in files("antt"):
        inside, deep, module = None, 0, False
        for line in open(p, encoding="utf-8"):
            depth = len(line) - len(line.lstrip())
            head = re.match(rf"^\s*(?:pub |abbrev |unfoldable )*(record|data)\s+({WORD})", line)
            item = re.match(rf"^\s*(?:pub |abbrev |unfoldable )*({WORD})\s*:\s*(.*)$", line)
            if re.match(r"^\s*module\b", line):
                inside, module = None, True
            elif head:
                inside, deep = head.group(1), depth
                kinds[head.group(2)].add("type")
            elif item and inside and depth == deep + 2:
                kinds[item.group(1)].add("field" if inside == "record" else "case")
            elif item and (depth == 0 or (module and not (inside and depth > deep) and p.count("/") == 3)):
                inside = None
                if not re.match(r"(goal|need)\.", item.group(2)):
                    kinds[item.group(1)].add("type" if re.search(r"Type 0\s*$", item.group(2)) else "item")
    return kinds


def spelled(name, kinds):
    if name in APART:
        return APART[name]
    if "type" in kinds or name[0].isupper():
        return "".join(w[:1].upper() + w[1:] for w in name.split("-"))
    return name.replace("-", "_")


def turned(text, names, fields, code):
    skipped = re.compile(r'"(?:[^"\\]|\\.)*"|//[^\n]*' if code else r"--[^\n]*")
    pieces, at = [], 0
    for m in [*skipped.finditer(text), None]:
        end = m.start() if m else len(text)
        pieces.append(re.sub(WORD, lambda w, offset=at: at_place(w, offset, text, names, fields), text[at:end]))
        if m:
            pieces.append(m.group(0))
            at = m.end()
    return "".join(pieces)


def at_place(m, offset, full, names, fields):
    w = m.group(0)
    if w not in names:
        return w
    start = offset + m.start()
    before = full[max(0, start - 200) : start]
    if before.endswith("."):
        path = re.search(r"[\w.+·'-]*\.$", before).group(0)
        if re.match(r"(goal|need)\.", path) or (w not in fields and not path.startswith("Rattle.")):
            return w
    return names[w]


def main():
    kinds = defined()
    names = {n: spelled(n, k) for n, k in kinds.items() if spelled(n, k) != n}
    fields = {n for n, k in kinds.items() if "field" in k}
    back = collections.defaultdict(set)
    for n in kinds:
        back[names.get(n, n)].add(n)
    for n, olds in sorted(back.items()):
        if len(olds) > 1:
            print(f"falls together: {n} from {', '.join(sorted(olds))}")
    source = "\n".join(open(p, encoding="utf-8").read() for p in files("rt"))
    for n in sorted(set(names.values())):
        if re.search(rf"\b(fn|const|struct|enum|trait|type|mod|let|let mut) {re.escape(n)}\b", source) or re.search(rf"^\s*(pub )?{re.escape(n)}: ", source, re.M):
            print(f"is a name of src/ too: {n} ({', '.join(sorted(back[n]))}: {sorted(set().union(*(kinds[o] for o in back[n])))})")
    for p in files("rt", "antt"):
        text = open(p, encoding="utf-8").read()
        new = turned(text, names, fields, p.endswith(".rt"))
        if new != text:
            open(p, "w", encoding="utf-8").write(new)
    print(f"{len(names)} names")


if __name__ == "__main__":
    main()
