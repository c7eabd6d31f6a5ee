#!/usr/bin/env python3
"""Counts the places in src/ that docs/DESIGN-PASS.md speaks of: run at the top of the repository, with -v to see each."""
import collections
import difflib
import glob
import itertools
import re
import sys

LINES = {
    "1 own enums": r"^\s*(pub(\(crate\))? )?enum ",
    "1 fields of type bool": r"^\s+(pub(\(crate\))? )?\w+: bool,",
    "1 success told by a bool": r"Result<bool>|Ok\(false\)|\) -> bool \{?$.*found|if !(agrees|same|inner) \{",
    "1 Option in a Result for a failure": r"Result<Option<|Ok\(None\)",
    "1 numbers that stand for none or for kinds": r"(None|_|Err\(_\)|Group \{ \.\. \}) => 0,|else \{ 0 \}|\(0, 0, 0\)|, 0, 0\)|0 is none",
    "1 an Option or Result taken apart and made again": r"None => (Err|None|Ok|true|Next|return (Ok|Err))|Some\(\w+\) => Ok|Err\(_\) =>|Err\(\w+\) => (return )?(Err|Note)|Ok\(\w+\) => (Ok|Note)|return Err\(refusal\(|let Some\(\w+\) = .* else",
    "3 loops": r"^\s*('\w+: )?(while|loop|for) ",
    "3 loops over numbers or with a count of their own": r"^\s*('\w+: )?(while (?!let)|loop|for \w+ in \(?[\w.()]+\.\.)|^\s+\w+ \+= 1;",
    "4 by hand: bytes of numbers": r"% 256|256 \*|/ 256|& 0xffff",
    "4 by hand: equality and printing": r"fn (print_refusal|words|tell|refuse|print_answer|same_nodes)\b",
    "6 fixed buffers, counts and parallel Vecs": r"^\s+(pub )?\w+: (\[[\w<>]+; \w+\]|Vec<(bool|\[bool; 16\])>),|^\s+(pub(\(crate\))? )?count: usize,|^    let mut (ends|used) = ",
    "7 a switch for which step to run": r"Kind::\w+, text|match (hand|kind) \{|(commit|abandon)_with|Store::Image\(",
}


def sources():
    return sorted(glob.glob("crates/*/src/**/*.rt", recursive=True))


def functions(text):
    """Each function's name, parameters, clauses and body."""
    for m in re.finditer(r"^( *)(?:pub(?:\(crate\))? )?fn (\w+)", text, re.M):
        indent, name = m.groups()
        end = text.find(f"\n{indent}}}\n", m.start())
        yield name, text[m.start() : end if end > 0 else len(text)]


def closing(text, at):
    """Where the bracket that stands at a place is closed; the sign of an arrow closes nothing."""
    pairs, depth = {"(": ")", "<": ">"}, 0
    opened, closed = text[at], pairs[text[at]]
    for i in range(at, len(text)):
        if text[i] == opened:
            depth += 1
        elif text[i] == closed and text[i - 1 : i + 1] != "->":
            depth -= 1
            if depth == 0:
                return i
    return len(text)


def parameters(function):
    """The names of a function's parameters."""
    at = re.search(r"fn \w+", function).end()
    if function[at] == "<":
        at = closing(function, at) + 1
    inside = function[at + 1 : closing(function, at)]
    while re.search(r"[(<\[][^()<>\[\]]*[)>\]]", inside):
        inside = re.sub(r"[(<\[][^()<>\[\]]*[)>\]]", "", inside)
    return re.findall(r"(\w+)\s*:", inside)


def parts(function):
    """A function's parameters, the facts that it requires, and its body on one line."""
    facts = []
    for clause in re.findall(r"^\s*requires (?:\w+ )?\{(.*)\}\s*$", function, re.M):
        plain = re.sub(r"\.(old|now|new)\b", ".x", clause)
        facts += [part.strip("() ") for part in plain.split(" × ")]
    brace = function.find("{\n")
    body = re.sub(r"\s+", " ", function[function.rfind("\n{\n") if "\n{\n" in function else brace :])
    return parameters(function), facts, body


def main():
    verbose = "-v" in sys.argv
    found = collections.defaultdict(list)
    bodies = []
    for path in sources():
        text = open(path).read()
        for number, line in enumerate(text.split("\n"), 1):
            for what, form in LINES.items():
                if re.search(form, line):
                    found[what].append(f"{path}:{number}: {line.strip()}")
        for name, function in functions(text):
            names, facts, body = parts(function)
            bodies.append((path, name, body))
    for what in LINES:
        print(f"{len(found[what]):4} {what}")
        if verbose:
            print("".join(f"       {place}\n" for place in found[what]), end="")
    twins = []
    for (p, a, x), (q, b, y) in itertools.combinations(bodies, 2):
        if len(x) > 60 and len(y) > 60 and p.split("/")[1] == q.split("/")[1] or a == b == "main":
            if difflib.SequenceMatcher(None, x, y).quick_ratio() > 0.9:
                if difflib.SequenceMatcher(None, x, y).ratio() > 0.8:
                    twins.append(f"{p}: {a} and {q}: {b}")
    print(f"{len(twins):4} 2 pairs of functions whose bodies are four fifths alike")
    if verbose:
        print("".join(f"       {twin}\n" for twin in twins), end="")
    repeated, together = [], []
    for crate in sorted({path.split("/")[1] for path in sources()}):
        facts, groups = collections.Counter(), collections.Counter()
        for path in glob.glob(f"crates/{crate}/src/**/*.rt", recursive=True):
            for name, function in functions(open(path).read()):
                names, needed, _ = parts(function)
                facts.update(set(needed))
                groups.update(itertools.combinations(sorted(set(names)), 2))
        repeated += [f"{crate}: {fact} ({n})" for fact, n in facts.items() if n >= 3]
        together += [f"{crate}: {', '.join(group)} ({n})" for group, n in groups.items() if n >= 3]
    print(f"{len(repeated):4} 5 facts that three or more functions of a crate require")
    if verbose:
        print("".join(f"       {fact}\n" for fact in repeated), end="")
    print(f"{len(together):4} 5 pairs of parameters that three or more functions of a crate take")
    if verbose:
        print("".join(f"       {pair}\n" for pair in together), end="")
    answers = glob.glob("crates/*/proofs/**/Answers.antt", recursive=True)
    lemmas = [path for path in glob.glob("crates/*/proofs/*.antt") if not path.endswith("Lib.antt")]
    lines = sum(len(open(path).readlines()) for path in answers)
    of_lemmas = sum(len(open(path).readlines()) for path in lemmas)
    print(f"{len(answers):4} 8 files of answers ({lines} lines), {len(lemmas)} files of lemmas ({of_lemmas} lines)")


main()
