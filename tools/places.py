#!/usr/bin/env python3
"""Lists the places in crates/*/src that docs/DESIGN-PASS.md counts, one line a place, and the count of each kind.

    python3 tools/places.py          the counts
    python3 tools/places.py -l       the places too

It goes by text: what it lists is what a reader looks at, not what has to change.
"""
import collections
import glob
import re
import sys

LISTS = ("globals", "participants", "nodes", "held", "queued")


def sources():
    for path in sorted(glob.glob("crates/*/src/*.rt")):
        text = open(path).read()
        cut = text.find("#[cfg(test)]")
        if cut >= 0:
            text = text[:cut]
        yield path[len("crates/"):], re.sub(r"//[^\n]*", "", text)


def body(text, at):
    """The text between the braces that open at or after `at`."""
    start = text.index("{", at)
    depth = 0
    for i in range(start, len(text)):
        depth += {"{": 1, "}": -1}.get(text[i], 0)
        if depth == 0:
            return text[start + 1:i]
    return text[start + 1:]


def functions(text):
    """Of each function: its name, its parameters and result, its body without contract."""
    for m in re.finditer(r"^( *)(?:pub )?(?:const )?fn (\w+)", text, re.M):
        rest = text[m.start():]
        contract = re.search(r"\n *(?:requires|ensures)", rest)
        at_once = re.search(r"\{\n", rest)
        if at_once and (not contract or at_once.start() < contract.start()):
            opens = at_once.start()
        else:
            alone = re.search(r"\n%s\{\n" % m.group(1), rest)
            if not alone:
                continue
            opens = alone.end() - 2
        signature = re.split(r"\n *(?:requires|ensures)", rest[:opens])[0]
        yield m.group(2), signature, body(rest, opens)


def declared(kind, text):
    for m in re.finditer(r"^(?:pub )?%s (\w+)[^{;\n]*\{" % kind, text, re.M):
        yield m.group(1), body(text, m.start())


def shape(code):
    """The code with every name and number made the same, so that functions that differ only in these are equal."""
    tokens = re.findall(r"\w+|[^\w\s]", code)
    names, out = {}, []
    for t in tokens:
        if t in ("if", "else", "match", "while", "for", "in", "let", "mut", "return", "as", "true", "false"):
            out.append(t)
        elif re.match(r"\d", t):
            out.append("0")
        elif re.match(r"\w", t):
            out.append("n%d" % names.setdefault(t, len(names)))
        else:
            out.append(t)
    return " ".join(out)


def places():
    found = collections.defaultdict(list)
    shapes = collections.defaultdict(list)
    constants = collections.defaultdict(list)
    for path, text in sources():
        for name, inside in declared("enum", text):
            variants = [v for v in re.split(r",(?![^(]*\))", re.sub(r"#\[[^\]]*\]", "", inside)) if v.strip()]
            payload = [v for v in variants if "(" in v]
            if len(variants) == 2 and payload or re.search(r"\b(Fine|Broken|Refused)\b", inside):
                found["1 enums like Option or Result"].append((path, name))
        for name, inside in declared("struct", text):
            for field in re.findall(r"(\w+): (?:bool|u64)", inside):
                if field in ("won", "kind", "state", "number", "then", "owner", "digits", "cell", "line"):
                    found["1 flags and kinds beside values"].append((path, "%s.%s" % (name, field)))
        for m in re.finditer(r"Refused\(\d+\)|pick\(\w+(?: [!=]= 0)?, \d+, \w+\)|pick\(\w+, \w+, \d+\)|return \d+;", text):
            if path.split("/")[0] in ("internal", "checks", "survey", "reclaimer", "player"):
                found["1 refusals by number"].append((path, m.group(0)))
        for name, signature, inside in functions(text):
            if re.search(r"-> Checked\b|-> io::Result<bool>|: Checked\b|afresh: bool", signature):
                found["1 functions of such a value"].append((path, name))
            lists = [x for x in LISTS if re.search(r"\b%s: &" % x, signature)]
            if len(lists) >= 3:
                found["5 functions that take three of the five lists or more"].append((path, name))
            if len(re.findall(r"\w+|[^\w\s]", inside)) > 4:
                shapes[shape(inside)].append((path, name))
            if re.match(r"pick|both|least|part$|wide$|one_fewer", name):
                found["2 helpers for what the language or std has"].append((path, name))
            if re.search(r"\(\w+\.\w+ == \w+\.\w+\)\s*& \(", inside):
                found["4 equality by hand"].append((path, name))
            if re.search(r"=> \d+,", inside) and re.search(r"number|owner", name) or name in ("owner_of", "pointee_of", "pred_of"):
                found["4 conversion by hand"].append((path, name))
            if re.search(r"b'0'|48 \+|% 10\b|d >= 0", inside):
                found["4 printing by hand"].append((path, name))
            if re.search(r"\b(\w+): &(?:mut )?\[u\d+\],\s*(?:\w+: usize,\s*)?k: usize", signature):
                found["6 a list with a length beside it"].append((path, name))
            if len(re.findall(r"(\b\w+): \w+\.\1,", inside)) >= 3:
                found["4 fields copied one by one"].append((path, name))
            arms = re.findall(r"=> (true|false),", inside)
            if len(arms) >= 4 and len(set(re.findall(r"=> ([^,]+),", inside))) <= 3:
                found["1 matches that list every case for a bool"].append((path, name))
            if re.search(r"\b(\w+): \1,", inside):
                found["4 fields named twice, `x: x`"].append((path, name))
        facts = collections.defaultdict(list)
        for m in re.finditer(r"fn (\w+)[^{]*?((?:\n *requires [^\n]*\{(?:[^{}]|\{[^{}]*\})*\})+)", text):
            for clause in re.findall(r"\{((?:[^{}]|\{[^{}]*\})*)\}", m.group(2)):
                for fact in re.split(r" × ", re.sub(r"\.(now|old)\b", "", clause)):
                    facts[" ".join(fact.replace("(", " ").replace(")", " ").split())].append(m.group(1))
        for fact, names in sorted(facts.items()):
            if len(names) >= 3:
                found["5 facts in the `requires` of three functions or more"].extend((path, "%s: %s" % (fact, n)) for n in names)
        for name, value in re.findall(r"const (\w+): \w+ =\s*([^;]+);", text):
            constants[name].append((path, name))
        for m in re.finditer(r"^ *while ([^\n{]*)", text, re.M):
            found["3 loops by `while`"].append((path, m.group(1)))
        for m in re.finditer(r"\bdyn \b|\bfn\(", text):
            found["7 dyn, function pointers"].append((path, m.group(0)))
    for group in shapes.values():
        if len(group) > 1:
            found["2 functions that differ in names and numbers alone"].extend(group)
    for group in constants.values():
        if len(group) > 1:
            found["2 constants with more than one home"].extend(group)
    return found


def main():
    found = places()
    for kind in sorted(found):
        print("%-60s %d" % (kind, len(found[kind])))
        if "-l" in sys.argv:
            for path, what in found[kind]:
                print("    %s: %s" % (path, what))


main()
