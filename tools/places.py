#!/usr/bin/env python3
"""Counts places in crates/*/src and crates/*/proofs by the points of docs/DESIGN-PASS.md, and lists them.

usage: python3 tools/places.py [--count] [FOLDER]    FOLDER holds crates/, and is this repository if it is left out

What is found by form is a place to look at: the page says what became of each.
"""
import collections
import os
import re
import sys

WORD = re.compile(r"[A-Za-z_]\w*|\d[\w.]*|\"(?:[^\"\\]|\\.)*\"|'(?:[^'\\]|\\.)'|[^\s\w]")
KEYWORDS = set("fn pub let mut if else for in match while loop return struct enum impl trait as ref self Self Some None Ok Err "
               "true false continue break where const static mod use dyn move Result Option usize u8 u16 u32 u64 bool str Vec".split())


class Function:
    def __init__(self, path, line, name, head, body):
        self.path, self.line, self.name, self.head, self.body = path, line, name, head, body

    def place(self):
        return f"{self.path}:{self.line} {self.name}"


def without_tests(text):
    at = text.find("#[cfg(test)]")
    return text if at < 0 else text[:at] + "\n" * text[at:].count("\n")


def functions(path, text):
    for m in re.finditer(r"^([ ]*)(?:pub(?:\(crate\))? )?(?:extern \"C\" )?fn (\w+)", text, re.M):
        indent = m.group(1)
        rest = text[m.start():]
        open_at = re.search(r"^%s\{\n|\) *(?:-> [^\n{]*)?\{\n|\{ *\}\n" % indent, rest, re.M)
        stop = re.search(r";\n", rest)
        close = re.search(r"^%s\}\n" % indent, rest, re.M)
        if not open_at or not close or (stop and stop.start() < open_at.start() and "{" not in rest[:stop.start()]):
            continue
        head = rest[:open_at.start()]
        yield Function(path, text.count("\n", 0, m.start()) + 1, m.group(2), head, rest[open_at.start():close.start()])


def clauses(head):
    return [(m.group(2) or "", m.group(3).strip()) for m in
            re.finditer(r"^\s+(requires|ensures)(?: (\w+))? \{(.*)\}\s*$", head, re.M) if m.group(1) == "requires"]


def parameters(head):
    inside = head[head.find("("):]
    depth, text = 0, ""
    for ch in inside:
        depth += ch in "(["
        depth -= ch in ")]"
        if depth == 0:
            break
        text += ch
    return re.findall(r"(?:^|[(,])\s*(?:mut )?(\w+)\s*:", text)


def normal(fn):
    names, out = {}, []
    for word in WORD.findall(re.sub(r"//[^\n]*", "", fn.body)):
        if word in KEYWORDS or not (word[0].isalnum() or word[0] in "_\"'"):
            out.append(word)
        else:
            out.append(names.setdefault(word, f"#{len(names)}"))
    return " ".join(out)


def arms(fn, pattern):
    """The arms of a body that is one `match`, if each of them has the form."""
    body = [line.strip() for line in fn.body.strip().split("\n")]
    body = [line for line in body if line and line not in "{}" and not line.startswith("match ") and not line.startswith("//")]
    return len(body) > 1 and all(re.fullmatch(pattern, line) for line in body)


def enum_shapes(path, text):
    for m in re.finditer(r"^(?:pub )?enum (\w+)[^{]*\{\n(.*?)^\}", text, re.M | re.S):
        variants = re.findall(r"^    (\w+)(\([^)]*\)|\{[^}]*\}| \{[^}]*\})?(?: = \d+)?,", m.group(2), re.M)
        if len(variants) == 2 and any(held for _, held in variants):
            yield f"{path}:{text.count(chr(10), 0, m.start()) + 1} enum {m.group(1)}"


def main():
    words = [w for w in sys.argv[1:] if w != "--count"]
    root = words[0] if words else os.path.join(os.path.dirname(os.path.abspath(__file__)), "..")
    found = collections.defaultdict(list)
    every = []
    for folder, dirs, files in os.walk(os.path.join(root, "crates")):
        dirs[:] = sorted(d for d in dirs if d not in ("out", "target"))
        for file in sorted(files):
            full = os.path.join(folder, file)
            path = os.path.relpath(full, os.path.join(root, "crates"))
            if path.endswith(".antt") and "/proofs/" in path:
                text = open(full, encoding="utf-8").read()
                found["8 lines of proofs"] += [""] * text.count("\n")
                if os.path.basename(path) == "Answers.antt":
                    found["8 answers"] += [path] * len(re.findall(r"^pub [\w-]+ :", text, re.M))
                continue
            if not path.endswith(".rt") or "/src/" not in path:
                continue
            text = without_tests(open(full, encoding="utf-8").read())
            found["1 an enum of two, one with a value"] += enum_shapes(path, text)
            for m in re.finditer(r"^.*\bErr\([^)]*\) => (?:return |\{?\s*return )?.*Err\(.*$|^.*\bErr\([^)]*\) => return .*$|^.*\bOk\((\w+)\) => \1,$", text, re.M):
                found["1 a match that hands an error or a value on"].append(f"{path}:{text.count(chr(10), 0, m.start()) + 1} {m.group(0).strip()[:60]}")
            for m in re.finditer(r"^impl(?:<[^>]*>)? From<.*Error.*$|^impl(?:<[^>]*>)? From<AllocFailed.*$|^impl From<Fault>.*$|^impl From<String>.*$", text, re.M):
                found["4 `From` of an error, by hand"].append(f"{path}:{text.count(chr(10), 0, m.start()) + 1} {m.group(0)[:60]}")
            for m in re.finditer(r"^\s*(?:(?:\w+: )?(\w+): \[[^\]]*\],\n\s+(?:len|count): usize)", text, re.M):
                found["6 a buffer with its length beside it"].append(f"{path}:{text.count(chr(10), 0, m.start()) + 1} {m.group(1)}")
            for fn in functions(path, text):
                every.append(fn)
                if arms(fn, r"[\w:|( ).]+ => \d+,") or arms(fn, r"self as u8|\w+ as u8"):
                    found["1 an enum to its number"].append(fn.place())
                if arms(fn, r"(?:\d+|_) => [\w:()]+,"):
                    found["4 a number to an enum"].append(fn.place())
                if arms(fn, r"[\w:|( ),.&]+ => (?:true|false|[\w.]+),") and re.search(r"=> (?:true|false),", fn.body):
                    found["4 a test of cases, written out"].append(fn.place())
                if arms(fn, r"[\w:|( ),]+ => \"[^\"]*\",|\"[^\"]*\",?"):
                    found["4 an enum to a word"].append(fn.place())
                if arms(fn, r"(?:\"[^\"]*\"|_) => (?:Some\([\w:]+\)|None|Ok\([\w:]+\)|Err\(.*\)),"):
                    found["4 a word to an enum"].append(fn.place())
                if fn.name in ("eq", "same", "ne", "cmp", "partial_cmp") or re.search(r"\bif \w+ \{ 1 \} else \{ 0 \}", fn.body):
                    found["4 equality or a flag's number, written out"].append(fn.place())
                for m in re.finditer(r"\b(?:while|loop)\b[^\n]*\{", fn.body):
                    found["3 `while` and `loop`"].append(fn.place())
                for m in re.finditer(r"for (\w+) in \(?[^\n{]*\.\.[^\n{]*\{\n((?:.*\n)*)", fn.body):
                    indexed = re.search(r"\w\[%s\]" % m.group(1), m.group(2))
                    key = "3 a `for` over numbers that indexes a slice" if indexed else "3 a `for` over numbers that indexes nothing"
                    found[key].append(fn.place())
                for m in re.finditer(r"^\s+\w[\w.]* \+= (?:1|\w[^;\n]*);", fn.body, re.M):
                    found["3 a count or sum kept by hand"].append(fn.place())
                for m in re.finditer(r"\w+\[n\] = ", fn.body):
                    found["6 rows written at a count"].append(fn.place())
                if len(parameters(fn.head)) >= 7:
                    found["5 seven parameters and more"].append(fn.place())
    by_shape = collections.defaultdict(list)
    for fn in every:
        text = normal(fn)
        if text.count(" ") >= 14 and fn.name not in ("fmt", "main"):
            by_shape[text].append(fn)
    for twins in by_shape.values():
        if len(twins) > 1:
            found["2 functions alike but for names"].append(" = ".join(fn.place() for fn in twins))
    fault = [fn for fn in every if re.search(r"Fault \{\s*refusal", fn.body)]
    found["2 a fault put together by hand"] += [fn.place() for fn in fault]
    facts = collections.defaultdict(set)
    for fn in every:
        for name, text in clauses(fn.head):
            facts[re.sub(r"\s+", " ", text)].add(fn.place())
    for text, places in sorted(facts.items()):
        if len(places) >= 3:
            found["5 a fact that three contracts or more ask for"].append(f"{len(places)} times: {text[:90]}")
    for key in sorted(found):
        print(f"{key}: {len(found[key])}")
        if "--count" not in sys.argv and not key.startswith("8"):
            for place in found[key]:
                print(f"    {place}")


main()
