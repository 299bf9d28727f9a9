#!/usr/bin/env python3
"""Lists the places in a repository's code that a plainer form of the language may serve, point by point.

    python3 tools/places.py [FOLDER]

FOLDER is the top of the repository, this one where none is given. A line is a place to look at, not a fault: it is for
the reader to say which of them are. docs/DESIGN-PASS.md says what came of each.
"""
import collections
import glob
import os
import re
import sys

TOP = sys.argv[1] if len(sys.argv) > 1 else os.path.join(os.path.dirname(__file__), "..")
KEYWORDS = set("fn let mut match if else for in while loop return break self Self pub crate Some None Ok Err true false as impl".split())


def sources():
    for path in sorted(glob.glob(os.path.join(TOP, "crates/*/src/**/*.rt"), recursive=True)):
        with open(path, encoding="utf-8") as f:
            yield os.path.relpath(path, TOP), f.read().split("\n")


def lines(pattern, skip=None):
    for path, text in sources():
        for number, line in enumerate(text, 1):
            code = line.split("//")[0]
            if re.search(pattern, code) and not (skip and re.search(skip, code)):
                yield f"{path}:{number}: {line.strip()}"


def functions():
    """Each function: where it is, its name, and its code without comments and clauses."""
    for path, text in sources():
        at = 0
        while at < len(text):
            if not re.match(r"\s*(pub(\(crate\))? )?fn \w+", text[at]):
                at += 1
                continue
            start, name = at, re.search(r"fn (\w+)", text[at]).group(1)
            depth, body, seen = 0, [], False
            while at < len(text):
                code = re.sub(r'"(\\.|[^"\\])*"', '""', text[at].split("//")[0])
                clause = re.match(r"\s*(requires|ensures)\b", code)
                if not clause:
                    body.append(code)
                    depth += code.count("{") - code.count("}")
                    seen = seen or "{" in code
                at += 1
                if (seen and depth <= 0) or (not seen and not clause and code.rstrip().endswith(";")):
                    break
                if clause and code.rstrip().endswith(";"):
                    break
            yield f"{path}:{start + 1}", name, " ".join(body)


def shape(code):
    tokens = re.findall(r"[A-Za-z_]\w*|\d\w*|\"\"|'[^']*'|[^\s\w]", code)
    kept = []
    for token in tokens:
        if token in KEYWORDS:
            kept.append(token)
        elif re.match(r"[A-Za-z_]", token):
            kept.append("x")
        elif re.match(r"\d", token):
            kept.append("0")
        else:
            kept.append(token)
    return kept


def twins():
    """Functions that are alike but for their names, types and constants."""
    groups = collections.defaultdict(list)
    for where, name, code in functions():
        tokens = shape(code)
        if len(tokens) >= 20 and "/tests.rt" not in where:
            groups[" ".join(tokens)].append(f"{where} {name}")
    for group in groups.values():
        if len(group) > 1:
            yield " ~ ".join(group)


def repeated_clauses():
    """Clauses that stand in three functions or more, and parameters that stand together in three or more."""
    clauses = collections.Counter()
    groups = collections.Counter()
    for _, text in sources():
        for line in text:
            clause = re.match(r"\s*(?:requires|ensures)\*? (?:\w+ )?\{ (.*) \},?;?$", line)
            if clause:
                clauses[re.sub(r"\b(old|new|now|entry|exit)\b", "now", clause.group(1))] += 1
            found = re.search(r"fn \w+(?:<[^(]*>)?\((.*)\)", line)
            if found:
                names = re.findall(r"(\w+): ", found.group(1))
                for a in range(len(names)):
                    for b in range(a + 1, len(names)):
                        groups[f"{names[a]}, {names[b]}"] += 1
    for text, count in clauses.most_common():
        if count >= 3:
            yield f"{count} times: {text}"
    for text, count in groups.most_common():
        if count >= 3:
            yield f"{count} functions take: {text}"


def proofs():
    answers = files = lemmas = total = 0
    names, everything = [], []
    for path in sorted(glob.glob(os.path.join(TOP, "crates/*/**/*.antt"), recursive=True)):
        relative = os.path.relpath(path, TOP)
        if "/out/" in relative:
            continue
        with open(path, encoding="utf-8") as f:
            text = f.read()
        everything.append(text)
        if "/proofs/" not in relative:
            continue
        total += text.count("\n")
        if relative.endswith("Answers.antt"):
            files += 1
            answers += len(re.findall(r"^pub \S+ : goal\.", text, re.M))
        elif not relative.endswith(("Invariants.antt", "Lib.antt")):
            found = re.findall(r"^(?:pub )?([a-z]\S*) :", text, re.M)
            lemmas += len(found)
            names += [(relative, name) for name in found]
    for path, text in sources():
        everything.append("\n".join(text))
    counts = collections.Counter(re.findall(r"[\w'-]+", "\n".join(everything)))
    yield f"{total} lines of proofs; {answers} answers in {files} files; {lemmas} lemmas"
    for path, name in names:
        if counts[name] <= 1 or (counts[name] == 2 and not re.search(rf"{re.escape(name)}.*\n.*\b{re.escape(name)}\b", "")):
            uses = sum(1 for text in everything if re.search(rf"(?<![\w'-]){re.escape(name)}(?![\w'-])", text))
            if uses <= 1 and counts[name] <= 2:
                yield f"cited nowhere else: {path} {name}"


def show(title, found):
    found = list(found)
    print(f"== {title}: {len(found)}")
    for line in found:
        print(line)


show("1 enums", lines(r"^\s*(pub(\(crate\))? )?enum "))
show("1 kinds and refusals as numbers", lines(r"code: u8|[<(]u8, Refusal>|fn \w+_code\b.*Option<u8>|fn reason\(|if code =="))
show("1 flags", lines(r"^\s*(pub(\(crate\))? )?\w+: bool,|let mut \w+ = (true|false);"))
show("1 an error or a missing value passed on by hand", lines(r"Err\(\w+\) => return Err|else \{$", r"\} else \{$|^\s*(if|let .*= if)"))
show("2 functions of one shape", twins())
show("3 loops", lines(r"^\s*(while |loop\b|'\w+: loop|for )"))
show("3 counted by hand", lines(r"(\+|-)= 1;"))
show("4 equality, copying, conversion and printing", lines(
    r"fn (same|is|row|number|word|heading|letter|line|write|of|none|one|two|event|[a-z]*_(number|letter|operation|of|at|word|mode|code|kind))[<(]|impl .*\b(PartialEq|Clone|Copy|Default) for"))
show("5 said or passed again and again", repeated_clauses())
show("6 buffers and lengths", lines(r"\[[\w:<> ]+; [\w ]+\]|\bcount: (usize|u8)|&'static \[u8\]|-> &'a \[u8\]"))
show("7 switches", lines(r"Pass\b|if code ==|cutting|match code|match kind"))
show("8 proofs", proofs())
