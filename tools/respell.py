#!/usr/bin/env python3
"""Brings the names that specs/ and proofs/ declare to snake case: `constEval` to `const_eval`, `same-span` to `same_span`.

usage: python3 tools/respell.py [--list]       at the top of the repository

It goes by whole words, in .antt files, in the clauses of .rt files, in must-fail edits, in tools/definition_edits and in the
code spans of pages. Names that Rattle makes of the code (a function's goals) keep their spelling, and so do names of
functions and files. --list writes nothing and shows each name beside its new spelling. What would meet another name is shown
on a line that begins 'meets:' and stays.
"""
import collections
import os
import re
import sys

NAME = r'[^\s(){}.;,@"«»]+'
WORD = re.compile(NAME)
ALONE = re.compile(rf"(?<![.\w]){NAME}(?![.\w])")
DECLARED = re.compile(rf"^\s*(?:(?:unfoldable|abbrev|pub|mutual|where|ruleset) +)*({NAME})(?= :\s)", re.M)
CASES = re.compile(rf"^\s*(?:pub )?ruleset ({NAME}) =", re.M)
COMMENT = re.compile(r"(?:(?<=\s)|^)--[^\n]*", re.M)
QUIET = re.compile(r'"[^"\n]*"|(?:(?<=\s)|^)--[^\n]*', re.M)
SPAN = re.compile(r"`[^`\n]*`")
# a file of specs/ whose name Rattle now takes for a module of its own, but for the case of a letter
MODULES = {"Rattle.rl_spec.specs.Contracts": "Rattle.rl_spec.specs.FnContracts"}
# fields of a definition's record and of a struct, and names that stand in no file beside one another but in comments
KEPT = {"is_result", "temp_counter"}
# lemmas in snake case whose names definitions take
LEMMAS = {w: w + "_lem" for w in "all_have branch_to field_in fields_in is_err item_by put_four record_of result_unwrap".split()}


def snake(name):
    name = re.sub(r"(?<=[a-z0-9₀-₉'])[A-Z](?![A-Z])", lambda m: "_" + m[0].lower(), name)
    name = name.replace("-", "_")
    return re.sub(r"\bget_d(?=_|$)", "get_or", name)


def files(root, *kinds):
    for folder, inside, names in os.walk(root):
        inside[:] = sorted(d for d in inside if d not in ("out", "target", ".git"))
        for f in sorted(names):
            if f.endswith(kinds):
                yield os.path.join(folder, f)


def read(path):
    with open(path, encoding="utf-8") as f:
        return f.read()


def of_function(path):
    """Whether a file belongs to one function's proof: proofs/F/.. with a small first letter or '+'."""
    parts = path.split("/proofs/")
    return len(parts) == 2 and "/" in parts[1] and parts[1].rsplit("/", 1)[1] in ("Proof.antt", "Answers.antt", "Invariants.antt")


def of_libraries(text):
    """The names that a file takes from the libraries, which keep their spelling there."""
    taken = set()
    for module, items in re.findall(r"\buse ([^\s;{]+?)\.\{([^}]*)\}", text):
        if not module.startswith("Rattle.rl_"):
            for item in items.split(","):
                taken.update(item.split(" as ")[-1].split())
    return taken


def table():
    own, made, seen = set(), set(), collections.defaultdict(set)
    for path in files("crates", ".antt"):
        text = COMMENT.sub("", read(path))
        names = set(DECLARED.findall(text)) | set(CASES.findall(text))
        (made if of_function(path) else own).update(names)
        for m in ALONE.finditer(text):
            seen[m[0]].add(path)
    turned = {}
    for w in sorted(own):
        if not re.match(r"[a-z]", w) or w.endswith("-") or not re.search(r"[a-z0-9₀-₉'][A-Z]|-|get_d_", w):
            continue
        new = snake(w)
        if new != w:
            turned[w] = new
    # of a definition and a lemma on it that would meet, the lemma gets `_lem`; so does a lemma that meets a name of its file
    back = collections.defaultdict(list)
    for w, new in sorted(turned.items(), key=lambda it: ("-" in it[0], it[0])):
        back[new].append(w)
    for new, words in back.items():
        for w in words[1:]:
            turned[w] = new + "_lem"
    met = []
    for w, new in list(turned.items()):
        others = seen.get(new, set()) & seen.get(w, set())
        if others and "-" in w and not new.endswith("_lem"):
            new = turned[w] = new + "_lem"
            others = seen.get(new, set()) & seen.get(w, set())
        if (others and new not in LEMMAS and new not in KEPT) or sum(n == new for n in turned.values()) > 1:
            met.append((w, new, sorted(others)[:3]))
    return turned, made, met


def turn(text, names):
    return WORD.sub(lambda m: names.get(m[0], m[0]), text)


def turn_antt(text, names):
    out, at = [], 0
    for m in QUIET.finditer(text):
        out.append(turn(text[at : m.start()], names))
        out.append(m[0] if m[0].startswith('"') else turn_prose(m[0], names))
        at = m.end()
    out.append(turn(text[at:], names))
    return "".join(out)


def turn_lemmas(text):
    """Lemmas whose names definitions take; comments and texts in quotes stay."""
    out, at = [], 0
    for m in QUIET.finditer(text):
        out += [ALONE.sub(lambda w: LEMMAS.get(w[0], w[0]), text[at : m.start()]), m[0]]
        at = m.end()
    return "".join(out) + ALONE.sub(lambda w: LEMMAS.get(w[0], w[0]), text[at:])


def turn_prose(text, names):
    text = SPAN.sub(lambda m: "`" + turn(m[0][1:-1], names) + "`", text)
    return re.sub(r"\b[a-z][a-z0-9]*[A-Z]\w*\b", lambda m: names.get(m[0], m[0]), text)


def turn_file(path, change):
    text = read(path)
    new = change(text)
    if new != text:
        with open(path, "w", encoding="utf-8") as f:
            f.write(new)


def main():
    turned, made, met = table()
    for w, new, where in met:
        print("meets:", w, new, *where)
    if "--list" in sys.argv[1:]:
        for w in sorted(turned):
            print(w, turned[w], "(made too)" if w in made else "")
        return
    for w, *_ in met:
        turned.pop(w, None)
    own_only = {w: n for w, n in turned.items() if w not in made}
    for path in files("crates", ".antt", ".rt", ".edit"):
        text = read(path)
        new = text
        if path.endswith(".antt"):
            new = turn_lemmas(text)
        names = own_only if of_function(path) else turned
        borrowed = of_libraries(text)
        new = turn_antt(new, {w: n for w, n in names.items() if w not in borrowed} if borrowed & names.keys() else names)
        if new != text:
            with open(path, "w", encoding="utf-8") as f:
                f.write(new)
    for old, new in MODULES.items():
        _, crate, _, name = old.split(".")
        last = new.rsplit(".", 1)[1]
        here = f"crates/{crate}/specs"
        if os.path.exists(f"{here}/{name}.antt"):
            os.rename(f"{here}/{name}.antt", f"{here}/{last}.antt")
            turn_file(f"{here}/Lib.antt", lambda text: re.sub(rf"\bmod {name}\b", "mod " + last, text))
            for path in list(files("crates", ".antt", ".rt", ".edit")) + list(files("tools/definition_edits", ".edit")):
                turn_file(path, lambda text: re.sub(re.escape(old) + r"\b", new, text).replace(f"{here}/{name}.antt", f"{here}/{last}.antt"))
    for path in files("tools/definition_edits", ".edit"):
        turn_file(path, lambda text: text.replace("file: specs/Contracts.antt", "file: specs/FnContracts.antt"))
    pages = list(files("docs", ".md")) + list(files("tools", ".edit", ".md")) + list(files("samples", ".md")) + list(files("examples", ".md")) + ["README.md"]
    for path in pages:
        text = read(path)
        new = turn(text, turned) if path.endswith(".edit") else turn_prose(text, turned)
        if new != text:
            with open(path, "w", encoding="utf-8") as f:
                f.write(new)


main()
