#!/usr/bin/env python3
"""Brings the names that the project's own definitions, lemmas, fields and rulesets have to the spelling of today's Rattle: snake case,
and modules in camel case. Run once, after the kit's own script. Names of src/, exported names, strings, inputs and outputs stay.

usage: tools/respell.py [--dry]        (from the project's root)
"""
import collections
import os
import re
import sys

TOKEN = re.compile(r"\"[^\"]*\"|[^\s(){};,.\"\[\]]+")
# Where a definition and a lemma about it, or a ruleset, would fall together: the one that is no definition gets another name.
OTHERWISE = {
    "bucket-at": "list_bucket", "byte-size": "byte_size_bounds", "bucket-bits": "bucket_bits_lem", "comes-first": "comes_first_lem",
    "curve-bytes": "curve_bytes_lem", "server-bytes": "server_bytes_lem", "curve-lines": "curve_line_rules", "raw-lines": "raw_line_rules",
    "server-lines": "server_line_rules", "server-held": "server_held_rules", "list-lines": "list_lines_clear", "line-text": "line_text_lem",
    "merged-sum": "merged_sum_lem", "no-numbers": "no_numbers_lem", "no-server": "no_server_there", "rounded-up": "is_rounded_up",
    "route-text": "route_text_lem", "up-to": "until",
    # names that the kit's script had turned already, beside a definition that it had not
    "cut_list": "cut_list_lem", "read_back": "read_back_is", "zero_bits": "zero_bits_lem",
}
ONLY_IN = {"crates/meaning/proofs/server/BothKinds.antt": {"at-most": "amount_at_most"}}
MODULES = ["curve", "outcome", "profile", "route", "server"]   # folders of lemmas in crates/meaning/proofs


def snake(w):
    if w.startswith("◌") and w.endswith("◌"):
        return "◌" + snake(w[1:-1]) + "◌"
    w = re.sub(r"(?<=[A-Za-z0-9'₀-₉])-(?=[A-Za-z0-9])", "_", w)
    if re.match(r"[a-z]", w):
        w = re.sub(r"(?<=[a-z0-9])([A-Z])", lambda m: "_" + m.group(1).lower(), w)
    return w


def code(line):
    """The part of an antt line before its comment."""
    m = re.search(r"(^|\s)--", line)
    return (line[: m.start()], line[m.start():]) if m else (line, "")


def antt_files():
    for top, dirs, files in os.walk("crates"):
        dirs[:] = sorted(d for d in dirs if d != "out")
        for f in sorted(files):
            if f.endswith(".antt"):
                yield os.path.join(top, f)


def imports(text):
    for m in re.finditer(r"^\s*(?:pub )?use ([^\s{;]+?)(?:\.\{([^}]*)\})?(?: as (\S+))?$", text, re.M):
        yield m.group(1).split("."), [x.strip().split(" as ")[0] for x in (m.group(2) or "").split(",") if x.strip()]


def names():
    own = set(os.listdir("crates"))
    outside, mine = set(), set()
    for path in antt_files():
        text = open(path, encoding="utf-8").read()
        for parts, items in imports(text):
            if not (parts[0] == "Rattle" and parts[1] in own):
                outside |= set(items) | set(parts)
        if not path.endswith("/Proof.antt"):
            for line in text.split("\n"):
                mine |= {t for t in TOKEN.findall(code(line)[0]) if not t.startswith('"')}
    turned = {w: snake(w) for w in mine if w not in outside and snake(w) != w}
    turned |= {w: n for w, n in OTHERWISE.items() if w in mine}
    return turned


def turn(text, turned):
    return TOKEN.sub(lambda m: turned.get(m.group(0), m.group(0)), text)


def main():
    dry = "--dry" in sys.argv
    turned = names()
    together = collections.defaultdict(set)
    for w, n in turned.items():
        together[n].add(w)
    for n, ws in sorted(together.items()):
        if len(ws) > 1:
            print("fall together:", n, sorted(ws))
    # in comments and pages a name with a dash may be two words: only names in camel case are turned there
    camel = {w: n for w, n in turned.items() if re.match(r"[a-z][a-z0-9]*[A-Z]", w)}
    for path in antt_files():
        here = turned | ONLY_IN.get(path, {})
        lines = open(path, encoding="utf-8").read().split("\n")
        out = []
        for line in lines:
            body, said = code(line)
            out.append(turn(body, here) + turn(said, camel))
        text = "\n".join(out)
        for m in MODULES:
            text = re.sub(r"(Rattle\.meaning\.proofs)\.%s(?=[.\s])" % m, r"\1." + m.capitalize(), text)
        if path == "crates/meaning/proofs/Lib.antt":
            text = re.sub(r"^((?:pub )?mod )(%s)$" % "|".join(MODULES), lambda m: m.group(1) + m.group(2).capitalize(), text, flags=re.M)
        text = text.replace(".specs.Contracts", ".specs.Cited")
        if path.endswith("/specs/Lib.antt"):
            text = re.sub(r"\bmod Contracts\b", "mod Cited", text)
        if not dry:
            open(path, "w", encoding="utf-8").write(text)
    for top, dirs, files in os.walk("crates"):
        dirs[:] = sorted(d for d in dirs if d != "out")
        for f in sorted(files):
            path = os.path.join(top, f)
            if f.endswith(".rt"):
                out, clause = [], 0
                for line in open(path, encoding="utf-8").read().split("\n"):
                    is_clause = clause > 0 or re.match(r"\s*(ghost |requires|ensures)", line)
                    if re.match(r"\s*//", line):
                        line = turn(line, camel)
                    elif is_clause:
                        line = turn(line, turned).replace(".specs.Contracts", ".specs.Cited")
                        if not re.match(r"\s*ghost use", line):
                            clause = max(0, clause + line.count("{") - line.count("}"))
                    out.append(line)
                if not dry:
                    open(path, "w", encoding="utf-8").write("\n".join(out))
    # the kit's script turned some names too: in the pages they still have their old spelling
    declared = set()
    for path in antt_files():
        if not path.endswith("/Proof.antt"):
            declared |= set(TOKEN.findall(open(path, encoding="utf-8").read()))
    edits = {f[: -len(".edit")] for _, _, files in os.walk("crates") for f in files if f.endswith(".edit")}

    def page(w):
        if w in turned or w in edits or snake(w) == w:
            return turned.get(w, w)
        return snake(w) if snake(w) in declared else w

    pages = ["README.md"] + [os.path.join(top, f) for top, _, files in os.walk("docs") for f in files if f.endswith(".md")]
    for path in sorted(pages):
        text = open(path, encoding="utf-8").read()
        new = re.sub(r"`[^`\n]+`", lambda m: "`" + TOKEN.sub(lambda t: page(t.group(0)), m.group(0)[1:-1]) + "`", text)
        new = re.sub(r"\b(%s)/(?=[A-Z])" % "|".join(MODULES), lambda m: m.group(1).capitalize() + "/", new)
        if dry:
            for a, b in zip(text.split("\n"), new.split("\n")):
                if a != b:
                    print("page", path, b)
        else:
            open(path, "w", encoding="utf-8").write(new)
    if dry:
        for w, n in sorted(turned.items()):
            print(w, n)
        return
    for top, dirs, files in os.walk("crates"):
        if os.path.basename(top) == "specs" and "Contracts.antt" in files:
            os.rename(os.path.join(top, "Contracts.antt"), os.path.join(top, "Cited.antt"))
    for m in MODULES:
        for old, new in ((m + ".antt", m.capitalize() + ".antt"), (m, m.capitalize())):
            p = os.path.join("crates/meaning/proofs", old)
            if os.path.exists(p):
                os.rename(p, os.path.join("crates/meaning/proofs", new))


main()
