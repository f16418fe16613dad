#!/usr/bin/env python3
"""Brings the repository's own definitions and lemmas to the spelling of today's Rattle, after the kit's port.py.

usage: python3 tools/names.py     at the top of the repository

Words are in snake case: what specs/ and proofs/ declare in camel case or with dashes (`waveAt`, `goes-on`) is respelled (`wave_at`,
`goes_on`) wherever it stands: in .antt files, in clauses and ghost imports of .rt files, in must-fail edits, and between backticks in
comments and in documents. Names of the library, of functions, types, modules, goals and files keep their spelling.
A name that would fall together with another gets the spelling that FALLS or FALLS_IN says. It stops where it meets one that they and LOOKED_AT lack.
"""
import collections
import glob
import os
import re
import sys

KIT = "/opt/rattle/rattle"
# Names that would fall together with another: their spelling here.
FALLS = {
    "bankBytes": "bytes_of_bank",
    "coord-scale": "coord_scale_lem",
    "edit-at": "edit_at_lem",
    "edit-table": "edit_table_lem",
    "example-printed": "example_printed_lem",
    "fields-on": "fields_on_lem",
    "in-float": "in_float_lem",
    "is-nan": "is_nan_lem",
    "map-held": "map_held_lem",
    "map-layer": "map_layer_lem",
    "mix-at": "mix_at_lem",
    "of-fields": "of_fields_lem",
    "on-first": "on_first_lem",
    "onLine": "put_on_line",
    "put-words": "put_words_back",
    "sample-at": "sample_at_lem",
    "score-table": "score_table_lem",
    "score-text": "score_text_lem",
    "source-at": "source_at_lem",
    "starts-word": "starts_word_lem",
    "text-rows": "text_rows_lem",
}
# The same in one file alone.
FALLS_IN = {
    "crates/retakes/proofs/Inherits.antt": {"each_within": "each_within_lem"},
    "crates/writer/proofs/ReadBack.antt": {"each_word": "each_word_lem"},
    "crates/score/proofs/Within.antt": {"row_words": "row_words_lem"},
    "crates/score/proofs/limits/row_within/Proof.antt": {"row_words": "row_words_lem"},
    "crates/terrain/proofs/Layers.antt": {"of_none": "none_has", "of_map": "map_has", "of-bank": "bank_has"},
    "crates/wave_terrain_engine/proofs/Blocks.antt": {"holds_at": "holds_at_lem"},
}
# These coincide with a field, a local, a function or a name of another crate, and were looked at: no text sees both.
LOOKED_AT = {
    "each_within",
    "each_word",
    "f_pi",
    "fresh_start",
    "held_phases",
    "held_place",
    "held_waveforms",
    "holds_at",
    "in_order",
    "interpolate_integrated_wave",
    "interpolate_wave",
    "interpolate_wave_hermite",
    "is_digit",
    "kept_room",
    "of_bank",
    "of_map",
    "row_within",
    "row_words",
    "x_offset",
}

TOKEN = re.compile(r"[A-Za-z0-9_◌'ℕℤκΣλ²₀-₉-]+")


def snake(name):
    s = name.replace("-", "_")
    s = re.sub(r"(?<=[a-z0-9])(?=[A-Z])", "_", s)
    return s.lower()


def turnable(name):
    if "-" in name:
        return "◌" not in name
    return bool(re.match(r"[a-z]", name)) and bool(re.search(r"[a-z0-9][A-Z]", name))


def declared(text):
    """The names that a file of specs/ or proofs/ declares: definitions, lemmas, fields and constructors."""
    found = set()
    for line in text.split("\n"):
        if line.startswith(("--", "use ", "pub use", "mod ", "pub mod", "unfolding", "infix")):
            continue
        m = re.match(r"(?:(?:pub|abbrev|unfoldable|axiom)\s+)*(?:(data|record)\s+)?([^\s:(){}=]+)\s*(?:[({].*[)}])?\s*:(?:\s|$)", line)
        if m and not line.startswith(" "):
            found.add(m.group(2))
        m = re.match(r"\s+(?:(?:pub|abbrev|unfoldable)\s+)*([^\s:(){}=]+) :(?:\s|$)", line)
        if m:
            found.add(m.group(1))
        for m in re.finditer(r"\(([^\s:(){}=]+(?: [^\s:(){}=]+)*) :\s", line):
            found.update(m.group(1).split())
        found.update(k for k in TOKEN.findall(re.sub(r"--.*|\"[^\"]*\"", "", line)) if turnable(k) and "-" not in k)
    return found


def shared_files():
    return sorted(glob.glob("crates/*/specs/*.antt") + glob.glob("crates/*/proofs/*.antt"))


def of_library(text):
    """What a file imports from outside the repository."""
    names = set()
    for m in re.finditer(r"^\s*(?:pub )?(?:ghost )?use ([\w.]+)\.\{([^}]*)\}", text, re.M):
        own = re.match(r"Rattle\.(\w+)\.(specs|proofs)\.(?!declared)", m.group(1))
        if own and own.group(1) in CRATES:
            continue
        for n in m.group(2).split(","):
            names.update(w.strip() for w in re.split(r"\bas\b", n))
    return names


CRATES = set(os.listdir("crates"))


def main():
    own = set()
    for p in shared_files():
        with open(p, encoding="utf-8") as f:
            own |= declared(f.read())
    to = {n: FALLS.get(n, snake(n)) for n in own if turnable(n)}
    check(own, to)
    for p in sorted(glob.glob("crates/**/*.antt", recursive=True) + glob.glob("crates/*/src/**/*.rt", recursive=True)):
        if "/out/" in p:
            continue
        with open(p, encoding="utf-8") as f:
            t = f.read()
        keep = of_library(t)
        here = to | FALLS_IN.get(p, {})
        out = "\n".join(line_of(line, here, keep, p.endswith(".rt")) for line in t.split("\n"))
        write(p, t, out)
    every = {n for n in own if not turnable(n)} | set(to.values())
    for p in sorted(glob.glob("crates/*/must-fail/*.edit")):
        with open(p, encoding="utf-8") as f:
            t = f.read()
        write(p, t, "\n".join(TOKEN.sub(lambda m: loose(m.group(0), to, every), line) if re.match("(old|new):", line) else line for line in t.split("\n")))
    for p in sorted(glob.glob("docs/*.md") + ["README.md", "compare/README.md"]):
        with open(p, encoding="utf-8") as f:
            t = f.read()
        write(p, t, re.sub(r"`[^`\n]+`", lambda m: TOKEN.sub(lambda k: loose(k.group(0), to, every), m.group(0)), t))


def write(p, before, after):
    if before != after:
        with open(p, "w", encoding="utf-8") as f:
            f.write(after)


def loose(word, to, every):
    """Also what port.py has respelled already: a word in the old spelling whose new one is declared."""
    if word in to:
        return to[word]
    return snake(word) if turnable(word) and snake(word) in every else word


def line_of(line, to, keep, code):
    mark = "//" if code else "--"
    at = line.find(mark)
    if not code and at >= 0 and not re.match(r"\s*-- ?", line[at:]):
        at = -1
    if at < 0:
        head, tail = line, ""
    else:
        head, tail = line[:at], line[at:]
    turn = lambda m: to[m.group(0)] if m.group(0) in to and m.group(0) not in keep else m.group(0)
    tail = re.sub(r"`[^`]+`", lambda m: TOKEN.sub(turn, m.group(0)), tail)
    return TOKEN.sub(turn, head) + tail


def check(own, to):
    """Says which names would fall together, and stops."""
    back = collections.defaultdict(set)
    for a, b in to.items():
        back[b].add(a)
    bad = []
    for b, olds in sorted(back.items()):
        if len(olds) > 1:
            bad.append(f"{sorted(olds)} -> {b}")
        if b in own:
            bad.append(f"{sorted(olds)} -> {b}, which is declared")
    fields = set()
    for p in glob.glob("crates/*/src/**/*.rt", recursive=True):
        with open(p, encoding="utf-8") as f:
            t = f.read()
        fields |= set(re.findall(r"^\s*(?:pub )?(\w+): [^=;]*,$", t, re.M))
        fields |= set(re.findall(r"\b(\w+): ", t))
        fields |= set(re.findall(r"\blet (?:mut )?(\w+)", t))
    plain = set()
    for p in (f"{KIT}/std/specs/Prelude.antt", f"{KIT}/std/proofs/Common.antt"):
        with open(p, encoding="utf-8") as f:
            plain |= set(TOKEN.findall(f.read()))
    bound = set()
    for p in glob.glob("crates/**/*.antt", recursive=True):
        if "/out/" in p:
            continue
        with open(p, encoding="utf-8") as f:
            for line in f:
                if not line.startswith(("use", "pub use", "--")):
                    bound |= set(TOKEN.findall(line))
    for b in sorted(back):
        if b in fields:
            bad.append(f"{sorted(back[b])} -> {b}: a field, parameter or local of src/")
        elif b in plain:
            bad.append(f"{sorted(back[b])} -> {b}: a word of the library")
        elif b in bound:
            bad.append(f"{sorted(back[b])} -> {b}: stands in .antt")
    bad = [line for line in bad if re.search(r"-> (\w+)", line).group(1) not in LOOKED_AT]
    for line in bad:
        print("falls together: " + line, file=sys.stderr)
    if bad:
        raise SystemExit(1)


main()
