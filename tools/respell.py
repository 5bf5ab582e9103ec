#!/usr/bin/env python3
"""Brings the repository's own names of definitions, fields, constructors and lemmas to the spelling that Rattle's library has:

    python3 tools/respell.py [--list] FOLDER

Run once over a tree that Rattle's own script for older repositories has turned. Words are in snake case; a dash stays only where it
joins two names, each of them a definition of this repository or a word of the library. Names that begin with a capital (types, facts,
modules, the matrices' own letters), names of Rattle source and texts between quotes stay as they are.
--list prints the table and changes nothing.
"""
import glob
import os
import re
import sys

NAME = re.compile(r"[A-Za-z_Α-ωℤℕ₀-₉'\-0-9◌≡≤≢∷+*/%&|∙→↔]+")
DECLARED = re.compile(r"^(\s*)((?:abbrev |unfoldable |pub |private |opaque )*)([^\s:(){}\[\],;]+(?: [^\s:(){}\[\],;]+)*) :(?: |$)")
# what falls together with another name of the same place gets a name by hand
BY_HAND = {
    "add_step": "add_step_lem",
    "swap_step": "swap_step_lem",
    "non_zero": "non_zero_lem",
    "first-has": "first_has_lem",
    "build-checks": "build_checks_lem",
    "weigh-checks": "weigh_checks_lem",
    "translate-checks": "translate_checks_lem",
    "checks-of-translate": "checks_of_translate_lem",
    "line-in": "line_in_lem",
    "no-larger": "no_larger_lem",
    "sizes-in": "sizes_in_lem",
    "solution-text": "solution_text_lem",
    "term-on": "term_on_lem",
    "first-is": "first_is_lem",
    "is-other": "is_other_lem",
}
# in Rattle source, a definition that would meet a function of its name is cited through its module
THROUGH_MODULE = {
    "crates/formulas/src/terms.rt": [("isFree", "formulas.is_free", "Rattle.rules.specs.Formulas")],
    "crates/frames/src/line.rt": [("startsFrame", "lines.starts_frame", "Rattle.frames.specs.Line")],
    "crates/gauges/src/values.rt": [("isOut", "gauges.is_out", "Rattle.rules.specs.Gauges")],
    "crates/scaling/src/lib.rt": [("buildChecked", "promise.build_checked", "Rattle.scaling.specs.BuildPromise")],
    "crates/scaling/src/work.rt": [("isZero", "limits.is_zero", "Rattle.rules.specs.Limits")],
}
# words that are no names where a lemma has them, though something somewhere is called so
PLAIN = set("a as at by for from in is no of one other over same to with keeps ends steps size start end count first last found left right".split())
# words of the library that a lemma's name may join, beside what the tree imports
LIBRARY = set(
    "add sub mul div mod pow eq le lt min max zero suc one pos neg neg_ℤ abs nat_abs length append take drop map join set get get_or cons "
    "replicate rev sum and or not true false eqb leb ltb le_self lt_mul list quot rem div_mod".split()
)


def snake(word):
    word = re.sub(r"(?<=[a-z0-9])(?=[A-Z])", "_", word)
    word = re.sub(r"(?<=[A-Z])(?=[A-Z][a-z])", "_", word)
    return word.lower()


def antt_files(top):
    found = glob.glob(f"{top}/crates/*/specs/**/*.antt", recursive=True)
    return sorted(found + glob.glob(f"{top}/crates/*/proofs/**/*.antt", recursive=True))


def sources(top):
    found = antt_files(top) + glob.glob(f"{top}/crates/*/src/**/*.rt", recursive=True)
    return sorted(found + glob.glob(f"{top}/crates/*/must-fail/*.edit"))


def declared(text):
    names = set()
    for line in text.split("\n"):
        m = DECLARED.match(line.split("--")[0].rstrip() if not line.lstrip().startswith("--") else "")
        if m and not m.group(3).startswith(("use", "let", "module")):
            names |= set(m.group(3).split())
    return names


def lemma(name, known):
    """The longest runs of words that are a name stay together; a dash stands between two names, and a plain word is added with _."""
    if any(p == "" for p in name.split("-")):
        return name
    parts = [snake(p) if p[0].islower() or (len(p) == 1 and p not in known) else p for p in name.split("-")]
    groups, i = [], 0
    while i < len(parts):
        for j in range(len(parts), i, -1):
            whole = "_".join(parts[i:j])
            if whole in known and (j - i < len(parts)):
                groups.append((whole, True))
                i = j
                break
        else:
            groups.append((parts[i], False))
            i += 1
    out, last = groups[0]
    for word, is_name in groups[1:]:
        out += ("-" if last and is_name else "_") + word
        last = is_name
    return out


def table(top):
    own, imported = set(), set()
    for path in antt_files(top):
        text = open(path, encoding="utf-8").read()
        if not path.endswith("/Proof.antt"):
            own |= declared(text)
        for m in re.finditer(r"^use Rattle\.std[\w.◌]*\.\{([^}]*)\}", text, re.M):
            imported |= {w.strip() for w in m.group(1).split(",")}
    own -= imported
    for path in antt_files(top):
        text = re.sub(r"--.*", "", open(path, encoding="utf-8").read())
        own |= {w for w in re.findall(r"(?<![\w.'-])[a-z][a-z_]*[A-Z][A-Za-z]*(?![\w'-])", text) if w not in imported}
    known = {n for n in own if "-" not in n} | {w for w in imported if "-" not in w} | LIBRARY
    known = {n for n in known | {snake(n) for n in known if n[0].islower()} if n not in PLAIN}
    renamed = {}
    for name in sorted(own):
        if name not in BY_HAND and "→" in name:
            continue
        if not re.match(r"^[a-z]", name) and not ("-" in name and re.match(r"^[A-Zℤ]", name)):
            continue
        new = BY_HAND.get(name) or (lemma(name, known) if "-" in name else snake(name))
        if new != name:
            renamed[name] = new
    return renamed, own, imported


def turn(path, text, renamed):
    if path.endswith(".edit"):
        return NAME.sub(lambda m: renamed.get(m.group(0), m.group(0)), text)
    for end, names in THROUGH_MODULE.items():
        if path.endswith(end):
            for name, through, module in names:
                text = through_module(text, name, through, module)
    return NAME.sub(lambda m: renamed.get(m.group(0), m.group(0)), text)


def through_module(text, name, through, module):
    """The import of the name becomes one of its module, and each use goes through that."""
    short = through.split(".")[0]
    line = re.search(r"^ghost use " + re.escape(module) + r"\.\{([^}]*)\};\n", text, re.M)
    left = [w.strip() for w in line.group(1).split(",") if w.strip() != name]
    new = f"ghost use {module}.{{{', '.join(left)}}};\n" if left else ""
    if f"ghost use {module} as {short};" not in text:
        new += f"ghost use {module} as {short};\n"
    text = text[: line.start()] + new + text[line.end() :]
    return re.sub(r"(?<![\w.-])" + re.escape(name) + r"(?![\w-])", through, text)


def main():
    top = sys.argv[-1]
    renamed, own, imported = table(top)
    # names that fall together
    for a, b in renamed.items():
        if b in own and renamed.get(b, b) == b:
            print(f"falls together: {a} -> {b}", file=sys.stderr)
    back = {}
    for a, b in renamed.items():
        back.setdefault(b, []).append(a)
    for b, names in back.items():
        if len(names) > 1:
            print(f"falls together: {names} -> {b}", file=sys.stderr)
        if b in imported:
            print(f"is the library's: {names} -> {b}", file=sys.stderr)
    for path in sources(top):
        text = open(path, encoding="utf-8").read()
        here = set(NAME.findall(text))
        for a in here & renamed.keys():
            if renamed[a] in here:
                print(f"in {os.path.relpath(path, top)}: {a} meets {renamed[a]}", file=sys.stderr)
        if "--list" not in sys.argv:
            new = turn(path, text, renamed)
            if new != text:
                open(path, "w", encoding="utf-8").write(new)
    if "--list" in sys.argv:
        for a in sorted(renamed):
            print(a, renamed[a])


main()
