#!/usr/bin/env python3
"""Brings the names of this repository's definitions and lemmas to the spelling of today's Rattle: words in snake case,
types and modules in upper camel case.

usage: python3 tools/snake_names.py [--dry]      at the top of the repository, once, straight after port.py

What is renamed: each name with a dash, or in camel case, that begins with a small letter, in specs/, in the lemma files
of proofs/, in the clauses of src/, in must-fail/, and (names of definitions and lemmas only) in the proof files of
functions. What keeps its spelling: names that the toolchain's own libraries declare, names that Rattle makes (goals and
labels), functions of src/, strings, and prose. A type at the head of a lemma's name keeps its dash (Run-det).
A name that would fall together with another in a file is listed, and nothing is written.
"""
import collections
import glob
import os
import re
import sys

KIT = os.environ.get("RATTLE_KIT", "/opt/rattle")
WORD = r"[^\s(){}\[\];,.«»λ`\"]+"
DECLARED = re.compile(
    r"^[ \t]*(?:(?:abbrev|unfoldable|pub|pattern|axiom|data|record|ruleset|syntax)[ \t]+)*(" + WORD + r")[ \t]*(?:\{[^}\n]*\}[ \t]*)?(?:\([^\n]*?\)[ \t]*)*:(?![:=])",
    re.M,
)
TOKEN = re.compile(WORD)
QUIET = re.compile(r'--[^\n]*|"(?:\\.|[^"\\\n])*"')
QUIET_RUST = re.compile(r'//[^\n]*|b?"(?:\\.|[^"\\\n])*"|b?\'(?:\\.|[^\'\\\n])\'')
# names of goals and labels that Rattle makes stand in these files
PROOF_FILES = ("Proof.antt", "Answers.antt", "Invariants.antt")


def is_proof_file(path):
    return "/proofs/" in path and os.path.basename(path) in PROOF_FILES


# Rattle's own marks in names that it makes
MADE = re.compile(r"^(?:invariant-|decreases-|Need-|returns-\d)")

# Names that would fall together in snake case: what they are called instead.
APART = {
    # a law about a definition, where the definition has the name: _lem
    **{
        name: name.replace("-", "_") + "_lem"
        for name in (
            "all-xml blamed-keys can-copy can-delete can-overlap can-reorder class-key closed-start code-good code-of codes-step"
            " form-key half-key half-mark half-number id-key item-view marker-in meet-key meet-keys open-read order-in pair-at"
            " pass-item read-step step-if triple-at"
        ).split()
    },
    # a definition about keys, views or what was read, where the rule's own definition has the name
    "allMet": "all_met_keys",
    "badItem": "is_bad_item",
    "depthAfter": "depth_after_half",
    "endLetter": "end_letter_of",
    "endNext": "step_at_end",
    "partNext": "step_at_part",
    "targetNext": "step_at_target",
    "textNext": "step_at_text",
    "itemNext": "step_at_item",
    "halfOfId": "is_half_of_id",
    "headIn": "head_kind_in",
    "illMatched": "ill_matched_views",
    "inContent": "is_in_content",
    "insideAfter": "inside_after_head",
    "isContent": "is_content_read",
    "isPart": "is_part_read",
    "itemStep": "step_of_inline",
    "itemsAt": "items_of_markers",
    "loneInTarget": "lone_among_keys",
    "markBytes": "bytes_of_mark",
    "marker-key": "placed_key",
    "mayCopy": "may_copy_view",
    "mayEnd": "may_end_stage",
    "otherKey": "is_other_key",
    "pairStart": "is_pair_start",
    "readView": "view_of_read",
    "startsId": "view_starts_id",
    "stateLetter": "is_state_letter",
    "yesNo": "is_yes_no",
    # the rule's own definition, where a name of src/ or an older one in snake case stands already
    "code-at": "code_fields_at",
    "is-code": "is_inline_code",
    "text-of": "text_codes",
    "unit-of": "unit_of_records",
}


# statements whose name has a dash: a type is in upper camel case
TYPE = re.compile(r"^(?:(?:abbrev|unfoldable|pub)[ \t]+)*([A-Z][A-Za-z0-9]*-[\w-]+)[^\n]*:[^\n]*\bType 0[ \t]*$", re.M)
TYPES = set()


def spelled(name):
    """Returns the name in snake case, or that of a type in upper camel case."""
    if name in APART:
        return APART[name]
    if name in TYPES:
        return "".join(it[:1].upper() + it[1:] for it in re.split("[-_]", name))
    if name[0] == "'" or not re.search(r"[A-Za-z]", name):
        return name
    first, dash, rest = name.partition("-")
    if first[:1].isupper():
        return first + dash + (snake(rest) if rest else "")
    return snake(name)


def snake(name):
    if re.search(r"[^\w'·-]|^-|-$|--", name):
        return name
    name = name.replace("-", "_")
    name = re.sub(r"(?<=[a-z0-9])([A-Z]+)(?=[A-Z][a-z])", lambda m: "_" + m.group(1).lower() + "_", name)
    name = re.sub(r"(?<=[a-z0-9])([A-Z])(?=[a-z])", lambda m: "_" + m.group(1).lower(), name)
    return name


def antt_files(top):
    return sorted(glob.glob(os.path.join(top, "crates/*/specs/**/*.antt"), recursive=True)) + sorted(
        glob.glob(os.path.join(top, "crates/*/proofs/**/*.antt"), recursive=True)
    )


def kit_names():
    found = set()
    for folder, _, files in os.walk(os.path.join(KIT, "rattle")):
        for f in files:
            if f.endswith(".antt"):
                with open(os.path.join(folder, f), encoding="utf-8", errors="replace") as it:
                    found.update(n for n in DECLARED.findall(it.read()) if "-" in n or re.search("[a-z][A-Z]", n))
    return found


def imported_from_kit(files):
    """The names that files of this repository bring in from the toolchain's libraries."""
    found = set()
    for path in files:
        for module, items in re.findall(r"^use (\S+?)\.\{([^}]*)\}", open(path, encoding="utf-8").read(), re.M):
            steps = module.split(".")
            if not (steps[0] == "Rattle" and os.path.isdir(os.path.join("crates", steps[1]))):
                found.update(re.findall(r"[^\s,]+", items))
    return found


def outside(pattern, text, change):
    """Changes the text outside of comments and strings."""
    parts, at = [], 0
    for m in pattern.finditer(text):
        parts += [change(text[at : m.start()]), m.group()]
        at = m.end()
    return "".join(parts) + change(text[at:])


def in_backquotes(text, change):
    return re.sub(r"(--|//)[^\n]*", lambda m: re.sub(r"`[^`\n]+`", lambda q: change(q.group()), m.group()), text)


def main():
    dry = "--dry" in sys.argv
    files = antt_files(".")
    for path in files:
        TYPES.update(TYPE.findall(open(path, encoding="utf-8").read()))
    kit = kit_names()
    declared = set()
    for path in files:
        if not is_proof_file(path):
            declared.update(DECLARED.findall(QUIET.sub(" ", open(path, encoding="utf-8").read())))
    kit -= declared - imported_from_kit(files)
    own = {n: spelled(n) for n in declared if n not in kit and spelled(n) != n}
    clashes = collections.defaultdict(set)
    for n, new in own.items():
        if new in declared or new in kit:
            clashes[new].add(n)
    by_new = collections.defaultdict(set)
    for n, new in own.items():
        by_new[new].add(n)
    for new, olds in by_new.items():
        if len(olds) > 1:
            clashes[new] |= olds
    said = collections.Counter()

    def all_names(token):
        if token in kit or MADE.match(token) or not token[0].isalpha():
            return token
        if token in own:
            return own[token]
        if token[0].islower() and ("-" in token or re.search("[a-z][A-Z]", token)):
            return spelled(token)
        return token

    def own_names(token):
        return own.get(token, token)

    def changer(rename, before=None):
        def change(code):
            return TOKEN.sub(lambda m: m.group() if before and before(code, m.start()) else rename(m.group()), code)

        return change

    def after_dot(code, at):
        return at > 0 and code[at - 1] == "."

    def after_made(code, at):
        """Whether a name stands behind a module of goals or a dot that follows a label."""
        return bool(re.search(r"(?:^|[^\w])(?:tie|goal)\.$", code[max(0, at - 6) : at]))

    changed = {}
    for path in files:
        text = open(path, encoding="utf-8").read()
        if is_proof_file(path):
            mine = {n for n in DECLARED.findall(text)}
            proof_name = changer(lambda t: own_names(t) if t not in mine else t, after_made)
            new = outside(QUIET, text, proof_name)
        else:
            new = outside(QUIET, text, changer(all_names))
        new = in_backquotes(new, changer(own_names))
        check_file(path, text, new, said)
        if new != text:
            changed[path] = new
    for path in sorted(glob.glob("crates/*/src/**/*.rt", recursive=True)):
        text = open(path, encoding="utf-8").read()
        new = in_backquotes(outside(QUIET_RUST, text, changer(own_names)), changer(own_names))
        check_file(path, text, new, said)
        if new != text:
            changed[path] = new
    for path in sorted(glob.glob("crates/*/must-fail/*.edit")):
        lines = open(path, encoding="utf-8").read().split("\n")
        rust = True
        out = []
        for line in lines:
            if line.startswith("file:"):
                rust = line.strip().endswith(".rt")
            if re.match(r"old:|new:", line):
                line = line[:4] + outside(QUIET_RUST if rust else QUIET, line[4:], changer(own_names))
            out.append(line)
        text, new = "\n".join(lines), "\n".join(out)
        if new != text:
            changed[path] = new
    for new, olds in sorted(clashes.items()):
        print(f"falls together: {new}: {', '.join(sorted(olds))}" + (" (declared already)" if new in declared else " (the kit's)" if new in kit else ""))
    for line, n in sorted(said.items()):
        print(line)
    print(f"{len(own)} names, {len(changed)} files")
    if dry:
        return
    for path, new in changed.items():
        with open(path, "w", encoding="utf-8") as f:
            f.write(new)


def check_file(path, text, new, said):
    """Notes names of a file that were two and are one now."""
    olds, news = TOKEN.findall(QUIET.sub(" ", text)), TOKEN.findall(QUIET.sub(" ", new))
    if len(olds) != len(news):
        return
    became = collections.defaultdict(set)
    for a, b in zip(olds, news):
        became[b].add(a)
    for b, a in became.items():
        if len(a) > 1:
            said[f"in one file: {path}: {b}: {', '.join(sorted(a))}"] += 1


if __name__ == "__main__":
    main()
