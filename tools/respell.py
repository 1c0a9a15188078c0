#!/usr/bin/env python3
"""Spells the repository's own definitions, fields and laws as today's Rattle spells words: in snake case. It ran once, after port.py.

usage: tools/respell.py [--dry]      at the top of the repository

What counts: a name with a dash, a middle dot or a capital inside, that a file of crates/*/specs or of crates/*/proofs (not below a
function's folder) uses and that it does not import from the toolchain's library. It gets plain underscores wherever it stands: in specs,
proofs, the clauses of src/, edits, and between backticks in pages. Types and modules keep their capitals, and so does every name of src/.
A name whose new spelling would meet another one in a file is in OTHER, with the spelling that it gets in its place.
"""
import collections
import glob
import re
import sys

CRATES = sorted(p.split("/")[1] for p in glob.glob("crates/*/"))
# Names that would fall together with another, or that stay.
OTHER = {
    "boot-done": "boot_done_lem",
    "boot-number": "boot_number_lem",
    "clock-stores": "clock_stores_lem",
    "convert-done": "convert_done_lem",
    "covers-all": "covers_all_lem",
    "deliver-done": "deliver_done_lem",
    "first-rule": "first_rule_lem",
    "form-told": "form_told_lem",
    "frame-told": "frame_told_lem",
    "frame-written": "frame_written_lem",
    "image-left": "image_left_lem",
    "limits-then": "limits_then_lem",
    "log-told": "log_told_lem",
    "log-written": "log_written_lem",
    "node-stores": "node_stores_lem",
    "not-above": "not_above_lem",
    "pack-number": "pack_number_lem",
    "pack-told": "pack_told_lem",
    "put-field": "put_field_lem",
    "put-row": "put_row_lem",
    "put-rows": "put_rows_lem",
    "put-set": "put_set_lem",
    "read-checks": "read_checks_lem",
    "refused-pack": "refused_pack_lem",
    "refused-sheet": "refused_sheet_lem",
    "set-of": "set_of_lem",
    "sheet-told": "sheet_told_lem",
    "sound-image": "sound_image_lem",
    "told-by": "told_by_lem",
    "write-number": "write_number_lem",
    "bit-or": "bit_or_lem",
    "canEcho": "may_echo",
    "convertNumber": "conversion_number",
    "entryAt": "entry_in_bytes",
    "isDigit": "is_digit_byte",
    "jumpOrWake": "jump_else_wake",
    "modeLetter": "letter_of_mode",
    "numberBeforeFrame": "number_before_a_frame",
    "putClock": "put_clock_bytes",
    "putEntry": "put_entry_bytes",
    "putFixed": "put_fixed_bytes",
    "putFrame": "put_frame_bytes",
    "putNode": "put_node_bytes",
    "putRecord": "put_record_bytes",
    "putRow": "put_row_bytes",
    "readDecimal": "decimal_of",
    "setPlace": "place_of_set",
}
# .. and that stay: laws of the library that are named by their module
STAY = {"not-nil"}

TOKEN = re.compile(r"[^\s(){}.;,@\"«»\[\]⊢]+")
USE = re.compile(r"^(?:ghost |pub )*use ([^\s;{]+?)\.?\{([^}]*)\}|^(?:ghost |pub )*use ([^\s;{]+)", re.M)
WORD = re.compile(r"[A-Za-z_][\w']*(?:[-·][\w']+)*")


def plain(name):
    words = re.sub(r"(?<=[a-z0-9])[A-Z]", lambda m: "_" + m[0].lower(), name)
    return words.replace("-", "_").replace("·", "_")


def odd(name):
    if not WORD.fullmatch(name):
        return False
    if "-" in name or "·" in name:
        return True
    return bool(re.fullmatch(r"[a-z][a-z0-9]*[A-Z]\w*'*", name))


def bare(text, rust):
    """The text without comments."""
    out = []
    for line in text.split("\n"):
        out.append(re.split(r"//" if rust else r"(?:^|\s)--(?=\s|$)", line, maxsplit=1)[0])
    return "\n".join(out)


def imports(text):
    """Names that a file imports: {name: path}."""
    found = {}
    for m in USE.finditer(text):
        if m[2] is None:
            continue
        for item in m[2].replace("\n", " ").split(","):
            words = item.split()
            if words:
                found[words[-1]] = m[1]
                found.setdefault(words[0], m[1])
    return found


def is_own(path):
    return any(path.startswith(f"Rattle.{c}.") for c in CRATES) or path.startswith("package.")


def main():
    dry = "--dry" in sys.argv
    read = lambda p: open(p, encoding="utf-8").read()
    laws = sorted(glob.glob("crates/*/specs/*.antt") + glob.glob("crates/*/proofs/*.antt"))
    antt = sorted(glob.glob("crates/*/specs/**/*.antt", recursive=True) + glob.glob("crates/*/proofs/**/*.antt", recursive=True))
    rust = sorted(glob.glob("crates/*/src/**/*.rt", recursive=True))
    names = collections.Counter()
    for p in laws:
        text = bare(read(p), False)
        lent = {n for n, path in imports(text).items() if not is_own(path)}
        for token in TOKEN.findall(text):
            if odd(token) and token not in lent:
                names[token] += 1
    turn = {n: OTHER.get(n, plain(n)) for n in names if n not in STAY and OTHER.get(n, plain(n)) != n}
    # what would meet another
    meet = {new: old for old, new in turn.items()}
    for p in antt + rust:
        text = bare(read(p), p.endswith(".rt"))
        tokens = set(TOKEN.findall(text)) if p.endswith(".antt") else set(re.findall(r"[\w']+", text))
        tokens |= set(re.findall(r"[\w'·-]+", text))
        for new in sorted(tokens & set(meet)):
            if meet[new] in tokens:
                print(f"meets: {meet[new]} -> {new} in {p}")
    back = collections.defaultdict(list)
    for old, new in turn.items():
        back[new].append(old)
    for new, olds in back.items():
        if len(olds) > 1:
            print(f"together: {olds} -> {new}")
    print(f"{len(turn)} names")
    if "--list" in sys.argv:
        print(*(f"{a} {b}" for a, b in sorted(turn.items())), sep="\n")
    if dry:
        return
    left = r"(?<![\w'·-])"
    right = r"(?![\w'·-])"
    one = re.compile(left + "(" + "|".join(sorted(map(re.escape, turn), key=len, reverse=True)) + ")" + right)
    for p in antt + rust + sorted(glob.glob("crates/*/must-fail/**/*.edit", recursive=True)):
        text = read(p)
        lent = {n for n, path in imports(text).items() if not is_own(path)} if not p.endswith(".edit") else set()
        new = one.sub(lambda m: m[0] if m[0] in lent else turn[m[0]], text)
        if new != text:
            open(p, "w", encoding="utf-8").write(new)
    for p in sorted(glob.glob("*.md") + glob.glob("docs/**/*.md", recursive=True)):
        text = read(p)
        new = re.sub(r"`([^`\n]*)`", lambda m: "`" + one.sub(lambda k: turn[k[0]], m[1]) + "`", text)
        if new != text:
            open(p, "w", encoding="utf-8").write(new)


main()
