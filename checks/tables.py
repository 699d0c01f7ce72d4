#!/usr/bin/env python3
"""Compares every digit of sal_tables, in its code and in its definitions, with the profile of VP8 that fixes them.

The profile is the file that SALSIFY_PROFILE names, or a vp8-*.md in a folder of ../shared beside this repository. Where there is none,
one line says so, nothing is compared, and the status is 77. It ends with status 1 where a digit differs, and names each such place, and where
SALSIFY_PROFILE names no file."""
import os
import re
import sys
from pathlib import Path

import peer

CRATE = peer.ROOT / "crates" / "sal_tables"
PLACE = peer.ROOT.parent / "shared"
NAMED = os.environ.get("SALSIFY_PROFILE")
PROFILE = Path(NAMED) if NAMED is not None else next(PLACE.glob("*/vp8-*.md"), None)

# Leaves in the order of their numbers. The profile numbers the subblock modes; the other orders are ours.
LEAVES = {
    "segment": "S0 S1 S2 S3",
    "key Y": "DC V H TM B",
    "inter Y": "DC V H TM B",
    "chroma": "DC V H TM",
    "subblock": "bDC bTM bVE bHE bLD bRD bVR bVL bHD bHU",
    "vector mode": "ZERO NEAREST NEAR NEW SPLIT",
    "split": "TOPBOTTOM LEFTRIGHT QUARTERS SIXTEENTHS",
    "sub-vector": "LEFT ABOVE ZERO NEW",
    "short vector": "",
    "token": "EOB T0 T1 T2 T3 T4 C1 C2 C3 C4 C5 C6",
}


def numbers(text):
    return [int(word) for word in re.findall(r"-?\d+", text)]


def fenced(text, heading):
    """The block in backquotes that follows a heading."""
    return text.split(heading, 1)[1].split("```", 2)[1]


def coefficient_rows(block):
    """96 rows by type, band and context, from lines 'type.band row|row|row' where '-' is a row without digits."""
    rows = [[] for _ in range(96)]
    for line in block.strip().splitlines():
        band = re.fullmatch(r"(\d)\.(\d) ([^|]+)\|([^|]+)\|([^|]+)", line.strip())
        if band is None:
            sys.exit(f"tables: the profile has a line of another form: {line!r}")
        at = (int(band[1]) * 8 + int(band[2])) * 3
        for context in range(3):
            rows[at + context] = numbers(band[3 + context]) if band[3 + context].strip() != "-" else []
    return rows


def flat(rows, missing):
    return [digit for row in rows for digit in row + [missing] * (11 - len(row))]


def tree_entries(words, name):
    """A tree as pairs of a kind and a number."""
    if name == "short vector":
        # Leaves have numbers here too. The pairs are those of one tree in which each pair is reached once.
        leads = {0, 1, 2, 3, 8, 9}
        return [("Pair" if at in leads else "Leaf", int(word)) for at, word in enumerate(words)]
    leaves = LEAVES[name].split()
    return [("Leaf", leaves.index(word)) if word in leaves else ("Pair", int(word)) for word in words]


def read_profile(text):
    """Every table of the profile, by the name that its definition has here."""
    tables = {}
    defaults = coefficient_rows(fenced(text, "## 7. Default coefficient probabilities"))
    updates = coefficient_rows(fenced(text, "## 8. Update probabilities of coefficients"))
    tables["default_rows"], tables["update_rows"] = defaults, updates
    tables["default_coefficients"] = flat(defaults, 128)
    tables["update_coefficients"] = flat(updates, 255)

    steps = text.split("## 9. Vector probabilities and steps", 1)[1].split("## 10.", 1)[0]

    def line(name):
        return numbers(re.search(rf"^{name} +([\d ]+)$", steps, re.M)[1])

    tables["default_vectors"] = line("default row") + line("default column")
    tables["update_vectors"] = line("update row") + line("update column")
    tables["dc_steps"] = line("DC")
    first, last = numbers(re.search(r"AC: entry i is i \+ 4 for i from (\d+ to \d+); then", steps)[1])
    tables["ac_steps"] = [i + 4 for i in range(first, last + 1)] + numbers(fenced(steps, "AC: entry"))
    tables["subblock_probabilities"] = numbers(fenced(text, "## 10. Subblock probabilities of key frames"))

    trees = {}
    for name in LEAVES:
        row = re.search(rf"^\| {name} \| ([^|]+) \| ([^|]+) \|$", text, re.M)
        trees[name] = row[2]
        tables[name.lower().replace(" ", "_").replace("-", "_") + "_entries"] = tree_entries(row[1].split(), name)
    tables["key_y_probabilities"] = numbers(trees["key Y"])
    tables["inter_y_probabilities"] = numbers(trees["inter Y"])
    tables["key_chroma_probabilities"], tables["inter_chroma_probabilities"] = map(numbers, trees["chroma"].split(";"))
    tables["inter_subblock_probabilities"] = numbers(trees["subblock"].split("; inter", 1)[1])
    tables["split_probabilities"] = numbers(trees["split"])

    modes, vectors = (lists.split(";") for lists in re.findall(r"^`([\d ;]+)`$", text, re.M))
    tables["vector_mode_probabilities"] = [numbers(row) for row in modes]
    tables["sub_vector_probabilities"] = [numbers(row) for row in vectors]
    tables["bands"] = numbers(re.search(r"Bands by position: `([\d ]+)`", text)[1])
    tables["zigzag"] = numbers(re.search(r"Zigzag: `([\d ]+)`", text)[1])
    tables["category_bases"] = numbers(re.search(r"C1 to C6 begin at ([\d, ]+);", text)[1])
    extra = re.search(r"extra bits, highest first, at (.*?)\. A sign", text)[1]
    tables["category_bits"] = [numbers(row) for row in re.findall(r"`([\d ]+)`", extra)]
    tables["six_taps"] = [numbers(row) for row in re.search(r"Filters 0 to 7: `([^`]+)`", text)[1].split(";")]

    lengths = {
        "default_coefficients": 1056, "update_coefficients": 1056, "default_vectors": 38, "update_vectors": 38,
        "subblock_probabilities": 900, "dc_steps": 128, "ac_steps": 128,
    }
    for name, length in lengths.items():
        if len(tables[name]) != length:
            sys.exit(f"tables: {len(tables[name])} digits of {name} were found in the profile, and not {length}")
    return tables


# Tables that stand in the definitions as rows, and are made flat there.
ONLY_ROWS = {"default_coefficients", "update_coefficients"}
# Tables that stand in the definitions alone.
ONLY_DEFINED = {"default_rows", "update_rows"}


def nested(text):
    """A list in brackets, of numbers or of lists, as Rust writes it."""
    text = re.sub(r"//[^\n]*", "", text)
    rows = re.findall(r"\[([^\[\]]*)\]", text.strip()[1:-1])
    return [numbers(row) for row in rows] if rows else numbers(text)


def landed_code():
    """Every static of the crate, by its name in small letters; a tree's has '_entries' added."""
    landed = {}
    for file in sorted((CRATE / "src").glob("*.rt")):
        text = file.read_text()
        for name, kind, body in re.findall(r"^static (\w+): ([^=]+?) =\s*(.*?);\n", text, re.M | re.S):
            if kind == "Tree":
                entries = re.findall(r"(Leaf|Pair)\((\d+)\)", body)
                landed[name.lower() + "_entries"] = [(word, int(number)) for word, number in entries]
            else:
                landed[name.lower()] = nested(body)
    categories = [name for name in landed if re.fullmatch(r"category_\d", name)]
    landed["category_bits"] = [landed.pop(name) for name in sorted(categories)]
    return landed


def term_value(body):
    """A list of antt: of numbers, of entries of a tree, or of lists in parentheses."""
    body = re.sub(r"--[^\n]*", "", body)
    entries = re.findall(r"(Leaf|Pair) (\d+)", body)
    if entries:
        return [(word, int(number)) for word, number in entries]
    body = re.sub(r"negsuc (\d+)", lambda found: str(-int(found[1]) - 1), body)
    rows = re.findall(r"\(([^()]*)\)", body)
    return [numbers(row) for row in rows] if rows else numbers(body)


def landed_definitions():
    """Every list of digits that the crate defines, by its name without '_of'."""
    landed = {}
    for module in ("Tables", "Trees"):
        text = (CRATE / "specs" / f"{module}.antt").read_text()
        for name, body in re.findall(r"^unfoldable pub (\w+) : List [^\n]*\n\1 =(.*?)(?=\n\n|\Z)", text, re.M | re.S):
            if "flat" not in body:
                landed[name.removesuffix("_of")] = term_value(body)
    return landed


def compare(where, profile, landed, names):
    """How many digits were compared, and a line for each place that differs."""
    count, faults = 0, []
    for name in sorted(set(landed) - names):
        faults.append(f"{where}: {name} is no table of the profile")
    for name in sorted(names):
        if name not in landed:
            faults.append(f"{where}: {name} is missing")
            continue
        said, found = profile[name], landed[name]
        if len(said) != len(found):
            faults.append(f"{where}: {name} has {len(found)} entries, and the profile {len(said)}")
        for at, (one, other) in enumerate(zip(said, found)):
            if one != other:
                faults.append(f"{where}: {name} has {other} at {at}, and the profile {one}")
        count += sum(len(row) if isinstance(row, list) else 1 for row in said)
    return count, faults


def main():
    if PROFILE is None:
        print(f"tables: skipped, no profile is at hand: SALSIFY_PROFILE isn't set, and there is no vp8-*.md in a folder of {PLACE}")
        return peer.SKIPPED
    if not PROFILE.is_file():
        print(f"tables: SALSIFY_PROFILE names no file: {NAMED!r}")
        return 1
    profile = read_profile(PROFILE.read_text())
    code, code_faults = compare("code", profile, landed_code(), set(profile) - ONLY_DEFINED)
    defined, defined_faults = compare("definitions", profile, landed_definitions(), set(profile) - ONLY_ROWS)
    for fault in code_faults + defined_faults:
        print(f"tables: {fault}")
    if code_faults or defined_faults:
        return 1
    print(f"tables: {code} digits of the code and {defined} of the definitions are the profile's")
    return 0


if __name__ == "__main__":
    sys.exit(main())
