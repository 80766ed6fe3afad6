#!/usr/bin/env python3
"""Brings the names of this repository's definitions and lemmas to today's spelling: words in snake case.

usage: python3 tools/respell.py     once, at the top of the repository, right after port.py

A name that begins with a small letter and holds a capital is written in snake case, everywhere but in strings. A name with dashes that specs/ defines
(a definition, or a field of a record) is written with underscores, everywhere but in comments and pages. Names that would fall together with another
name, or with a field of a Rust struct, are in OTHER. Names of functions of src/, file names and names that begin with a capital stay; one module
is renamed: specs/Contracts.antt of the crate model, as Rattle makes a module of that name.
"""

import glob
import re
import subprocess
import sys

# names whose plain respelling is taken
OTHER = {
    "afterLast": "comes_after_last",
    "byDay": "sum_by_day",
    "inOrder": "is_in_order",
    "turnedDown": "outcome_turned_down",
    "wellFormed": "is_well_formed",
    "withRows": "ledger_with_rows",
    "zeroBits": "zero_bits_of",
    "priceFixDay": "price_fix_day_of",
    "entryDay": "entry_day_of",
    "effectiveDay": "effective_day_of",
    "amendmentFlag": "amendment_flag_of",
    "originalEndDay": "original_end_day_of",
    "amendedPriceFixDay": "amended_price_fix_day_of",
    "amendedEntryDay": "amended_entry_day_of",
    # names of single letters
    "viewL": "view_ledger",
    "viewS": "view_sheet",
    "acceptL": "accept_ledger",
    "acceptS": "accept_sheet",
    "dueL": "due_ledger",
    "dueS": "due_sheet",
    "stepL": "step_ledger",
    "stepS": "step_sheet",
    "withContractL": "with_contract_ledger",
    "withContractS": "with_contract_sheet",
    # port.py's own choice
    "getD": "get_or",
}

# words that are no names
KEPT = {"kWh"}

# names with dashes that specs/ defines
DASHED = """
accepted-where-none-fits amend-alters-no-row amended-index amount-examples amounts-bounded amounts-kept any-cut any-last-day as-commands as-unreadable
at-most-three at-the-boundaries baseline-not-given-to-qhs blend-and-extend-example by-day cap-kept caps-attained caps-given certificate-inside-example
claims-kept classes-applied date-refused day-and-date-inverse day-refused demand-three discounts-begin empty-line entries-found every-day
every-session-balances facts-back field-examples fifty-bits floor-leaves-rest formed-exactly fresh-ledger gas-index got-put in-range index-above
index-in-northern-ireland is-not is-now landlord-example last-claim layout-example lines-printed lines-read longer-input no-day-inside no-input no-pence
no-shared-day no-territory number-fifteen number-two-first number-two-meets-no-call numbers-read-back of-stretches others-untouched
packed-answers-from-the-sheet packed-back packed-histories-hold-their-facts packed-same-as-postings packed-size price-accepted price-of-every-day
program-limits put-got quarter-example ranges-kept rate-with rate-without rates-as-high round-trips rows-in-order set-aside shares-kept shares-rated
start-tests stored-earlier stored-ledgers-balance straddling-put stretches-rated table-of-dates terms-taken the-run-is-printed twelve-rates value-above
well-formed whole-input with-shares with-the-last-row without-change-inside without-shares
""".split()
UNDERSCORED = {n: n.replace("-", "_") for n in DASHED}

NAME = re.compile(r"[^\s(){}\[\],;.:«»⌜⌝\"'`|*+/=<>≡≤λ→×∷!?&@#$%^~\\]+'?")
CAMEL = re.compile(r"(?<=[a-z0-9])[A-Z]")


def snake(word):
    if word in KEPT or not word[:1].islower() or not CAMEL.search(word):
        return word
    return OTHER.get(word) or CAMEL.sub(lambda m: "_" + m[0].lower(), word)


def respelled(name, dashes):
    if dashes and name in UNDERSCORED:
        return UNDERSCORED[name]
    prime = "'" if name.endswith("'") else ""
    core = name[: len(name) - len(prime)]
    return "-".join(snake(w) for w in core.split("-")) + prime


def code_line(line, comment):
    """The line's code and its comment."""
    at = 0 if line.lstrip().startswith(comment) else line.find(" " + comment + " ")
    return (line, "") if at < 0 else (line[:at], line[at:])


def turn(text, comment):
    out = []
    for line in text.split("\n"):
        code, said = code_line(line, comment)
        parts = re.split(r'("(?:[^"\\]|\\.)*")', code) if comment == "//" else [code]
        for i in range(0, len(parts), 2):
            parts[i] = NAME.sub(lambda m: respelled(m[0], True), parts[i])
        out.append("".join(parts) + NAME.sub(lambda m: respelled(m[0], False), said))
    return "\n".join(out)


def page(text):
    """A page: the names between backticks."""
    return re.sub(r"`[^`\n]+`", lambda m: NAME.sub(lambda n: respelled(n[0], False), m[0]), text)


def rewrite(path, f):
    with open(path, encoding="utf-8") as it:
        old = it.read()
    new = f(old)
    if new != old:
        with open(path, "w", encoding="utf-8") as it:
            it.write(new)


def main():
    antt = glob.glob("crates/*/specs/**/*.antt", recursive=True) + glob.glob("crates/*/proofs/**/*.antt", recursive=True)
    code = glob.glob("crates/*/src/**/*.rt", recursive=True)
    edits = glob.glob("crates/*/must-fail/*.edit")
    asked = glob.glob(".ci/asked/*.txt")
    for p in antt + [a for a in asked if ".antt" in a]:
        rewrite(p, lambda t: turn(t, "--"))
    for p in code + edits + [a for a in asked if ".rt" in a]:
        rewrite(p, lambda t: turn(t, "//"))
    for p in ["README.md", "docs/EVIDENCE.md", "docs/DECISIONS.md", "docs/PERFORMANCE.md"]:
        rewrite(p, page)
    subprocess.run(["git", "mv", "crates/model/specs/Contracts.antt", "crates/model/specs/OpenContracts.antt"], check=True)
    module = re.compile(r"(?<=model\.specs\.)Contracts(?![A-Za-z0-9_])")
    for p in glob.glob("crates/*/specs/**/*.antt", recursive=True) + glob.glob("crates/*/proofs/**/*.antt", recursive=True) + code + asked:
        rewrite(p, lambda t: module.sub("OpenContracts", t))
    rewrite("crates/model/specs/Lib.antt", lambda t: re.sub(r"(?m)^pub mod Contracts$", "pub mod OpenContracts", t))
    return 0


if __name__ == "__main__":
    sys.exit(main())
