#!/usr/bin/env python3
"""Brings this repository's own definitions and lemmas to the library's spelling: words joined by underscores.

Run once, at the top of a checkout, after the toolchain's own port.py. It changes whole names with a dash, wherever they
stand in specs/, proofs/ and src/. No function of src/ and no string has such a name. It refuses to run where a new name
is already a definition of specs/ or proofs/.
"""
import pathlib
import re
import sys

# Names whose dashes all become underscores.
PLAIN = """
accepted-reads account-or after-changes all-fails all-name-bytes all-names among-at among-by among-counted
among-decides and-also and-bit and-part answer-within bad-line between-front bit-cases bit-set bits-counted
by-grounds byte-bound byte-decides byte-within bytes-decide cell-known cells-known change-refusal checking-order
clip-column clip-counted clip-empty clip-kept clip-row clipped-bounded comment-words count-stands counts-is
counts-like cut-ended cut-last cut-next cut-some dense-bounded dense-means differ-small each-ground else-after
else-within empty-line empty-reads end-new end-old end-within ended-closed ended-glue ended-step ended-unclosed
ends-counted ends-ordered ends-up entered-kind every-ground fault-number few-equations few-unknowns filled-skip
first-bad first-fault first-from first-in-list first-law first-refused first-within front-from glue-apart glue-some
ground-number half-bit half-none how-many how-many-add how-many-le how-many-more how-many-none how-many-one
how-many-same how-many-step how-many-up how-many-zero in-it in-line is-letter is-name-byte kind-by kind-from-mark
kind-of kind-read kinds-back leb-decides leftmost-like letter-decides line-kind line-reading line-stands line-words
lines-some list-known lists-rising long-reads low-counted lowest-before lowest-in lowest-under mark-by mark-from-kind
mark-of-kind marked-few marked-miscounted marked-one members-asked members-few members-none members-one-of members-or
members-xor miscounted-reads name-decides name-long name-within names-within new-ends new-list next-few next-found
next-none next-zero no-bit no-mark no-sensors no-unknown none-in-list none-outside none-past not-a-name not-held
odd-bytes odd-bytes-of odd-name odd-names odd-reads of-kind one-of-from one-sensor-more ones-more ones-short
onto-first or-bit or-refused other-mark pair-count pairs-swapped pairs-to pairs-to-le pairs-to-none pairs-to-same
pairs-to-step pairs-transposed part-and part-bit parted-length passes-by passes-some piece-on place-counted
place-left placed-apart placed-bytes placed-rising placed-standing places-counted plain-fails plain-tells pow-bit
pow-high reaches-past read-entry read-on reads-line refused-line rest-decides rising-least room-left row-known
row-lowest row-refusal rows-keep same-meaning sensor-counted sensor-lowest sensor-pairs sensor-refusal sensor-within
sensors-bounded sensors-mean sensors-of sensors-within shifted-bit short-decides short-unmarked some-decides sort-by
spaced-glue spaced-space sparse-bounded sparse-means split-words stands-in starts-before stretch-counted
subset-decided sum-over-add sum-over-le sum-over-none sum-over-same sum-over-step sum-over-zero table-bounded
table-means takes-by text-cut trailing-bits transpose-of transposed-bounded transposed-mean unknown-refusal
unless-leftmost unless-refused unless-within unmarked-reads unnamed-reads walk-on with-column with-places
with-sensors worded-marked worded-not-comment worded-words words-by words-from words-in words-next words-rising
words-some words-split words-with words-within write-digit writes-number x-line x-line-parts xor-bit
""".split()

# Names that get another form: a lemma about one function at another keeps a dash between the two.
OTHERS = {
    "Some-pieces": "SomePieces",
    "getD-last": "get_or_last",
    "how-many-sum": "how_many-sum_over",
    "kind-of-mark": "kind_of-mark",
    "spaced-cut": "spaced-cut_at",
}

NAMES = {name: name.replace("-", "_") for name in PLAIN} | OTHERS

# What a name ends at in antt and in a clause.
EDGE = r"[\s(){}\[\];,.:`\"λ]"
WHOLE = re.compile(r"(?:(?<=" + EDGE + r")|^)(" + "|".join(sorted(map(re.escape, NAMES), key=len, reverse=True)) + r")(?=" + EDGE + r"|$)", re.M)
DEFINED = re.compile(r"^\s*(?:(?:abbrev|unfoldable|pub|data|record|ruleset)\s+)*([^\s(){}:=]+)\s*(?:\(.*)?:", re.M)


def main():
    files = [p for p in pathlib.Path("crates").rglob("*") if p.suffix in (".antt", ".rt") and "out" not in p.parts]
    defined = set()
    for path in files:
        if path.suffix == ".antt":
            defined.update(DEFINED.findall(path.read_text()))
    clash = sorted(set(NAMES.values()) & defined)
    if clash:
        sys.exit("already defined: " + ", ".join(clash))
    changed = 0
    for path in files:
        old = path.read_text()
        new = WHOLE.sub(lambda m: NAMES[m.group(1)], old)
        if new != old:
            path.write_text(new)
            changed += 1
    print(f"{changed} files changed")


if __name__ == "__main__":
    main()
