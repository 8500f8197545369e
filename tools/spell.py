#!/usr/bin/env python3
"""Respells this repository's own definitions and lemmas: words in snake case, a dash only between two names.

usage: python3 tools/spell.py   at the top of the repository

Names are whole: a name that only contains one of these is left alone. Functions of src/, strings and comments of code keep theirs.
"""

import glob
import re

# words that were in camel case
CAMEL = """
alphaLane atLine atRoot byParameter byState checkpointsOf dotOf eqZ filledFrom firstWrong floatOps ifAny isBlank isBreak isEnd
jumpedBy knotAt knotOf laneFrom laneProduct lastNotAfter limitOf lookUp madeFor mapOk matrixOf minusTransposed nextBreak numbersOf
onOut onRow passAll productOf rateOf resetAt rideOf rootEps rowByRow ruleTold sameAll sameAnswer samplesOf segmentOf settingsOf
sizeTold spaceFits termsAt termsOf timeTold vectorFits withProducts
"""

# lemmas, fields and local names whose parts are plain words
DASHED = """
ahead-ahead alike-left all-alphas all-is all-states answer-is answer-other around-alike around-two asked-alike asked-alone
asked-first asked-inside asked-none asked-outside asked-two at-end at-most below-is both-written by-parameter checkpoints-law
cond-not cond-ok cut-end cut-whole decimal-more digit-high digit-more does-ok end-blank end-extra entry-is eq-in eq-lt eq-out
equal-first equal-last fails-first fill-all fill-gathers fill-refused float-order full-more gather-ok gathered-gathers gathered-is
head-blank head-names head-none head-other in-ends in-n in-out in-xs knots-more lane-cut lane-length lane-more lanes-joined
lanes-none last-alike last-is last-law last-piece level-is line-last lt-chain lt-eq lt-is map-alike nat-is next-column
next-law none-all not-both not-ok ok-is one-first one-nan order-all order-late order-law order-more order-none order-start part-times
placewise-all placewise-more resets-first rest-written right-after root-by-parameter root-by-state row-bad row-dot row-few row-law
row-length rows-are-states rows-blank rows-law same-is samples-law segments-drop segments-more size-bad size-much slope-at state-at
state-length step-law steps-law takes-over time-back time-of unended-at unended-last unended-more unended-start unit-pos value-at
value-is whole-minus whole-small words-apart written-32 written-64
alpha-of belongs-to column-of contact-of creep-of hermite-of integer-of jump-of product-of rate-of reset-of
"""

# two names that a dash joins, and names that would fall together with another
OTHER = {
    "andThen-ok": "and_then-ok",
    "atLine-ok": "at_line-ok",
    "at-line": "map_ok-at_line",
    "mapOk-ok": "map_ok-ok",
    "natAbs-neg": "nat_abs-neg",
    "onRow-push": "on_row-push",
    "eqZ-other": "eq_z_other",
    "eqZ-refl": "eq_z_refl",
    "eqZ-same": "eq_z_same",
    "eqZ-true": "eq_z_true",
    "lookUp-is": "look_up_is",
    "Cells-of": "cells_of",
    "is_Within": "is_within",
    "is-nan": "is_nan_lem",
}


def table():
    names = {n: re.sub(r"([A-Z])", lambda m: "_" + m.group(1).lower(), n) for n in CAMEL.split()}
    names |= {n: n.replace("-", "_") for n in DASHED.split()}
    return names | OTHER


# a word of antt, a string, or a comment
WORD = re.compile(r"\"(?:\\.|[^\"\\])*\"|--[^\n]*|//[^\n]*|[^\W\d][\w'·-]*")


def main():
    names = table()
    files = [p for kind in ("specs", "proofs") for p in glob.glob(f"crates/*/{kind}/**/*.antt", recursive=True)]
    files += glob.glob("crates/*/src/**/*.rt", recursive=True)
    for path in sorted(files):
        with open(path, encoding="utf-8") as f:
            text = f.read()
        new = WORD.sub(lambda m: names.get(m.group(0), m.group(0)), text)
        if new != text:
            with open(path, "w", encoding="utf-8") as f:
                f.write(new)


if __name__ == "__main__":
    main()
