#!/usr/bin/env python3
"""Respells this repository's own names as the language spells names now: words in snake case, types in camel case.

usage: python3 tools/respell.py [TOP]      TOP is the top of a checkout, turned by the kit's port.py; this folder if left out

It goes by whole words: in every .antt file below crates/, comments apart, and in every .rt file there, comments and texts
apart. A second run changes nothing. Names of functions, files and the kit are not in its list, and stay.
"""

import os
import re
import sys

# definitions, lemmas, fields and hypotheses: each dash becomes an underscore
WORDS = """
    rest-is marks-are arcs-say arcs-pass act-closed act-enough act-fewer add-mins adds-nothing adds-nothing-behind alike-trans all-at all-parts
    and-all and-small arc-adds arc-adds-behind arc-answered arc-between arc-found arc-joined arc-joined-behind
    arc-line arc-row arc-row-fits arc-rows arc-table arcs-asked arcs-behind arcs-into best-grade block-answered
    block-entry block-fits block-joined block-long block-part block-put-in block-put-out block-worth blocks-long
    bounded-settles by-arc by-target chunked-part chunked-take cleared-cong cleared-front clearing-answer clears-by
    closed-cong closed-from closes-uniformly closing-answer column-cong cond-and cond-nil cond-times count-laws
    count-meaning count-ops count-weighs counted-word crossed-more crossing-answer decides-apart decides-leb
    decides-share decoded-arcs decoded-framed decoded-long decoded-states diagonal-sum dot-assoc dot-crossed dot-nil
    dot-plus dot-sum dot-times dual-laws dual-plain dual-settled end-part ends-long entries-more entry-joined
    exactly-by-start exactly-none exactly-word failing-found failing-none failing-passed few-arcs few-letters
    few-states fewer-next file-view final-worth first-failing first-line first-refusal fits-found from-below
    front-alike front-closed front-is-enough glyph-ascii grade-commutes grade-laws grade-meaning grade-ops
    grade-ranked grade-weighs hex-digits hex-more inner-enough inner-next inner-part inner-settles inner-through
    inner-up-to is-path keeps-larger keeps-smaller laid-alike last-decides length-put letter-text letter-within
    letters-fit limits-are lists-cong lists-holds lists-plus machine-answer machine-of machine-size marks-behind
    marks-end marks-found marks-in marks-inside max-small min-mul min-small minutes-laws minutes-meaning minutes-ops
    minutes-ranked minutes-weighs most-counted most-minutes mul-min nil-joined nil-plus nil-times once-next once-part
    once-settled onward-part op-capped or-all or-small pair-block-fits pair-first pair-machine pair-second pair-table
    paired-parts part-along part-antisym part-before part-dot part-is part-longer part-nil part-plus part-refl
    part-sum part-times part-trans parts-commutes parts-meaning parts-ops parts-weighs pass-more path-counted
    path-weight plus-cross plus-last plus-swap possible-laws possible-meaning possible-ops possible-weighs power-plain
    powers-grow powers-more powers-on powers-part powers-plain powers-zero record-text refusal-line report-cut
    round-cong round-row rounds-cong rounds-next rounds-split rounds-within row-between row-cong row-crossed
    row-join-other row-join-same row-of-arc row-of-cong row-put-in row-put-out row-sum row-worth rows-found
    rows-paired same-capped same-list same-totals same-value second-bit share-none silence-apart silent-closure
    some-letters some-states spells-none spells-word spoken-reverse star-is star-on star-part start-part starts-long
    state-line state-row-fits state-rows states-cong states-fit states-found states-pass steps-under sum-append
    sum-by-start sum-cong sum-diagonal sum-exactly sum-holds sum-lists sum-nil sum-pairs sum-pick sum-plus sum-single
    sum-swap sum-times sum-up-to sum-worth table-front table-take tables-fit tables-fit-is tables-inside test-times
    times-assoc times-cond times-cross times-lists times-nil times-plus times-sum times-test times-unit told-cong
    told-crossed told-worth total-fits two-meaning two-ops two-weighs under-part under-step unit-times upto-at
    upto-join upto-more upto-none upto-set view-found walks-inner walks-split walks-up-to weight-at weight-drop
    weight-first weight-part weight-past weight-put-before weight-put-behind weight-put-in weight-read weight-second
    weight-set-other weight-set-same weight-take within-limits within-loops within-round within-spoken within-through
    worth-settles
""".split()

# types: each dash goes, and what follows it is a capital
TYPES = """
    Part-all Closes-uniformly Crossed-below Joined-at Kept-behind Pair-blocks
""".split()

# names that port.py turned only in part, since the library has one like them
TURNED = {"Row_is": "RowIs", "rows_Inside": "rows_inside"}

TABLE = {name: name.replace("-", "_") for name in WORDS} | TURNED
TABLE |= {name: "".join(part[0].upper() + part[1:] for part in name.split("-")) for name in TYPES}

WORD = re.compile(r"[^\s(){}.;,@\"«»]+")
# what is left as it is: comments, and texts in quotes
QUIET = {
    ".antt": re.compile(r'"(?:[^"\\\n]|\\.)*"|(?<!\S)--[^\n]*'),
    ".rt": re.compile(r'b?"(?:[^"\\]|\\.)*"|//[^\n]*', re.S),
}


def respelled(text, quiet):
    turn = lambda part: WORD.sub(lambda m: TABLE.get(m.group(), m.group()), part)
    done, at = [], 0
    for m in quiet.finditer(text):
        done += [turn(text[at : m.start()]), m.group()]
        at = m.end()
    return "".join(done) + turn(text[at:])


def main(top):
    changed = 0
    for folder, below, files in os.walk(os.path.join(top, "crates")):
        below[:] = sorted(name for name in below if name != "out")
        for name in sorted(files):
            quiet = QUIET.get(os.path.splitext(name)[1])
            if quiet is None:
                continue
            path = os.path.join(folder, name)
            with open(path, encoding="utf-8", newline="") as f:
                old = f.read()
            new = respelled(old, quiet)
            if new != old:
                with open(path, "w", encoding="utf-8", newline="") as f:
                    f.write(new)
                changed += 1
    print(f"respell: {len(TABLE)} names, {changed} files changed")


if __name__ == "__main__":
    main(sys.argv[1] if len(sys.argv) > 1 else os.path.join(os.path.dirname(os.path.abspath(__file__)), ".."))
