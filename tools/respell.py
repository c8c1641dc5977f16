#!/usr/bin/env python3
"""Respells the definitions and lemmas of specs/ and proofs/, once, after port.py: words in snake case, types in camel case.

usage: python3 tools/respell.py    at the top of the repository

A hyphen stays in the name of a lemma between the definition that its equation is about and the rest, as in `run-append`. Only whole names are turned, in .antt and .rt files.
"""

import os
import re

# Every hyphen becomes an underscore.
WORDS = """
all-fine all-numbers all-sent all-sent-after along-all along-more ample-call any-cut begun-is bit-low bits-more bits-sent broken-read
by-looks by-rule byte-is-digit bytes-only bytes-sent call-with calls-are-cut calls-are-cut-at changes-none changes-other changes-same
counted-on cut-after cut-back cut-from cut-is-read cut-none cut-parted cut-to data-looked digit-below digit-more digit-small either-line
ends-first ends-full ends-less ends-newline ends-no-digit ends-other ends-replicate ends-text equal-lengths-are-fair filling-all
filling-more find-mark first-left first-pushed five-digits frame-cut frame-read fresh-goes-on fresh-sound from-reader front-digits
front-given front-last front-more front-most front-none front-one front-other front-rolls front-some glitch-read handed-is handed-over
has-read in-level in-range in-run join-other join-past join-within joined-call lacks-append lacks-cons lacks-digits lacks-newline lacks-room
lacks-tail last-counted last-digit last-is last-parted last-replaced later-goes-on left-is-taken-back left-restores left-within level-of
levels-from line-back line-bit line-run line-words lines-back look-place look-run look-words looks-are-read machine-is-cut meaning-of
memory-fails memory-wants message-of more-runs next-calls next-line next-look next-outputs next-some no-bit no-bit-word no-count no-look
no-newline no-sample no-space not-at-fault not-past not-read not-refused number-cases number-some numbers-given numbers-read odd-read
on-append on-level one-append one-by one-listing one-look one-read one-rest one-run one-sent one-unplaced one-within onto-first onto-front
outputs-at packed-minimal piece-more piece-wants piece-within placed-append placed-within pushed-on read-call read-fine read-from reader-in
reading-from reads-its-share refused-at refused-from-err rest-checked rest-is right-false rolled-on room-filled run-from run-outputs
run-over run-parted run-same run-some run-two run-with runs-from runs-in same-header same-listing same-samples samples-append samples-from
samples-given samples-in samples-of sent-at sent-equal sent-unplaced sent-wave serial-after setting-at-fault sixteen-push some-digit
some-extended some-output some-rolled some-samples start-cut start-looked streams-are-read takes-in text-some too-early too-late two-each
two-numbers two-read two-read-as-one two-sent under-way unless-refused wait-small wave-after waves-are-read within-append within-output
within-quiet word-sent word-text words-in written-more
"""

# These become what stands beside them.
OTHERS = {
    "Extends-some": "ExtendsSome",
    "Room-after": "room_after",
    "on-level-sound": "on_level-sound",
    "rolled-on-begins": "rolled_on-begins",
    "rolled-on-formed": "rolled_on-formed",
    "rolled-on-gives": "rolled_on-gives",
    "rolled-on-packed": "rolled_on-packed",
    "under-way-sound": "under_way-sound",
}


def main():
    names = {w: w.replace("-", "_") for w in WORDS.split()} | OTHERS
    whole = re.compile(r"(?<![\w'-])(?:" + "|".join(re.escape(n) for n in sorted(names, key=len, reverse=True)) + r")(?![\w'-])")
    turned = 0
    for folder, folders, files in os.walk("crates"):
        folders[:] = sorted(f for f in folders if f != "out")
        for name in sorted(files):
            if not name.endswith((".antt", ".rt")):
                continue
            path = os.path.join(folder, name)
            with open(path, encoding="utf-8") as f:
                old = f.read()
            new = whole.sub(lambda m: names[m.group(0)], old)
            if new != old:
                turned += 1
                with open(path, "w", encoding="utf-8") as f:
                    f.write(new)
    print(f"respell: {turned} files")


if __name__ == "__main__":
    main()
