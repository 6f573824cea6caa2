#!/usr/bin/env python3
"""Brings the names of this repository's own definitions and lemmas to today's spelling.

usage: python3 tools/respell.py    at the top of the repository, once, after the toolchain's port.py

Words are in snake case and facts in upper camel case; a dash stays only where it joins the names of two definitions, as in
`length-cells`. Names of functions, fields, steps that the check makes, strings and files stay. It stops before it writes
anything where a new name already stands in a file that has the old one.
"""

import os
import re
import sys

# facts, whose new name is no mere change of dashes, and definitions that would get the name of a function of src/
SPECIAL = {
    "Handed-on": "HandedOn",
    "Held-back": "HeldBack",
    "In-order": "InOrder",
    "Taken-out": "TakenOut",
    "Carried-anew": "CarriedAnew",
    "line-answer": "line_answer_of",
    "line-refusal": "line_refusal_of",
}

# each dash becomes an underscore
WORDS = """
adds-some after-put after-take all-below all-by all-in-order answer-is answer-test answers-join arrival-lines
arrival-outside bank-number bank-ok bank-refusal bays-kept bays-of below-is below-le below-lt carried-made cells-head check-answer closed-front
closed-more closed-up column-below column-is count-all count-answer count-ext count-is count-more drop-front empty-lines
entry-le entry-on entry-text err-by first-adds first-gone first-leads first-oldest first-split followed-at followed-ext
followed-none followed-push followed-take followed-take-held from-below from-held front-within gateway-lines
gateway-outside gone-first gone-none handing-all handing-more handing-none handing-skip held-back held-less in-column
joined-append joined-ext joined-less joined-more joined-push joins-answers leads-test length-list lines-after
lines-after-all lines-ext list-in list-is list-none list-past list-split list-take log-of made-lines made-within
make-text memory-left memory-of message-text next-free none-there oldest-first oldest-front oldest-named oldest-taken
on-away on-here on-length on-line on-more on-other on-pair one-column one-is one-other other-column other-leads
outcome-of outcome-text place-below place-next places-kept put-answer put-below put-by put-line put-one put-outcome
put-room queue-below queue-of queue-same queue-short queues-of read-leads read-waiting records-of refusal-text
refused-alike refused-by ring-lines ring-other ring-outside ring-same ring-short rings-new room-from-fits room-left
same-ends same-pair sender-below some-there square-fits step-text step-within take-answer take-is take-line take-one
take-outcome taken-by taken-oldest two-bays two-below two-from underway-all underway-more underway-none waiting-first
waiting-of with-line with-put with-take within-line within-put within-take
""".split()

# a slip of an older script, which changed the ends of words
SLIPS = {"put-bye": "put_one"}


def table():
    names = {w: w.replace("-", "_") for w in WORDS}
    names.update(SPECIAL)
    names.update(SLIPS)
    return {old: new for old, new in names.items() if old != new}


def texts():
    for folder, dirs, files in os.walk("crates"):
        dirs[:] = sorted(d for d in dirs if d != "out")
        for name in sorted(files):
            if name.endswith((".rt", ".antt", ".edit")):
                yield os.path.join(folder, name)


def token(name):
    return re.compile(r"(?<![\w.'-])" + re.escape(name) + r"(?![\w'-])")


def main():
    names = table()
    changed = {}
    clashes = []
    for path in texts():
        with open(path, encoding="utf-8") as f:
            text = new_text = f.read()
        for old, new in names.items():
            if token(old).search(text):
                if token(new).search(text):
                    clashes.append(f"{path}: {old} and {new}")
                new_text = token(old).sub(new, new_text)
        if new_text != text:
            changed[path] = new_text
    if clashes:
        sys.exit("names that fall together:\n" + "\n".join(clashes))
    for path, text in changed.items():
        with open(path, "w", encoding="utf-8") as f:
            f.write(text)
    print(f"respelled {len(changed)} files")


if __name__ == "__main__":
    main()
