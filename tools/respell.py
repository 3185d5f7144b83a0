#!/usr/bin/env python3
"""Brings the names of this repository's definitions, lemmas and fields to the spelling of the Rattle in use.

usage: python3 tools/respell.py        at the top of the repository, once, right after the toolchain's own port.py

In the older spelling a dash stood between the words of a name. Now words are joined by an underscore, and a dash joins
only two names, as in `reckoned-append`, what `reckoned` makes of an `append`. Names that Rattle makes join their parts by
dashes and keep each name of the source as it is written there, as in `returns-then-all_tried`.
Only contracts, definitions and proofs have names with a dash, so no function, string, input or output is touched.
"""

import os
import re

# definitions, lemmas, fields, and names that a proof binds
SNAKE = """
actions-begun actions-kept actions-lender actions-room actions-same advice-of after-before all-turns allowed-positive
allowed-within ask-event asked-backs asked-few asked-finds asked-kept asked-room asked-tries at-goal below-tried bound-read
bound-same brought-nearer by-list can-close can-do can-install can-open can-put-back1 can-put-back2 can-switch1 can-switch2
chains-differ check-added check-number count-shown done-event done-moves due-after due-when-advised due-when-told few-actions
few-states fewer-back fewer-beside fewer-deeper follows-front follows-push follows-rest goal-state going-none hall-meaning
hall-shown held-front keeps-rules kept-2 kept-added kept-cleared kept-fewer kept-places kept-popped kept-taken last-item
last-pushed leads-reached leads-rest leads-there level-positive level-turns levels-length log-kept log-same model-same
moves-there next-within no-state no-way-not-reached none-deeper none-of-no-state none-past none-planned-front
none-planned-last not-after-head not-failed not-fewer nothing-shown now-held of-ask of-plan of-report ok-not-err one-change
one-done open-level order-not-no-way order-not-reached order-not-refused passes-by passes-last passes-length passes-pop
passes-push passes-step path-few places-more places-none plan-number press1-off press1-root press2-off press2-root
press3-off press3-root promised-arriving promised-asking promised-nearing promised-standing pushed-added put-behind
reaches-next reaches-push refused-unready refuses-not-ok room-same said-when-true same-distance same-order same-tail
serves-new some-way sound-before sound-found sound-idle sound-next sound-opening sound-ordered sound-run spent-level
spent-whole split-last start-state states-begun states-kept states-lender states-room states-same step-state steps-advised
steps-asked stops-here stops-not-leads stores-differ take-used toward-next trails-same tried-below tried-next
tried-or-not-after tries-allowed true-not-false true-when-said turn-backs turn-finds turn-tries turn-tries-by way-within
windows-differ with-order zero-not-first
""".split()

# where the new name is not the old one with underscores
OTHER = {
    # `getD` of the older library is `get_or` now
    "getD-last": "get_or-last",
    # names that Rattle makes
    "ask-over": "ask_over",
    "back-requires-then-all-tried": "back-requires-then-all_tried",
    "back-then-all-tried": "back-then-all_tried",
    "carry-out-answer": "carry_out-answer",
    "if-all-tried": "if-all_tried",
    "if-at-goal": "if-at_goal",
    "in-ok-can-do": "in_ok-can_do",
    "in-ok-steps": "in_ok-steps",
    "min-actions-used": "min-actions_used",
    "min-states-used": "min-states_used",
    "returns-then-all-tried": "returns-then-all_tried",
    "returns-then-at-goal": "returns-then-at_goal",
    "saturating-sub": "saturating_sub",
    "unwrap-or": "unwrap_or",
}

NAMES = {name: name.replace("-", "_") for name in SNAKE} | OTHER
# a name is not a part of a longer one
WORD = re.compile(r"(?<![\w'-])[A-Za-z_][\w']*(?:-[\w']+)+(?![\w'-])")


def respell(text):
    return WORD.sub(lambda m: NAMES.get(m.group(0), m.group(0)), text)


def main():
    for folder, folders, files in os.walk("crates"):
        folders[:] = sorted(f for f in folders if f not in ("out", "must-fail"))
        for name in sorted(files):
            path = os.path.join(folder, name)
            if not name.endswith((".rt", ".antt")):
                continue
            with open(path, encoding="utf-8") as f:
                old = f.read()
            new = respell(old)
            if new != old:
                with open(path, "w", encoding="utf-8") as f:
                    f.write(new)


if __name__ == "__main__":
    main()
