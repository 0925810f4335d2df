#!/usr/bin/env python3
"""Respells the repository's own definitions and lemmas, right after the kit's port.py has respelled the rest.

usage: python3 tools/respell.py        at the top of the repository

Words are in snake case and types in camel case; a dash stays where it joins the names of two definitions (as in
length-overwritten). Only whole names are replaced: in src/, specs/ and proofs/ by NAMES, in the pages also by
RESPELLED, which port.py has turned in the crates and not there. It stops, and writes nothing, where a new name is
taken already.
"""

import os
import re
import sys

NAMES = {
    "At-most": "AtMost",
    "Cut-from": "CutFrom",
    "Fits-frame": "FitsFrame",
    "Inside-record": "InsideRecord",
    "Numbers-at-most": "NumbersAtMost",
    "Run-of": "RunOf",
    "again-1": "again_1",
    "again-2": "again_2",
    "again-3": "again_3",
    "again-4": "again_4",
    "all-cells": "all_cells",
    "all-within": "all_within",
    "answer-bytes": "answer_bytes",
    "answer-text": "answer_text",
    "append-answer": "append_answer",
    "append-state": "append_state",
    "appended-more": "appended_more",
    "at-it": "at_it",
    "at-most-cell": "at_most_cell",
    "at-most-if": "at_most_if",
    "at-most-more": "at_most_more",
    "both-ways'": "both_ways'",
    "by-case": "by_case",
    "by-making": "by_making",
    "by-opcode": "by_opcode",
    "byte-back": "byte_back",
    "byte-in": "byte_in",
    "byte-joins": "byte_joins",
    "byte-only": "byte_only",
    "byte-or-255": "byte_or_255",
    "byte-value": "byte_value",
    "call-bytes": "call_bytes",
    "calls-in": "calls_in",
    "cell-at-none": "cell_at_none",
    "cell-content": "cell_content",
    "cell-inside": "cell_inside",
    "cell-numbers": "cell_numbers",
    "cell-places": "cell_places",
    "cell-places-few": "cell_places_few",
    "cell-state": "cell_state",
    "cell-told": "cell_told",
    "cond-none": "cond_none",
    "cond-within": "cond_within",
    "content-none": "content_none",
    "content-set": "content_set",
    "count-below": "count_below",
    "count-newest": "count_newest",
    "count-nothing": "count_nothing",
    "count-put": "count_put",
    "count-records": "count_records",
    "current-answer": "current_answer",
    "cut-point": "cut_point",
    "digit-back": "digit_back",
    "digit-only": "digit_only",
    "digit-plain": "digit_plain",
    "disk-write": "disk_write",
    "distinct-at": "distinct_at",
    "distinct-end": "distinct_end",
    "distinct-out": "distinct_out",
    "distinct-step": "distinct_step",
    "empty-log": "empty_log",
    "ended-line": "ended_line",
    "entry-count": "entry_count",
    "entry-or": "entry_or",
    "entry-or-none": "entry_or_none",
    "every-frame": "every_frame",
    "fewer-left": "fewer_left",
    "first-inside": "first_inside",
    "first-line": "first_line",
    "fits-opcode": "fits_opcode",
    "forget-one": "forget_one",
    "forget-state": "forget_state",
    "found-1": "found_1",
    "found-2": "found_2",
    "found-3": "found_3",
    "found-4": "found_4",
    "frame-size": "frame_size",
    "frame-sizes": "frame_sizes",
    "gathered-cells": "gathered_cells",
    "gathered-some": "gathered_some",
    "getD-places": "get_or-places",
    "getD-places-from": "get_or-places_from",
    "getD-row": "get_or-row",
    "getD-same": "get_or-same",
    "has-shape": "has_shape",
    "hex-all": "hex_all",
    "hex-more": "hex_more",
    "hex-plain": "hex_plain",
    "in-front": "in_front",
    "in-limits": "in_limits",
    "inside-at": "inside_at",
    "install-disk": "install_disk",
    "install-log": "install_log",
    "is-store-page": "is_store_page",
    "kept-front": "kept_front",
    "laid-all": "laid_all",
    "laid-over-read": "laid_over_read",
    "layer-number": "layer_number",
    "length-here": "length_here",
    "line-cut": "line_cut",
    "line-length": "line_length",
    "lines-answered": "lines_answered",
    "list-entries-few": "list_entries_few",
    "list-numbers": "list_numbers",
    "list-places": "list_places",
    "list-places-few": "list_places_few",
    "list-room": "list_room",
    "list-state": "list_state",
    "list-told": "list_told",
    "log-state-by": "log_state_by",
    "long-enough": "long_enough",
    "made-sizes": "made_sizes",
    "making-outcome": "making_outcome",
    "newer-old": "newer_old",
    "newest-at-most": "newest_at_most",
    "newest-kept": "newest_kept",
    "newest-more": "newest_more",
    "newest-some": "newest_some",
    "no-page-number": "no_page_number",
    "no-shape": "no_shape",
    "none-some": "none_some",
    "not-below": "not_below",
    "nth-apart": "nth_apart",
    "nth-first-apart": "nth_first_apart",
    "nth-from": "nth_from",
    "nth-later": "nth_later",
    "nth-place": "nth_place",
    "nth-skip": "nth_skip",
    "numbered-state": "numbered_state",
    "numbered-value": "numbered_value",
    "object-at": "object_at",
    "of-1": "of_1",
    "of-2": "of_2",
    "of-3": "of_3",
    "of-4": "of_4",
    "off-it": "off_it",
    "one-le": "one_le",
    "order-appended": "order_appended",
    "order-ends": "order_ends",
    "order-front": "order_front",
    "order-kept": "order_kept",
    "order-lower": "order_lower",
    "order-one": "order_one",
    "order-stamped": "order_stamped",
    "order-take": "order_take",
    "outcome-in": "outcome_in",
    "outcome-plain": "outcome_plain",
    "outcome-text": "outcome_text",
    "page-byte": "page_byte",
    "page-byte-number": "page_byte_number",
    "page-byte-small": "page_byte_small",
    "page-number": "page_number",
    "page-number-byte": "page_number_byte",
    "page-number-of": "page_number_of",
    "placed-write": "placed_write",
    "plain-apart": "plain_apart",
    "plain-place": "plain_place",
    "plain-state": "plain_state",
    "put-at-most": "put_at_most",
    "put-here": "put_here",
    "raw-call": "raw_call",
    "read-after": "read_after",
    "read-outcome": "read_outcome",
    "reads-1": "reads_1",
    "reads-2": "reads_2",
    "reads-3": "reads_3",
    "reads-back": "reads_back",
    "reads-making": "reads_making",
    "reads-write": "reads_write",
    "records-after": "records_after",
    "refusal-bytes": "refusal_bytes",
    "rest-order": "rest_order",
    "row-eta": "row_eta",
    "same-far": "same_far",
    "same-no": "same_no",
    "same-yes": "same_yes",
    "session-after": "session_after",
    "source-number": "source_number",
    "spared-apart": "spared_apart",
    "spared-at": "spared_at",
    "spared-place": "spared_place",
    "spared-state": "spared_state",
    "spelled-hex": "spelled_hex",
    "spelled-later": "spelled_later",
    "stay-at": "stay_at",
    "sweep-more": "sweep_more",
    "tagged-from": "tagged_from",
    "total-below": "total_below",
    "total-le": "total_le",
    "total-more": "total_more",
    "used-length": "used_length",
    "value-over": "value_over",
    "within-at": "within_at",
    "within-last": "within_last",
    "within-newer": "within_newer",
    "within-one": "within_one",
    "within-set": "within_set",
    "word-again": "word_again",
    "word-joins": "word_joins",
    "word-parts": "word_parts",
    "word-whole": "word_whole",
    "write-answer": "write_answer",
    "write-row": "write_row",
    "write-state": "write_state",
    "zero-change": "zero_change",
    "zero-record": "zero_record",
}

# what port.py has respelled in the crates
RESPELLED = [
    "as-many",
    "at-most-one",
    "byte-at",
    "byte-of",
    "byte-small",
    "digit-value",
    "first-above",
    "found-at",
    "gone-at",
    "in-order",
    "in-use",
    "laid-more",
    "laid-one",
    "lines-of",
    "list-inside",
    "made-after",
    "made-by",
    "named-end",
    "named-step",
    "no-byte",
    "none-left",
    "nth-here",
    "numbered-below",
    "numbered-more",
    "object-of",
    "of-none",
    "one-each",
    "order-from",
    "out-of-range",
    "place-of",
    "plain-at",
    "put-some",
    "read-answer",
    "row-by",
    "run-length",
    "same-object",
    "some-left",
    "some-same",
    "within-more",
    "word-at",
    "word-bytes",
    "word-of",
]

NAME = re.compile(r"[\w'-]+(?<!-)")


def files(top):
    """The crates' texts, and the pages."""
    for folder, dirs, names in os.walk(top):
        dirs[:] = sorted(d for d in dirs if d not in (".git", "out", "target", "must-fail", "tools"))
        for name in sorted(names):
            if name.endswith((".rt", ".antt", ".md")) and name != "CHANGES.md":
                yield os.path.join(folder, name)


def respelled(text, names):
    return NAME.sub(lambda m: names.get(m.group(), m.group()), text)


def declared(text):
    """The names that an antt file declares, but not the answers, whose names the kit makes."""
    for line in text.splitlines():
        m = re.match(r"\s*(?:abbrev |unfoldable )?(?:pub )?(?:record |data )?([\w'-]+) : (?!goal\.)", line)
        if m:
            yield m.group(1)


def main(top):
    texts = {}
    for path in files(top):
        with open(path, encoding="utf-8") as f:
            texts[path] = f.read()
    here = {name for path, text in texts.items() if path.endswith(".antt") for name in declared(text)}
    taken = sorted(new for old, new in NAMES.items() if old in here and new in here)
    twice = sorted(n for n in set(NAMES.values()) if list(NAMES.values()).count(n) > 1)
    if taken or twice:
        print("names that fall together: " + ", ".join(taken + twice), file=sys.stderr)
        return 1
    in_pages = NAMES | {old: old.replace("-", "_") for old in RESPELLED}
    for path, text in texts.items():
        new = text
        if path.endswith(".md"):
            new = re.sub(r"`[^`\n]*`", lambda m: respelled(m.group(), in_pages), text)
        else:
            new = respelled(text, NAMES)
        if new != text:
            with open(path, "w", encoding="utf-8") as f:
                f.write(new)
            print(os.path.relpath(path, top))
    return 0


if __name__ == "__main__":
    raise SystemExit(main(os.getcwd()))
