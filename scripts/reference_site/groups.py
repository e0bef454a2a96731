"""The groups in which items are shown: by what callers do with them."""

import re

OTHERS = "Others"
# Each group by the files of its functions and by their names.
GROUPS = (
    ("State", r"/(?:decoder/queries|encoder|decode_reader|encode_writer)\.rt$",
     r"encoding|is_finished|has_pending_state|had_errors|had_unmappables|latin1_byte_compatible_up_to"),
    ("Lengths to allocate", r"", r"max_\w+|length|text_lengths|byte_lengths"),
    ("Encodings and labels", r"/(?:labels|properties|encoding|encoding_id|table|search|label_pair)\.rt$", r""),
    ("Byte order marks", r"/bom\.rt$", r""),
    ("One-shot calls", r"/(?:one_shot|lending)\.rt$", r""),
    ("Decoding in chunks", r"/decoder(?:/\w+)?\.rt$", r""),
    ("Encoding in chunks", r"/encoder\.rt$", r""),
    ("Validity", r"/validity\.rt$", r""),
    ("Runs", r"/(?:run|encode_run)\.rt$", r""),
    ("Laws", r"/(?:\w+_)?laws\.rt$", r""),
    ("Reader", r"/(?:decode_reader(?:/\w+)?|decoded_text)\.rt$", r""),
    ("Sources", r"/source\.rt$", r""),
    ("Writer", r"/encode_writer\.rt$", r""),
    ("Sinks", r"/sink\.rt$", r""),
    ("Recoding", r"/(?:engine|exit)\.rt$", r""),
)
# The order in which they are shown.
ORDER = (
    "Decoding in chunks", "Encoding in chunks", "One-shot calls", "Reader", "Sources", "Writer", "Sinks", "Recoding",
    "State", "Lengths to allocate", "Encodings and labels", "Byte order marks", "Validity", "Runs", "Laws", OTHERS,
)


def group_of(item):
    """The group of a function."""
    for title, file, name in GROUPS:
        if (not file or re.search(file, item.path)) and (not name or re.fullmatch(name, item.name)):
            return title
    return OTHERS


def grouped(items):
    """Functions by group, in the order in which they are shown."""
    found = {}
    for it in items:
        found.setdefault(group_of(it), []).append(it)
    return [(title, sorted(found[title], key=is_late)) for title in ORDER if title in found]


def is_late(item):
    """Where in its group a function is shown: what makes a value comes first, and calls that lend come last."""
    return not item.name.startswith("new"), "lending" in item.path
