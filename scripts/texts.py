"""Text in each encoding, by its label: that of data/texts.txt, and of encodings that Python doesn't know."""

import re
from typing import NamedTuple

from common import read
from lists import encodings, label_of, lists

LIST = "data/texts.txt"
ENGLISH = "The quick brown fox jumps over the lazy dog, 1234567890 times."
ASCII = {chr(it): bytes([it]) for it in range(0x80)}


class Text(NamedTuple):
    """A line of the list, and whether its encoding has an encoder."""
    codec: str
    text: str
    decoded_alone: str
    is_written: bool

    def lines(self):
        """A line of ASCII and one of the text."""
        return f"{ENGLISH}\n{self.text}\n"


WRITTEN = {it.name.lower() for it in encodings() if not it.writes_utf_8}
ROWS = [re.split(" {2,}", it) for it in read(LIST).splitlines() if not it.startswith("#")]
TEXTS = {label: Text(codec, text, alone.strip("-"), label in WRITTEN) for label, codec, text, alone in ROWS}

# The bytes of each character in encodings that Python doesn't know: x-user-defined, and some of two bytes, whose text
# is that of data/codecs.txt.
BYTES = {"x-user-defined": ASCII | {chr(0xF700 + it): bytes([it]) for it in range(0x80, 0x100)}}
TEXTS["x-user-defined"] = Text("", "".join([*BYTES["x-user-defined"]][0x80:]), "", True)
for pairs in lists().pairs:
    if (name := label_of(pairs.decoder)) not in TEXTS:
        BYTES[name] = ASCII | {character: data for data, character in reversed(pairs.sequences) if character}
        TEXTS[name] = Text("", "".join(character for character, _ in pairs.characters), "", True)


def encode(label, text):
    return b"".join(BYTES[label][it] for it in text) if label in BYTES else text.encode(TEXTS[label].codec)
