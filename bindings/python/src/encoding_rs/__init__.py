"""The encodings of the WHATWG Encoding Standard, by code that is proved.

`lookup(label)` finds an encoding, and `decode(bytes, label)` and `encode(text, label)` convert whole texts: the
interface of the package webencodings, which `encoding_rs.webencodings` has in full. Importing this package registers
codecs: `bytes.decode("whatwg-shift_jis")` and `open(path, encoding="whatwg-gbk")` take every label of the standard
after "whatwg-", since Python has encodings of its own by the same names.

docs/BINDINGS.md says what is proved. Python's own error handlers are taken: "strict", "replace", "xmlcharrefreplace"
and so on.
"""

import codecs

from ._codec import PREFIX, search
from ._names import NAMES
from .webencodings import (
    UTF8, Encoding, IncrementalDecoder, IncrementalEncoder, decode, encode, iter_decode, iter_encode, lookup)

__all__ = (
    "NAMES", "PREFIX", "UTF8", "Encoding", "IncrementalDecoder", "IncrementalEncoder", "decode", "encode", "iter_decode",
    "iter_encode", "lookup")

codecs.register(search)
