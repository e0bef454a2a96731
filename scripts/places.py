"""Where codecs are found, and the places that CONTRIBUTING.md ("Add a codec") lists by hand. For scripts/documents."""

import functools
import os
import re
from typing import NamedTuple

from common import crates, is_there, paths, read
from edit_list import edits_of
from lists import encodings, lists, snake_of

# Codecs whose rule, and encoders whose bytes, are in a spec file of another name.
RULE_OF = {"SingleByte": "OneByte", "XUserDefined": "OneByte"}
SPEC_OF = {"XUserDefined": "SingleByte"}
# The crate of a recipe's decoders, where it has one.
CRATE_OF = dict.fromkeys("AB", "enc_decoder_single_byte") | dict.fromkeys("CD", "enc_decoder_multi_byte")


class Decoder(NamedTuple):
    """A decoder, by the name that its codecs have in the code: the crate of its family and the module there, if any."""
    name: str
    codecs: list
    encoder: str
    crate: str
    module: str


@functools.cache
def decoders():
    """Each decoder once, in the order of the codecs."""
    # families are the crates below the choice that stand on the loop
    families = [it for it in crates()["enc_codec"] if "enc_decoder" in crates()[it]]
    modules = [(family, os.path.basename(it)[:-3]) for family in families for it in paths(f"crates/{family}/src/*.rt")]
    found, by_name = [], {}
    for codec in lists().codecs:
        by_name.setdefault(codec.decoder, []).append(codec)
    for name, codecs in by_name.items():
        those = [it for it in modules if it[1].replace("_", "") == name.lower()]
        place = those[0] if len(those) == 1 else ("", "")
        found.append(Decoder(name, [it.name for it in codecs], codecs[0].encoder, *place))
    return found


def unsaid(named):
    """Of the patterns wanted in each file, those that it doesn't have."""
    return [f"{it} in {path}" for path, words in named.items() for it in words if not re.search(it, read(path), re.M)]


def without_edit(crate, file):
    """The place of an edit of a file, if there is none."""
    has_one = any(pair.file == file for edit in edits_of(crate) for pair in edit.pairs)
    return [] if has_one else [f"an edit of crates/{crate}/{file} in crates/{crate}/edits/"]


def lacking_of(decoder):
    """The places that a decoder lacks, and those that its encoder does."""
    name, codecs, encoder, crate, module = decoder
    if not module:
        crate, module = next(CRATE_OF.get(it.recipe) for it in lists().codecs if it.decoder == name), snake_of(name)
    if not crate:
        return ["no file of its name in src/ of a family's crate"]
    wanted = [f"crates/{crate}/src/{module}.rt", f"crates/{crate}/specs/{RULE_OF.get(name, name)}.antt"]
    wanted.append(f"conformance/decode-{module.replace('_', '-')}.txt")
    missing = [it for it in wanted if not is_there(it)] + without_edit(crate, f"src/{module}.rt")
    return missing + (lacking_of_encoder(encoder, module) if encoder != "-" else []) + unsaid({
        "crates/enc_codec/specs/Codecs.antt": [rf"\bcodec_rule [(]?codec\.{it}\b" for it in codecs],
        "crates/enc_encode/specs/Encoders.antt": [rf"\bencoder_facts [(]?codec\.{it}\b" for it in codecs],
        "crates/enc_encode/src/choice.rt": [rf"\bCodec::{it}\b" for it in codecs],
        "docs/PROVED.md": [rf"`{name}Decoder`"],
        "ARCHITECTURE.md": [rf"\b{module}\b"],
        "crates/test_codecs/src/surface/samples.rt": [rf"\bCodec::{it}\b" for it in codecs],
    })


def lacking_of_encoder(encoder, module):
    """The places that an encoder lacks."""
    file, spec = f"src/encoders/{module}.rt", f"crates/enc_encode/specs/{SPEC_OF.get(encoder, encoder)}.antt"
    missing = [it for it in (spec, f"crates/enc_encode/{file}") if not is_there(it)] + without_edit("enc_encode", file)
    proofs = "".join(map(read, paths("crates/enc_round_trip/proofs/*.antt")))
    if not re.search(rf"^pub {module}_is_read :", proofs, re.M):
        missing.append(f"`pub {module}_is_read :`, that each character is read back, in crates/enc_round_trip/proofs/")
    return missing + unsaid({"docs/PROVED.md": [rf"`{encoder}Encoder`"]})


def lacking_of_lookup(lookup):
    """The places that a look-up of an index lacks."""
    test = f"crates/test_codecs/src/indexes/{lookup.module}.rt"
    own = {"crates/enc_index_pointers/specs/Pointers.antt": [rf"^{lookup.module}_pointer\b"]}
    return ([] if is_there(test) else [test]) + unsaid(own)


def lacking_lines():
    """The lines of data/codecs.txt that others need: `pairs` of a codec of recipe C or D, and `lookup` of an index."""
    paired, looked_up = {it.decoder for it in lists().pairs}, {it.index for it in lists().lookups}
    encoded = {it.decoder for it in lists().codecs if it.encoder != "-"}
    unpaired = {it.decoder: None for it in lists().codecs if it.recipe in "CD" and it.decoder not in paired}
    found = [f"{it}: no line `pairs` in data/codecs.txt" for it in unpaired]
    plain = [it for it in lists().pairs if it.is_plain and it.decoder in encoded and it.index not in looked_up]
    return found + [f"{it.decoder}: no line `lookup` of its index in data/codecs.txt" for it in plain]


def lacking():
    """The places that codecs and look-ups lack, and the encodings that have no text for tests."""
    found = lacking_lines() + [f"{decoder.name}: {it}" for decoder in decoders() for it in lacking_of(decoder)]
    found += [f"look-up {lookup.name}: {it}" for lookup in lists().lookups for it in lacking_of_lookup(lookup)]
    sampled = {it.decoder for it in lists().pairs if it.characters}
    texts = (read("data/texts.txt") + read("scripts/command-lines")).lower()
    others = [it.name for it in encodings() if it.codec not in sampled]
    return found + [f"{it}: no text in data/texts.txt" for it in others if not re.search(rf"\b{it.lower()}\b", texts)]
