"""Measures encoding.js beside the TextDecoder that is built into Chromium, and writes a table: web_rates.py

Each corpus of bench/ has 8 MiB, which a decoder gets in chunks of 1 MiB, and a string is made of each. Both take turns.
The best rate of ROUNDS counts, and the ratio in the median round. Encoding has nothing beside it: browsers encode UTF-8
alone. Then each sequence of two bytes and random ones of 40 are decoded by new decoders of both. Of those that differ
the shortest parts that differ are listed.
"""

import json
import os
import sys

sys.path.append(os.path.dirname(os.path.dirname(os.path.abspath(__file__))))
from browsers import browser  # noqa: E402
from common import TOP  # noqa: E402
import corpora  # noqa: E402
from programs import CACHE  # noqa: E402
from web_server import serving  # noqa: E402

MIB, ROUNDS = 8, 15
COMPARED = ("shift_jis", "euc-jp", "iso-2022-jp", "gb18030", "big5", "euc-kr")
PAGE = """<!doctype html><meta charset="utf-8"><script type="module">
import * as ours from '/web/encoding.js';
await ours.load();
const CHUNK = 1 << 20;
const decode = (decoder, bytes) => {
  let length = 0;
  for (let at = 0; at < bytes.length; at += CHUNK) {
    length += decoder.decode(bytes.subarray(at, at + CHUNK), { stream: at + CHUNK < bytes.length }).length;
  }
  return length;
};
const timed = (task) => {
  const begun = performance.now();
  task();
  return performance.now() - begun;
};

// The rates of both and of encoding in MB/s, the ratio of both, and whether the texts are the same.
window.rates = async (name, label, rounds) => {
  const bytes = new Uint8Array(await (await fetch(`/corpora/${name}`)).arrayBuffer());
  const best = [Infinity, Infinity, Infinity], ratios = [];
  const whole = [ours, window].map((it) => new it.TextDecoder(label).decode(bytes));
  for (let round = 0; round < rounds; round++) {
    const times = [ours, window].map((it) => timed(() => decode(new it.TextDecoder(label), bytes)));
    ratios.push(times[1] / times[0]);
    times.push(timed(() => new ours.TextEncoder(label).encode(whole[0])));
    for (const [i, it] of times.entries()) best[i] = Math.min(best[i], it);
  }
  const median = ratios.sort((a, b) => a - b)[ratios.length >> 1];
  return [...best.map((it) => bytes.length / it / 1000), median, whole[0] === whole[1]];
};

// The short sequences that both decode differently: bytes, and both texts.
const ALPHABET = { 'iso-2022-jp': [0x1B, 0x24, 0x28, 0x40, 0x42, 0x49, 0x4A, 0x21, 0x7E, 0x0E, 0xA1] };
const [RANDOM, LENGTH] = [20_000, 40];
window.compare = (label) => {
  const texts = (bytes) => [ours, window].map((it) => new it.TextDecoder(label).decode(Uint8Array.from(bytes)));
  const differs = (bytes) => {
    const [a, b] = texts(bytes);
    return a !== b;
  };
  // without each byte that the difference doesn't need
  const shortest = (bytes) => {
    for (let i = 0; i < bytes.length;) {
      const without = [...bytes.slice(0, i), ...bytes.slice(i + 1)];
      if (differs(without)) [bytes, i] = [without, 0];
      else i++;
    }
    return bytes;
  };
  const found = new Map(), look = (bytes) => {
    if (!differs(bytes)) return;
    const least = shortest(bytes);
    found.set(`${least}`, [least, ...texts(least)].map((it) => JSON.stringify(it)));
  };
  for (let a = 0; a < 256; a++) for (let b = 0; b < 256; b++) look([a, b]);
  let seed = 1;
  const random = (below) => {
    seed = (Math.imul(seed, 1664525) + 1013904223) >>> 0;
    return Math.floor(seed / 2 ** 32 * below);
  };
  const byte = () => (ALPHABET[label] ? ALPHABET[label][random(ALPHABET[label].length)] : random(256));
  for (let i = 0; i < RANDOM; i++) look(Array.from({ length: LENGTH }, byte));
  return [...found.values()];
};
window.isReady = true;
</script>"""


def measured(driver):
    """A row of the table for each corpus of running text."""
    rows = [("Text, chunks of 1 MiB", "encoding.js", "built in", "ratio", "encoded")]
    for it in corpora.CORPORA:
        if it.way == "decode" and it.languages and it.kind == corpora.RUNNING:
            name = os.path.basename(corpora.path(CACHE, it, MIB))
            ours, builtin, encoded, ratio, is_same = driver.execute_async_script(
                "const end = arguments[3]; window.rates(...arguments).then(end, (it) => end([0, 0, 0, 0, `${it}`]));",
                name, it.label, ROUNDS)
            title = it.title.removesuffix(f", {corpora.RUNNING}")
            rows.append((title, f"{ours:.0f}", f"{builtin:.0f}", f"{ratio:.2f}", f"{encoded:.0f}"))
            same = "the same text" if is_same is True else "OTHER TEXTS"
            print(f"rates: {title}: {ours:.0f} and {builtin:.0f} MB/s, {same}", flush=True)
    return rows


def compared(driver):
    """Lists the sequences that differ."""
    for label in COMPARED:
        found = driver.execute_script(f"return window.compare('{label}');")
        print(f"compared: {label}: {len(found)} shortest sequences differ", flush=True)
        for sequence, ours, theirs in found[:40]:
            print(f"  {bytes(json.loads(sequence)).hex(' ').upper()}: {ours}, built in {theirs}")


def main():
    os.makedirs(CACHE, exist_ok=True)
    folder = os.path.dirname(corpora.path(CACHE, corpora.CORPORA[0], MIB))
    pages = f"{CACHE}/rates-page"
    os.makedirs(pages, exist_ok=True)
    with open(f"{pages}/index.html", "w", encoding="utf-8") as file:
        file.write(PAGE)
    with serving({"/": pages, "/web": f"{TOP}/bindings/web/out", "/corpora": folder}) as address:
        driver = browser(is_offline=False)
        try:
            driver.set_script_timeout(600)
            driver.get(address)
            driver.execute_async_script(
                "const end = arguments[0], look = () => (window.isReady ? end() : setTimeout(look, 50)); look();")
            rows = measured(driver)
            print("\n".join(f"| {' | '.join(it)} |" for it in [*rows[:1], ("---", *["--:"] * 4), *rows[1:]]))
            compared(driver)
            print(driver.execute_script("return navigator.userAgent;"))
        finally:
            driver.quit()
    return 0


if __name__ == "__main__":
    sys.exit(main())
