// Compares recode with the suite's own functions that encode and decode.
//
// recode utf-8 LABEL gets every character from U+0080 on, one a line. The suite's function gives the bytes, or none:
// then a decimal reference is due, as in forms. A line ends in a backslash, which brings ISO-2022-JP back to ASCII.
// recode LABEL utf-8 gets every sequence of one and two bytes without a line feed, for EUC-JP also those after 8F, and
// for ISO-2022-JP those after each escape sequence, with an escape sequence to ASCII after each. The suite's function
// gives the text.
'use strict';
const fs = require('fs'), path = require('path'), vm = require('vm');

// The label, the folder of the suite, its indexes, and the name of its functions.
const CODECS = [
  ['big5', 'legacy-mb-tchinese/big5', ['big5_index.js'], 'big5'],
  ['euc-jp', 'legacy-mb-japanese/euc-jp', ['jis0208_index.js', 'jis0212_index.js'], 'eucjp'],
  ['euc-kr', 'legacy-mb-korean/euc-kr', ['euckr_index.js'], 'euckr'],
  ['iso-2022-jp', 'legacy-mb-japanese/iso-2022-jp', ['jis0208_index.js'], 'iso2022jp'],
  ['shift_jis', 'legacy-mb-japanese/shift_jis', ['jis0208_index.js'], 'sjis'],
];
const LINE_FEED = 10;
const TO_ASCII = [0x1B, 0x28, 0x42];
const ESCAPES = ['(B', '(J', '(I', '$@', '$B'].map((it) => [0x1B, ...Buffer.from(it)]);
const MOST_SHOWN = 20;

const hex = (bytes) => Array.from(bytes, (it) => it.toString(16).toUpperCase().padStart(2, '0')).join(' ');

function linesOf(bytes) {
  const lines = [];
  for (let at = 0, end; (end = bytes.indexOf(LINE_FEED, at)) >= 0; at = end + 1) lines.push(bytes.subarray(at, end));
  return lines;
}

function characters() {
  const points = [];
  for (let it = 0x80; it <= 0x10FFFF; it++) if (it < 0xD800 || it > 0xDFFF) points.push(it);
  return points;
}

function sequences(label) {
  const bytes = Array.from({ length: 256 }, (_, it) => it).filter((it) => it !== LINE_FEED);
  const pairs = [...bytes.map((it) => [it]), ...bytes.flatMap((a) => bytes.map((b) => [a, b]))];
  if (label === 'euc-jp') return [...pairs, ...pairs.map((it) => [0x8F, ...it])];
  if (label !== 'iso-2022-jp') return pairs;
  return [[], ...ESCAPES].flatMap((escape) => pairs.map((it) => [...escape, ...it, ...TO_ASCII]));
}

// Rows of a comparison: the name, what recode has written, and what the suite says.
function* encoded(label, encoder, recode) {
  const points = characters();
  const text = points.map((it) => `${String.fromCodePoint(it)}\\\n`).join('');
  const lines = linesOf(recode('utf-8', label, Buffer.from(text)));
  if (lines.length !== points.length) throw new Error(`${lines.length} lines for ${points.length} characters`);
  const withoutEscape = (bytes) => bytes.replace(/(^| )1B 28 42$/, '');
  for (const [i, it] of points.entries()) {
    const bytes = encoder(String.fromCodePoint(it)) || hex(Buffer.from(`&#${it};`));
    yield [`U+${it.toString(16).toUpperCase()}`, withoutEscape(hex(lines[i].subarray(0, -1))), withoutEscape(bytes)];
  }
}

function* decoded(label, decoder, recode) {
  const all = sequences(label);
  const lines = linesOf(recode(label, 'utf-8', Buffer.from(all.flatMap((it) => [...it, LINE_FEED]))));
  if (lines.length !== all.length) throw new Error(`${lines.length} lines for ${all.length} sequences`);
  for (const [i, it] of all.entries()) {
    yield [hex(it), JSON.stringify(`${lines[i]}\n`), JSON.stringify(decoder(hex([...it, LINE_FEED])))];
  }
}

// The counts of a comparison, after the first rows that differ.
function counted(title, rows, show) {
  let passed = 0, failed = 0;
  for (const [name, ours, theirs] of rows) {
    if (ours === theirs) passed++;
    else if (failed++ < MOST_SHOWN) show(`  failed: ${title}: ${name}: ${ours}, and the suite says ${theirs}`);
  }
  show(`${title}: ${passed} passed, ${failed} failed`);
  return { passed, failed };
}

// Makes a function of the suite: that of a codec which encodes or decodes.
function functionOf(suite, [, folder, indexes, name], kind) {
  const scope = vm.createContext({});
  for (const file of [...indexes, `${name}-${kind.toLowerCase()}.js`]) {
    vm.runInContext(fs.readFileSync(path.join(suite, 'encoding', folder, file), 'utf8'), scope, file);
  }
  return vm.runInContext(`${name}${kind}`, scope);
}

// Makes the sweeps whose titles have a pattern, shows a line for each, and returns the sums of their counts.
exports.sweep = function (suite, recode, pattern, show) {
  const sweeps = CODECS.flatMap((codec) => [
    [`recode utf-8 ${codec[0]}, characters`, () => encoded(codec[0], functionOf(suite, codec, 'Encoder'), recode)],
    [`recode ${codec[0]} utf-8, sequences`, () => decoded(codec[0], functionOf(suite, codec, 'Decoder'), recode)],
  ]);
  const counts = sweeps.filter(([title]) => pattern.test(title)).map(([title, rows]) => counted(title, rows(), show));
  const sum = (name) => counts.reduce((sum, it) => sum + it[name], 0);
  return { passed: sum('passed'), failed: sum('failed') };
};
