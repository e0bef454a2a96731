// Wrong answers, for scripts/web-platform-tests --self-test: what each changes, the test files or sweeps that must see
// it, and the change of an answer of conformance (`answer`) or of the bytes that recode writes (`output`).
'use strict';
const hex = (text) => Buffer.from(text).toString('hex').toUpperCase();
const isAbout = (question, kind, label) => `${question} `.startsWith(`${kind} ${hex(label)} `);

exports.ALTERED = [
  {
    name: 'the name of the label x-sjis', files: /^textdecoder-labels\.any\.js$/,
    answer: (question, answer) => (isAbout(question, 'name', 'x-sjis') ? 'EUC-JP' : answer),
  },
  {
    name: 'the character of the byte FE in KOI8-R', files: /^single-byte-decoder\.window\.js$/,
    answer: (question, answer) => (isAbout(question, 'decode', 'koi8-r') ? answer.replace('0427', '0428') : answer),
  },
  {
    name: 'a malformed sequence that is not reported', files: /^textdecoder-fatal\.any\.js$/,
    answer: (question, answer) => answer.replace('!', ''),
  },
  {
    name: 'the bytes of a character in Big5', files: /^big5-encoder\.html$/,
    answer: (question, answer) => (isAbout(question, 'encode', 'Big5') ? answer.replace('A140', 'A141') : answer),
  },
  {
    name: 'the code point of an unmappable character', files: /^big5-encoder\.html$/,
    answer: (question, answer) => answer.replace(/&(\d+)/, (_, point) => `&${Number(point) + 1}`),
  },
  {
    name: 'the number of units that encodeInto reads', files: /^encodeInto\.any\.js$/,
    answer: (question, answer) => (question.startsWith('fill ') ? answer.replace(/^2;/, '3;') : answer),
  },
  {
    name: 'the text that recode writes for a page', files: /^eof-shift_jis\.html$/,
    output: (from, to, bytes) => Buffer.concat([bytes, Buffer.from('.')]),
  },
  {
    name: 'the text that recode writes for a character in EUC-KR', sweeps: /^recode euc-kr utf-8,/,
    output: (from, to, bytes) => Buffer.from(bytes.toString().replace('\uAC00', '\uAC01')),
  },
];
