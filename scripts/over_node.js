// Answers rows of conformance by Node's TextDecoder and TextEncoder, for scripts/over.py, which writes the lines of
// standard input. TextDecoder removes the byte order mark of its own encoding, as `remove` says, or with ignoreBOM
// none, as `off`. It looks for no other. By the standard it refuses the encoding replacement.
'use strict';
const { readFileSync } = require('node:fs');

const bytesOf = (digits) => Buffer.from(digits === '-' ? '' : digits, 'hex');
const textOf = (digits) => bytesOf(digits).toString('utf8');
const hex = (bytes) => Buffer.from(bytes).toString('hex').toUpperCase() || '-';
const fails = (given) => `fails ${Object.entries(given).map(([name, it]) => `${name}=${it}`).join(' ')}`;

let section = null;

function isThere(label) {
  try {
    return Boolean(new TextDecoder(label));
  } catch {
    return false;
  }
}

// The text of chunks, or null where a decoder with `fatal` throws.
function decoded(label, fatal, chunks) {
  const decoder = new TextDecoder(label, { fatal, ignoreBOM: section.marks === 'off' });
  try {
    if (chunks.length === 1) return decoder.decode(chunks[0]);
    return chunks.map((it) => decoder.decode(it, { stream: true })).join('') + decoder.decode();
  } catch {
    return null;
  }
}

function pieces(src, length) {
  const found = [];
  for (let at = 0; at < src.length; at += length) found.push(src.subarray(at, at + length));
  return found.length > 1 ? found : [src, src.subarray(0, 0)];
}

// The chunks of an input, each with how it is cut.
function cutsOf(src) {
  const cuts = [['no', [src]], ['each(1)', pieces(src, 1)]];
  for (let at = 0; at <= src.length; at++) cuts.push([`at(${at})`, [src.subarray(0, at), src.subarray(at)]]);
  return cuts;
}

// Decodes with cuts. What it gives where that is wrong.
function compare(label, cuts, text, isMalformed) {
  for (const [cut, chunks] of cuts) {
    const how = { stage: cut === 'no' ? 'whole' : 'cut', of: label, cut };
    const made = decoded(label, false, chunks), strict = decoded(label, true, chunks);
    if (made !== text) return fails({ part: 'text', ...how, text: made === null ? 'throws' : hex(made) });
    if ((strict === null) !== isMalformed) return fails({ part: 'fatal', ...how });
    if (strict !== null && strict !== text) return fails({ part: 'text', ...how, text: hex(strict) });
  }
  return 'holds';
}

function among(label, letter, middle, text, isMalformed) {
  const letters = Math.floor((40 - middle.length) / letter.length), many = (it, count) => Array(count).fill(it);
  for (let front = 0; front <= letters; front++) {
    const src = Buffer.concat([...many(letter, front), middle, ...many(letter, letters - front)]);
    const whole = 'a'.repeat(front) + text + 'a'.repeat(letters - front);
    const answer = compare(label, [['no', [src]], ['each(1)', pieces(src, 1)]], whole, isMalformed);
    if (answer !== 'holds') return answer;
  }
  return 'holds';
}

function bytes(label, first, text) {
  const made = [...text].map((_, at) => decoded(label, false, [Buffer.from([first + at])])).join('');
  return made === text ? 'holds' : fails({ part: 'text', stage: 'bytes', of: label, text: hex(made) });
}

// The rows of decoders, by their names.
const DECODING = {
  text: (label, [src, text, places]) => compare(label, cutsOf(bytesOf(src)), textOf(text), places !== '-'),
  whole: (label, [src, text, , flag]) => compare(label, [['no', [bytesOf(src)]]], textOf(text), flag === 'yes'),
  among: (label, [letter, src, text, places]) => {
    return among(label, bytesOf(letter), bytesOf(src), textOf(text), places !== '-');
  },
  repeat: (label, [count, src, text, middle, ofMiddle]) => {
    const side = Buffer.concat(Array(Number(count)).fill(bytesOf(src))), ofSide = textOf(text).repeat(Number(count));
    const whole = middle === '-' ? side : Buffer.concat([side, bytesOf(middle), side]);
    const want = middle === '-' ? ofSide : ofSide + textOf(ofMiddle) + ofSide;
    return compare(label, [['no', [whole]], ['each(997)', pieces(whole, 997)]], want, want.includes('\u{FFFD}'));
  },
  bytes: (label, [first, text]) => bytes(label, Number(first), textOf(text)),
};

function decode(name, words) {
  const labels = section.names.filter((it) => it !== 'replacement');
  if (!DECODING[name] || section.marks === 'sniff' || labels.length === 0) return 'skip';
  for (const label of labels) {
    if (!isThere(label)) return fails({ part: 'lacks', of: label });
    const answer = DECODING[name](label, words);
    if (answer !== 'holds') return answer;
  }
  return 'holds';
}

// The whole texts of UTF-8.
function encode(name, [text, bytes]) {
  const isUtf8 = section.names.join() === 'UTF-8' && section.barred === '-';
  if (!isUtf8 || !['text', 'long', 'whole'].includes(name)) return 'skip';
  const made = new TextEncoder().encode(textOf(text));
  return hex(made) === bytes ? 'holds' : fails({ part: 'bytes', stage: 'whole', of: 'UTF-8', bytes: hex(made) });
}

// A label as it is, in capitals, with whitespace around it, and with a letter more, by which it is none.
function label(digits, name) {
  const label = bytesOf(digits).toString('latin1'), wanted = name === 'replacement' ? 'none' : name.toLowerCase();
  const capitals = label.replace(/[a-z]/g, (it) => it.toUpperCase());
  const forms = [[label, wanted], [capitals, wanted], [`\t\n\f\r ${label}\t\n\f\r `, wanted]];
  if (name !== 'none') forms.push([`${label}x`, 'none']);
  for (const [form, want] of forms) {
    const given = isThere(form) ? new TextDecoder(form).encoding : 'none';
    if (given === want) continue;
    return fails({ part: want !== 'none' && !isThere(name) ? 'lacks' : 'label', of: name, encoding: given });
  }
  return 'holds';
}

function answer(line) {
  const [name, ...words] = line.split(' ');
  if (name === 'decoder' || name === 'encoder') {
    const [names, marks, , barred] = words;
    section = { decodes: name === 'decoder', names: names.split(','), marks, barred };
    return 'holds';
  }
  if (name === 'label') return label(...words);
  if (!section || ['encoding', 'mark', 'valid'].includes(name)) return 'skip';
  return section.decodes ? decode(name, words) : encode(name, words);
}

const lines = readFileSync(0, 'utf8').split('\n').slice(0, -1);
process.stdout.write(lines.map((it) => `${answer(it)}\n`).join(''));
