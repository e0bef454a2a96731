// Calls of encoding.js beyond web-platform-tests: what the standard's classes lack, callbacks that call, and errors.
// `calls` returns what was called, the answer, and the answer that is wanted. Bytes are those of Python's codecs.
import {
  encodingForBOM, encodingForLabel, encodings, malformed,
  TextDecoder, TextDecoderStream, TextEncoder, TextEncoderStream,
} from '/web/encoding.js';

const bytes = (hex) => Uint8Array.from(hex.split(' '), (it) => parseInt(it, 16));
const hexOf = (data) => Array.from(data, (it) => it.toString(16).toUpperCase().padStart(2, '0')).join(' ');

// The name of what a call throws, or its answer.
function tried(call) {
  try {
    return call();
  } catch (fault) {
    return fault.name;
  }
}

function* labels() {
  yield ['encodings', encodings().length, 40];
  yield ['a label with spaces, in capitals', encodingForLabel('\n LATIN1 '), 'windows-1252'];
  yield ['no label', encodingForLabel('klingon'), null];
  yield ['a label beyond ASCII', encodingForLabel('\u212Aoi8-r'), null];
  yield ['a long label', encodingForLabel(`${' '.repeat(100_000)}utf-8`), 'UTF-8'];
  yield ['a mark', encodingForBOM(bytes('EF BB BF 61')), { encoding: 'UTF-8', length: 3 }];
  yield ['no mark', encodingForBOM(bytes('EF BB')), null];
  yield ['an unknown label to decode', tried(() => new TextDecoder('klingon')), 'RangeError'];
  yield ['replacement to decode', tried(() => new TextDecoder('hz-gb-2312')), 'RangeError'];
  yield ['an unknown label to encode', tried(() => new TextEncoder('klingon')), 'RangeError'];
  yield ['the output encoding of UTF-16', new TextEncoder('utf-16le').encoding, 'utf-8'];
  yield ['options that are no object', tried(() => new TextDecoder('utf-8', 1)), 'TypeError'];
  yield ['a callback that is none', tried(() => new TextDecoder('utf-8', { malformed: 1 })), 'TypeError'];
}

function* faults() {
  yield ['malformed sequences', malformed(bytes('61 FF E2 82 62')),
    [{ offset: 1, length: 1 }, { offset: 2, length: 2 }]];
  const long = new Uint8Array(300_000).fill(0x61);
  long.set(bytes('E2 82 41'), 65_535); // across two inputs of the module
  long[200_000] = 0xFF;
  yield ['far apart', malformed(long), [{ offset: 65_535, length: 2 }, { offset: 200_000, length: 1 }]];
  yield ['many', malformed(new Uint8Array(200_000).fill(0xFF)).length, 200_000];
  const places = [], chunks = new TextDecoder('euc-jp', { malformed: (...it) => places.push(it) });
  const text = [[0xA4], [0x20, 0x8F, 0xA2], [0x41]].map((it) => chunks.decode(Uint8Array.from(it), { stream: true }));
  yield ['in chunks', [text.join('') + chunks.decode(), places], ['\uFFFD \uFFFDA', [[0, 1, 0], [2, 2, 0]]]];
  const inner = [], calls = new TextDecoder('utf-8', { malformed: () => {
    inner.push(new TextDecoder('euc-kr').decode(bytes('B0 A1')), hexOf(new TextEncoder('big5').encode('中')));
  } });
  yield ['a callback that decodes and encodes', [calls.decode(bytes('61 FF 62')), inner], ['a\uFFFDb', ['가', 'A4 A4']]];
  const throwing = new TextDecoder('utf-8', { malformed: () => { throw new SyntaxError(); } });
  yield ['a callback that throws', tried(() => throwing.decode(bytes('61 E2'), { stream: false })), 'SyntaxError'];
  yield ['after it', throwing.decode(bytes('62')), 'b'];
  let times = 0;
  const own = new TextDecoder('utf-8', { malformed: () => { if (!times++) own.decode(bytes('61')); } });
  yield ['a callback that calls its own decoder', tried(() => own.decode(new Uint8Array(70_000).fill(0xFF))), 'Error'];
  yield ['after that', own.decode(bytes('62')), 'b'];
  const taken = new Uint8Array(200_000).fill(0xFF);
  const taking = new TextDecoder('utf-8', {
    malformed: () => { if (taken.length) structuredClone(taken.buffer, { transfer: [taken.buffer] }); },
  });
  yield ['a callback that takes the chunk away', tried(() => taking.decode(taken)), 'TypeError'];
}

function* decoders() {
  const fatal = new TextDecoder('utf-8', { fatal: true });
  yield ['fatal in a stream', tried(() => fatal.decode(bytes('61 FF 62'), { stream: true })), 'TypeError'];
  yield ['the rest of its chunk', fatal.decode(bytes('63')), 'bc'];
  const one = new TextDecoder('iso-2022-jp');
  one.decode(bytes('1B 24 42 46'), { stream: true });
  const other = one.clone();
  yield ['a clone goes on', [one.decode(bytes('7C')), other.decode(bytes('7C 4B 5C'))], ['日', '日本']];
  const marked = new TextDecoder('windows-1252', { sniffBOM: true });
  const before = marked.encoding;
  marked.decode(bytes('FF FE 61 00'), { stream: true });
  yield ['a mark sets the encoding', [before, marked.encoding, marked.clone().decode(bytes('62 00'))],
    ['windows-1252', 'utf-16le', 'b']];
  yield ['no bytes', new TextDecoder('gb18030').decode(), ''];
  yield ['no buffer', tried(() => new TextDecoder().decode('text')), 'TypeError'];
  const named = { [Symbol.toStringTag]: 'ArrayBuffer', byteLength: 1 };
  yield ['what only has the name of one', tried(() => new TextDecoder().decode(named)), 'TypeError'];
  const long = new ArrayBuffer(100_000, { maxByteLength: 200_000 });
  new Uint8Array(long).fill(0xFF);
  const growing = new TextDecoder('utf-8', { malformed: () => long.resize(200_000) });
  yield ['a buffer that grows meanwhile', growing.decode(long).length, 100_000];
}

function* encoders() {
  const points = [], pairs = new TextEncoder('iso-2022-jp', { unmappable: (...it) => points.push(it) });
  const parts = [pairs.encode('日☃本\uD83D', { stream: true }), pairs.encode('\uDE00x')];
  yield ['unmappable characters, and a pair in two chunks', [parts.map(hexOf), points], [
    ['1B 24 42 46 7C 1B 28 42 26 23 39 37 33 31 3B 1B 24 42 4B 5C', '1B 28 42 26 23 31 32 38 35 31 32 3B 78'],
    [[0x2603, 1], [0x1F600, 3]],
  ]];
  const text = '日☃'.repeat(50_000), found = [];
  const long = new TextEncoder('euc-jp', { unmappable: (_, offset) => found.push(offset) }).encode(text);
  yield ['a long text', [long.length, found.length, found.at(-1)], [450_000, 50_000, 99_999]];
  yield ['the same with no callback', hexOf(new TextEncoder('euc-jp').encode(text)) === hexOf(long), true];
  yield ['fatal', tried(() => new TextEncoder('shift_jis', { fatal: true }).encode('é')), 'TypeError'];
  const state = new TextEncoder('iso-2022-jp');
  const begun = hexOf(state.encode('日', { stream: true }));
  yield ['input that is no string', tried(() => state.encode(Symbol('s'), { stream: true })), 'TypeError'];
  yield ['it changes nothing', [begun, hexOf(state.encode('本'))], ['1B 24 42 46 7C', '4B 5C 1B 28 42']];
  yield ['half of a pair', hexOf(new TextEncoder('utf-8').encode('a\uD83D')), '61 EF BF BD'];
  for (const options of [{}, { unmappable() {} }]) {
    const into = new Uint8Array(12), encoder = new TextEncoder('shift_jis', options);
    yield ['a reference that has room', [encoder.encodeInto('a☃b☃', into), hexOf(into)],
      [{ read: 2, written: 8 }, '61 26 23 39 37 33 31 3B 00 00 00 00']];
    yield ['one that has none', encoder.encodeInto('☃', new Uint8Array(9)), { read: 0, written: 0 }];
  }
  const strict = new TextEncoder('shift_jis', { fatal: true });
  yield ['whole characters alone', strict.encodeInto('日本語', new Uint8Array(5)), { read: 2, written: 4 }];
}

// The parts that a stream makes of others.
async function through(stream, ...parts) {
  const writer = stream.writable.getWriter(), made = [];
  const written = Promise.all([...parts.map((it) => writer.write(it)), writer.close()]);
  for await (const it of stream.readable) made.push(it);
  await written;
  return made;
}

async function* streams() {
  const text = await through(new TextDecoderStream('shift_jis'), bytes('93'), bytes('FA 96 7B'));
  yield ['a stream of text', text.join(''), '日本'];
  const made = await through(new TextEncoderStream('gb18030'), '日\uD83D', '\uDE00');
  yield ['a stream of bytes', made.map(hexOf).join(' '), 'C8 D5 94 39 FC 36'];
}

export async function calls() {
  const all = [...labels(), ...faults(), ...decoders(), ...encoders()];
  for await (const it of streams()) all.push(it);
  return all;
}
