// The classes of the WHATWG Encoding Standard, section 7 ("API"), over the proved library:
//
//     import { load, TextDecoder, TextEncoder } from './encoding.js';
//     await load();
//     const text = new TextDecoder('shift_jis').decode(bytes);
//     const bytes = new TextEncoder('gb18030').encode(text);
//
// Beyond the standard they encode into every encoding, give the place of each malformed sequence and of each unmappable
// character, take the encoding from a byte order mark, and can be cloned within a text.
//
// The library is encoding.wasm, which is proved: each of its calls meets its definition. This file is not proved: it
// copies bytes and code units to the module and back, and has the options and errors of the standard's classes.
// Nothing has to be freed: a decoder is 9 bytes of JavaScript's, which are copied into the module for a call.

// Sizes in bytes in the module's memory: of a call's input and output, of a decoder's or an encoder's state, of a
// reference to a character, and of a page. A reference has at most 10 characters.
const INPUT = 1 << 16, OUTPUT = 1 << 17, STATE = 64, REFERENCE = 32, PAGE = 1 << 16;
const UNITS = OUTPUT / 2, LONGEST_REFERENCE = 10;
// The numbers of no encoding, and of why a call stops.
const NONE = 255;
const INPUT_EMPTY = 0, OUTPUT_FULL = 1, REPORTED = 2;
// A module that has a memory with addresses of 64 bits and nothing else.
const MEMORY_64 = Uint8Array.of(0, 0x61, 0x73, 0x6D, 1, 0, 0, 0, 5, 3, 1, 4, 1);

// The built-in decoder of UTF-16, which makes a string of code units.
const utf16 = new globalThis.TextDecoder('utf-16le', { ignoreBOM: true });
const isLead = (unit) => unit >= 0xD800 && unit <= 0xDBFF;

// The module, and the part of its memory that calls use: one outcome, one state, one input and one output.
class Library {
  constructor(exports) {
    const { memory, __heap_base: base } = exports;
    let end = Number(base.value);
    const place = (size) => {
      const at = Math.ceil(end / 16) * 16;
      end = at + size;
      return at;
    };
    this.exports = exports;
    [this.outcome, this.handle, this.state] = [place(32), place(8), place(STATE)];
    [this.reference, this.input, this.output] = [place(REFERENCE), place(INPUT), place(OUTPUT)];
    const missing = end - memory.buffer.byteLength;
    if (missing > 0) memory.grow(BigInt(Math.ceil(missing / PAGE)));
    this.bytes = new Uint8Array(memory.buffer);
    this.view = new DataView(memory.buffer);
    this.units = new Uint16Array(memory.buffer, this.output, UNITS);
    this.view.setBigUint64(this.handle, BigInt(this.state), true);
    this.names = Array.from({ length: 40 }, (_, encoding) => this.name(encoding));
  }

  name(encoding) {
    const length = this.exports.encoding_c_name(encoding, BigInt(this.output), BigInt(OUTPUT));
    return String.fromCharCode(...this.written(Number(length)));
  }

  // The bytes that a call has written.
  written(length) { return this.bytes.subarray(this.output, this.output + length); }

  // The number of a label's encoding. A label is ASCII.
  encodingOf(label, call = this.exports.encoding_c_for_label) {
    if (label.length > INPUT) label = label.replace(/^[\t\n\f\r ]+|[\t\n\f\r ]+$/g, '');
    if (label.length > INPUT || /[^\0-\x7F]/.test(label)) return NONE;
    for (let i = 0; i < label.length; i++) this.bytes[this.input + i] = label.charCodeAt(i);
    return call(BigInt(this.input), BigInt(label.length));
  }

  // The encoding of the byte order mark at the start of some bytes, and its length, or null.
  markOf(bytes) {
    const start = bytes.subarray(0, 3);
    this.bytes.set(start, this.input);
    this.exports.encoding_c_for_bom(BigInt(this.outcome), BigInt(this.input), BigInt(start.length));
    const encoding = this.view.getUint32(this.outcome, true);
    return encoding === NONE ? null : { encoding, length: this.view.getUint32(this.outcome + 8, true) };
  }

  // The state of a new decoder or encoder, by the call that makes it.
  made(call, encoding, size) {
    call(BigInt(this.handle), encoding);
    return this.bytes.slice(this.state, this.state + Number(size()));
  }

  // Puts the code units of a text, or of a part of it, into the module's memory.
  putText(text, to, start = 0, end = text.length) {
    const units = new Uint16Array(this.bytes.buffer, to, end - start);
    for (let i = start; i < end; i++) units[i - start] = text.charCodeAt(i);
  }

  put(state) { this.bytes.set(state, this.state); }
  take(state) { state.set(this.bytes.subarray(this.state, this.state + state.length)); }

  // Makes a call that converts, and returns its outcome.
  convert(call, src, srcLength, dst, dstLength, last) {
    call(BigInt(this.outcome), BigInt(this.handle), BigInt(src), BigInt(srcLength), BigInt(dst), BigInt(dstLength),
      last ? 1 : 0);
    const at = (offset) => this.view.getUint32(this.outcome + offset, true);
    return { stop: at(0), report: at(4), read: at(8), written: at(16) };
  }

  // Decodes a chunk, and returns its text, the number of bytes read, and whether it stopped at a malformed sequence, as
  // it does if that is fatal. `report`, if there is one, gets the offset of each malformed sequence in the chunk, which
  // is negative where it begins in one before, its length in bytes, and the offset of its U+FFFD in the text. It is
  // called when the module's memory is not in use, so it may use other decoders.
  decode(state, chunk, last, fatal, report) {
    const call = fatal || report ? this.exports.encoding_c_decode_to_utf16_without_replacement
      : this.exports.encoding_c_decode_to_utf16;
    const run = { call, fatal, text: '', filled: 0, read: 0, found: [], isStopped: false }, total = chunk.length;
    do {
      if (chunk.length !== total) throw new TypeError('the chunk was taken away');
      const end = Math.min(run.read + INPUT, total);
      this.put(state);
      this.bytes.set(chunk.subarray(run.read, end), this.input);
      this.decodePiece(run, end, last && end === total);
      this.take(state);
      this.flush(run);
      for (const it of run.found.splice(0)) report?.(...it);
    } while (run.read < total && !run.isStopped);
    return run;
  }

  // Decodes what lies at the input, up to an offset of the chunk.
  decodePiece(run, end, ends) {
    const start = run.read;
    for (let stop; stop !== INPUT_EMPTY && !run.isStopped;) {
      const outcome = this.convert(run.call, this.input + run.read - start, end - run.read,
        this.output + 2 * run.filled, UNITS - 1 - run.filled, ends);
      stop = outcome.stop;
      run.read += outcome.read;
      run.filled += outcome.written;
      if (stop === REPORTED) this.replace(run, outcome.report >> 8, outcome.report & 255);
      if (stop === OUTPUT_FULL || run.filled === UNITS) this.flush(run);
    }
  }

  // Writes U+FFFD for a malformed sequence of `length` bytes, which lies before the last `after` bytes read.
  replace(run, length, after) {
    run.found.push([run.read - after - length, length, run.text.length + run.filled]);
    this.units[run.filled++] = 0xFFFD;
    run.isStopped = run.fatal;
  }

  // Makes a string of the code units at the output.
  flush(run) {
    if (run.filled) run.text += utf16.decode(this.units.subarray(0, run.filled));
    run.filled = 0;
  }

  // Encodes a chunk of text, without half of a pair at its end, into `output`: `room` is the number of bytes that it
  // takes, and `put` takes some. Returns the number of code units read, which are all unless there is no room, and the
  // unmappable character at which it stopped, as it does if that is fatal. `report`, if there is one, gets the code
  // point and the offset of each unmappable character, as in `decode`. A decimal reference takes its place.
  encode(state, chunk, last, fatal, report, output) {
    const call = fatal || report ? this.exports.encoding_c_encode_from_utf16_without_replacement
      : this.exports.encoding_c_encode_from_utf16;
    const kept = report && !fatal ? LONGEST_REFERENCE : 0, total = chunk.length;
    const run = { call, fatal, output, kept, read: 0, found: [], refused: null, isFull: false };
    do {
      let end = Math.min(run.read + INPUT / 2, total);
      if (end < total && isLead(chunk.charCodeAt(end - 1))) end--;
      this.put(state);
      this.putText(chunk, this.input, run.read, end);
      this.encodePiece(run, end, last && end === total);
      this.take(state);
      for (const it of run.found.splice(0)) report?.(...it);
    } while (run.read < total && run.refused === null && !run.isFull);
    return run;
  }

  // Encodes what lies at the input, up to an offset of the chunk.
  encodePiece(run, end, ends) {
    const start = run.read;
    for (let stop; stop !== INPUT_EMPTY && run.refused === null && !run.isFull;) {
      const room = run.output.room - run.kept;
      run.isFull = room < 0;
      if (run.isFull) return;
      const outcome = this.write(run, this.input + 2 * (run.read - start), end - run.read, room, ends);
      stop = outcome.stop;
      run.read += outcome.read;
      run.isFull = stop === OUTPUT_FULL && room < OUTPUT;
      if (stop === REPORTED) this.refer(run, outcome.report);
    }
  }

  // Writes a reference for an unmappable character, or stops at it.
  refer(run, point) {
    run.found.push([point, run.read - (point > 0xFFFF ? 2 : 1)]);
    if (run.fatal) {
      run.refused = point;
      return;
    }
    const text = `&#${point};`;
    this.putText(text, this.reference);
    this.write(run, this.reference, text.length, run.output.room, false);
  }

  // Makes a call that encodes, and hands out its bytes.
  write(run, src, length, room, ends) {
    const outcome = this.convert(run.call, src, length, this.output, Math.min(OUTPUT, room), ends);
    run.output.put(this.written(outcome.written));
    return outcome;
  }
}

let library = null;

// The library, once it is there.
function loaded() {
  if (!library) throw new Error('encoding.js: await load() first');
  return library;
}

/** Loads the library: from an address, from bytes, or from a compiled module. */
export async function load(source = new URL('encoding.wasm', import.meta.url)) {
  if (!globalThis.WebAssembly?.validate(MEMORY_64)) {
    throw new Error('encoding.js: WebAssembly has no memory64 here. Chrome 133, Firefox 134 and Node 24 have it');
  }
  if (library) return;
  let module = source;
  if (typeof source === 'string' || source instanceof URL) module = await fetchBytes(source);
  if (!(module instanceof WebAssembly.Module)) module = await WebAssembly.compile(module);
  library = new Library((await WebAssembly.instantiate(module)).exports);
}

async function fetchBytes(address) {
  const answer = await fetch(address);
  if (!answer.ok) throw new Error(`encoding.js: ${address}: ${answer.status}`);
  return answer.arrayBuffer();
}

// The conversions of Web IDL: a dictionary, and the bytes of an AllowSharedBufferSource.
function dictionary(options) {
  if (options === undefined || options === null) return {};
  if (typeof options !== 'object' && typeof options !== 'function') throw new TypeError('options are no object');
  return options;
}

// By which a buffer is known, of any realm.
const LENGTHS = [ArrayBuffer, globalThis.SharedArrayBuffer].filter((it) => it).map(
  (it) => Object.getOwnPropertyDescriptor(it.prototype, 'byteLength').get);

function isBuffer(source) {
  return LENGTHS.some((length) => {
    try {
      length.call(source);
      return true;
    } catch {
      return false;
    }
  });
}

function bytesOf(source) {
  const isView = ArrayBuffer.isView(source);
  if (!isView && !isBuffer(source)) throw new TypeError('neither a buffer nor a view of one');
  const { buffer = source, byteOffset = 0, byteLength } = source;
  return byteLength ? new Uint8Array(buffer, byteOffset, byteLength) : new Uint8Array(0); // as of a detached buffer
}

function callback(options, name) {
  const call = options[name] ?? null;
  if (call !== null && typeof call !== 'function') throw new TypeError(`${name} is no function`);
  return call;
}

/** The names of all encodings, in the order of the standard's table. */
export function encodings() { return [...loaded().names]; }

/** The name of a label's encoding, or null. */
export function encodingForLabel(label) { return loaded().names[loaded().encodingOf(`${label}`)] ?? null; }

/** The encoding of the byte order mark at the start of some bytes, and the mark's length, or null. */
export function encodingForBOM(source) {
  const mark = loaded().markOf(bytesOf(source));
  return mark && { encoding: loaded().names[mark.encoding], length: mark.length };
}

/** The malformed sequences of a whole input: the offset and the length of each, in bytes. */
export function malformed(source, label = 'utf-8', options = undefined) {
  const { ignoreBOM, sniffBOM } = dictionary(options), bytes = bytesOf(source), found = [];
  const list = (offset, length) => found.push({ offset, length });
  const decoder = new TextDecoder(label, { ignoreBOM, sniffBOM, malformed: list });
  for (let at = 0; at < bytes.length; at += INPUT) decoder.decode(bytes.subarray(at, at + INPUT), { stream: true });
  decoder.decode();
  return found;
}

const unknown = (label) => new RangeError(`no encoding has the label ${JSON.stringify(label)}`);
const ownCallback = () => new Error('called by its own callback');

/** The standard's TextDecoder, with more options: `sniffBOM` and `malformed`. encoding.d.ts describes them. */
export class TextDecoder {
  #number; #fatal; #ignoreBOM; #sniffBOM; #malformed;
  // The state of a new decoder, the state of this one, and how many bytes it has read. After a malformed sequence that
  // is an error `rest` is what the chunk has left.
  #fresh; #state; #offset = 0; #streams = false; #rest = null; #isBusy = false;

  constructor(label = 'utf-8', options = undefined) {
    label = `${label}`;
    options = dictionary(options);
    const { exports } = loaded();
    [this.#fatal, this.#ignoreBOM, this.#sniffBOM] = [!!options.fatal, !!options.ignoreBOM, !!options.sniffBOM];
    this.#malformed = callback(options, 'malformed');
    this.#number = library.encodingOf(label, exports.encoding_c_for_label_no_replacement);
    if (this.#number === NONE) throw unknown(label);
    let make = exports.encoding_c_new_decoder_with_bom_removal;
    if (this.#ignoreBOM) make = exports.encoding_c_new_decoder_without_bom_handling;
    if (this.#sniffBOM) make = exports.encoding_c_new_decoder;
    this.#fresh = library.made(make, this.#number, exports.encoding_c_decoder_size);
    this.#state = this.#fresh.slice();
  }

  /** The name of the encoding, in lower case. A byte order mark changes it, if it is looked for. */
  get encoding() {
    if (!this.#sniffBOM) return library.names[this.#number].toLowerCase();
    library.put(this.#state);
    return library.names[library.exports.encoding_c_decoder_encoding(BigInt(library.handle))].toLowerCase();
  }
  get fatal() { return this.#fatal; }
  get ignoreBOM() { return this.#ignoreBOM; }
  get [Symbol.toStringTag]() { return 'TextDecoder'; }

  /** Decodes a chunk, and returns its text. Without `stream` it is the last. */
  decode(input = undefined, options = undefined) {
    let chunk = input === undefined ? new Uint8Array(0) : bytesOf(input);
    const stream = !!dictionary(options).stream;
    if (this.#isBusy) throw ownCallback();
    if (!this.#streams) this.#begin();
    this.#streams = false; // as it stays if `malformed` throws
    if (this.#rest) chunk = joined([this.#rest, chunk]);
    const { text, read, isStopped } = this.#run(chunk, !stream);
    [this.#offset, this.#streams] = [this.#offset + read, stream];
    this.#rest = isStopped ? chunk.slice(read) : null;
    if (isStopped) throw new TypeError(`the bytes are not ${this.encoding}`);
    return text;
  }

  #run(chunk, last) {
    const report = this.#malformed && ((offset, ...more) => this.#malformed(this.#offset + offset, ...more));
    this.#isBusy = true;
    try {
      return library.decode(this.#state, chunk, last, this.#fatal, report);
    } finally {
      this.#isBusy = false;
    }
  }

  #begin() {
    this.#state.set(this.#fresh);
    [this.#offset, this.#rest] = [0, null];
  }

  /** A decoder that goes on from here by itself, with another `malformed`, or with none if that is null. */
  clone(options = undefined) {
    const { malformed = this.#malformed } = dictionary(options);
    const other = new TextDecoder(this.encoding, { fatal: this.#fatal, ignoreBOM: this.#ignoreBOM, malformed });
    [other.#number, other.#sniffBOM, other.#fresh] = [this.#number, this.#sniffBOM, this.#fresh];
    other.#state.set(this.#state);
    [other.#offset, other.#streams, other.#rest] = [this.#offset, this.#streams, this.#rest];
    return other;
  }
}

function joined(parts) {
  const all = new Uint8Array(parts.reduce((sum, it) => sum + it.length, 0));
  let at = 0;
  for (const it of parts) {
    all.set(it, at);
    at += it.length;
  }
  return all;
}

/** The standard's TextEncoder, of any encoding. encoding.d.ts describes its options: `fatal` and `unmappable`. */
export class TextEncoder {
  #number; #fatal; #unmappable; #fresh; #state; #offset = 0; #streams = false; #lead = ''; #isBusy = false;

  constructor(label = 'utf-8', options = undefined) {
    label = `${label}`;
    options = dictionary(options);
    const { exports } = loaded();
    [this.#fatal, this.#unmappable] = [!!options.fatal, callback(options, 'unmappable')];
    const number = library.encodingOf(label);
    if (number === NONE) throw unknown(label);
    this.#number = exports.encoding_c_output_encoding(number);
    if (library.names[this.#number] === 'UTF-8') this.#unmappable = null; // which has all characters
    this.#fresh = library.made(exports.encoding_c_new_encoder, this.#number, exports.encoding_c_encoder_size);
    this.#state = this.#fresh.slice();
  }

  /** The name of the output encoding, in lower case: UTF-8 for UTF-16 and replacement. */
  get encoding() { return library.names[this.#number].toLowerCase(); }
  get fatal() { return this.#fatal; }
  get [Symbol.toStringTag]() { return 'TextEncoder'; }

  /** Encodes a chunk, and returns its bytes. Without `stream` it is the last. */
  encode(input = '', options = undefined) {
    const given = `${input}`, stream = !!dictionary(options).stream, parts = [];
    if (this.#isBusy) throw ownCallback();
    if (!this.#streams) this.#begin();
    this.#streams = false; // as it stays if there is an error
    const text = this.#lead + given;
    // half of a pair may wait for the other
    this.#lead = stream && isLead(text.charCodeAt(text.length - 1)) ? text.slice(-1) : '';
    const output = { room: Infinity, put: (bytes) => parts.push(bytes.slice()) };
    this.#run(this.#lead ? text.slice(0, -1) : text, !stream, output);
    this.#streams = stream;
    return parts.length === 1 ? parts[0] : joined(parts);
  }

  /** Encodes as much of a text as has room, by itself. Returns the numbers of code units read and bytes written. */
  encodeInto(source, destination) {
    source = `${source}`;
    if (Object.prototype.toString.call(destination) !== '[object Uint8Array]') throw new TypeError('no Uint8Array');
    if (this.#isBusy) throw ownCallback();
    let written = 0;
    this.#begin();
    this.#streams = false;
    const read = this.#run(source, true, {
      get room() { return Math.max(0, destination.length - written); }, // which may be taken away
      put(bytes) {
        if (bytes.length) destination.set(bytes, written);
        written += bytes.length;
      },
    });
    return { read, written };
  }

  #begin() {
    this.#state.set(this.#fresh);
    [this.#offset, this.#lead] = [0, ''];
  }

  #run(text, last, output) {
    const report = this.#unmappable && ((point, offset) => this.#unmappable(point, this.#offset + offset));
    this.#isBusy = true;
    try {
      const { read, refused } = library.encode(this.#state, text, last, this.#fatal, report, output);
      this.#offset += read;
      if (refused === null) return read;
      throw new TypeError(`${this.encoding} has no U+${refused.toString(16).toUpperCase().padStart(4, '0')}`);
    } finally {
      this.#isBusy = false;
    }
  }
}

// Both classes of streams: a transform by a function of a chunk, and one of the end.
class Stream {
  #transform;
  constructor(convert, end) {
    const put = (part, controller) => { if (part.length) controller.enqueue(part); };
    this.#transform = new TransformStream({
      transform(chunk, controller) { put(convert(chunk), controller); },
      flush(controller) { put(end(), controller); },
    });
  }
  get readable() { return this.#transform.readable; }
  get writable() { return this.#transform.writable; }
}

/** The standard's TextDecoderStream, with the options of TextDecoder. */
export class TextDecoderStream extends Stream {
  #decoder;
  constructor(label = 'utf-8', options = undefined) {
    const decoder = new TextDecoder(label, options);
    super((chunk) => decoder.decode(bytesOf(chunk), { stream: true }), () => decoder.decode());
    this.#decoder = decoder;
  }
  get encoding() { return this.#decoder.encoding; }
  get fatal() { return this.#decoder.fatal; }
  get ignoreBOM() { return this.#decoder.ignoreBOM; }
  get [Symbol.toStringTag]() { return 'TextDecoderStream'; }
}

/** The standard's TextEncoderStream, with the options of TextEncoder. */
export class TextEncoderStream extends Stream {
  #encoder;
  constructor(label = 'utf-8', options = undefined) {
    const encoder = new TextEncoder(label, options);
    super((chunk) => encoder.encode(`${chunk}`, { stream: true }), () => encoder.encode());
    this.#encoder = encoder;
  }
  get encoding() { return this.#encoder.encoding; }
  get fatal() { return this.#encoder.fatal; }
  get [Symbol.toStringTag]() { return 'TextEncoderStream'; }
}
