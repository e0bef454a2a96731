// A file as text that is never whole in memory. The file is decoded once from its start to its end, in blocks; each
// block keeps a copy of the decoder at its start, so that it can be decoded again when its rows are to be seen.
import { TextDecoder } from '../encoding.js';

// The bytes of a block, the most code units of a row, how many blocks of text are kept, and how many malformed
// sequences are listed.
export const BLOCK = 1 << 18;
const WIDTH = 500, KEPT = 12;
export const MOST_LISTED = 1_000_000;

const isTrail = (unit) => unit >= 0xDC00 && unit <= 0xDFFF;

// The numbers of a list that grows.
class Numbers {
  #all = new Float64Array(1024);
  length = 0;
  push(number) {
    if (this.length === this.#all.length) {
      const longer = new Float64Array(2 * this.length);
      longer.set(this.#all);
      this.#all = longer;
    }
    this.#all[this.length++] = number;
  }
  at(i) { return this.#all[i]; }
}

// Cuts a text into rows: after each line feed, carriage return or both, and after WIDTH code units.
class Rows {
  #text; #next = { '\n': -2, '\r': -2 };
  constructor(text) { this.#text = text; }

  // The first place from `at` on that has a character, or Infinity.
  #place(character, at) {
    const next = this.#next;
    if (next[character] !== -1 && next[character] < at) next[character] = this.#text.indexOf(character, at);
    return next[character] === -1 ? Infinity : next[character];
  }

  // The end of the row that has `column` code units before `at`, and whether it ends a line. Null where the text has no
  // end of it, as after a carriage return that a line feed may follow. `afterReturn` is whether the text before, which
  // this one follows, ended so.
  end(at, column, afterReturn) {
    const text = this.#text, limit = at + WIDTH - column;
    if (afterReturn && at === 0) return { end: text[0] === '\n' ? 1 : 0, isLine: true };
    const place = Math.min(this.#place('\n', at), this.#place('\r', at));
    if (place <= limit) {
      if (text[place] === '\n') return { end: place + 1, isLine: true };
      if (place + 1 === text.length) return null;
      return { end: place + (text[place + 1] === '\n' ? 2 : 1), isLine: true };
    }
    if (limit >= text.length) return null;
    return { end: isTrail(text.charCodeAt(limit)) ? limit + 1 : limit, isLine: false };
  }
}

// Where a block begins: the row, how many code units it has before, whether those end in a carriage return, whether it
// begins a line, and the line.
class Place {
  constructor() { Object.assign(this, { row: 0, column: 0, afterReturn: false, begins: true, line: 0 }); }

  // Goes through the rows of a text, and stops where `visit` returns true. `visit` gets where a row, or the part of it
  // that the text has, begins and ends, and whether it is whole.
  through(text, visit) {
    const rows = new Rows(text);
    for (let at = 0; at < text.length;) {
      const found = rows.end(at, this.column, this.afterReturn), end = found?.end ?? text.length;
      if (visit(at, end, found !== null)) return true;
      if (!found) {
        this.column += end - at;
        this.afterReturn = text.endsWith('\r');
        return false;
      }
      Object.assign(this, { row: this.row + 1, column: 0, afterReturn: false, begins: found.isLine });
      if (found.isLine) this.line++;
      at = end;
    }
    return false;
  }
}

/** The text of a file by the encoding of a label, or by that of its byte order mark if `sniffBOM`. */
export class FileText {
  // Each block's decoder at its start, and its place, and the texts that are kept. Then the place of the next block.
  #blocks = []; #kept = new Map(); #here = new Place();
  // Of each malformed sequence that is listed.
  #offsets = new Numbers(); #lengths = new Numbers(); #lines = new Numbers();

  constructor(file, label, sniffBOM = false) {
    Object.assign(this, { file, label, sniffBOM, encoding: label.toLowerCase() });
    Object.assign(this, { read: 0, isWhole: false, malformed: 0 });
  }

  /** The numbers of rows and of lines that are known. */
  get rows() { return this.#here.row + (this.#here.column > 0 ? 1 : 0); }
  get lines() { return this.#here.line + (this.#here.column > 0 || !this.#here.begins ? 1 : 0); }

  /** How many malformed sequences are listed, and one of them. */
  get listed() { return this.#offsets.length; }
  fault(i) { return { offset: this.#offsets.at(i), length: this.#lengths.at(i), line: this.#lines.at(i) }; }

  // Each block as the text that a decoder makes of it, with the next one being read meanwhile.
  async* #texts(decoder, signal) {
    const slice = (at) => this.file.slice(at, at + BLOCK).arrayBuffer();
    let next = slice(0);
    for (let at = 0; at === 0 || at < this.file.size; at += BLOCK) {
      const bytes = await next, isLast = at + BLOCK >= this.file.size;
      if (signal.aborted) return;
      if (!isLast) next = slice(at + BLOCK);
      yield { text: () => decoder.decode(bytes, { stream: !isLast }), end: Math.min(at + BLOCK, this.file.size) };
    }
  }

  /** Decodes the whole file, and calls `progress` after each block. */
  async decode(progress, signal) {
    let found = [];
    const malformed = (offset, length, at) => found.push({ offset, length, at });
    const decoder = new TextDecoder(this.label, { sniffBOM: this.sniffBOM, malformed });
    for await (const { text, end } of this.#texts(decoder, signal)) {
      const place = Object.assign(new Place(), this.#here);
      this.#blocks.push({ decoder: decoder.clone({ malformed: null }), place });
      this.#count(text(), found);
      found = [];
      this.encoding = decoder.encoding;
      this.read = end;
      progress();
    }
    this.isWhole = this.read === this.file.size && !signal.aborted;
  }

  /** The text again from its start, block by block. */
  async* texts(signal) {
    const decoder = new TextDecoder(this.label, { sniffBOM: this.sniffBOM });
    for await (const { text, end } of this.#texts(decoder, signal)) yield { text: text(), end };
  }

  // Counts the rows, the lines and the malformed sequences of the next block.
  #count(text, found) {
    let listed = 0;
    this.#here.through(text, (_, end) => {
      for (; listed < found.length && found[listed].at < end; listed++) this.#list(found[listed], this.#here.line);
    });
    this.malformed += found.length;
  }

  #list({ offset, length }, line) {
    if (this.listed === MOST_LISTED) return;
    this.#offsets.push(offset);
    this.#lengths.push(length);
    this.#lines.push(line);
  }

  /** The bytes of a malformed sequence. */
  async bytesAt(offset, length) {
    return new Uint8Array(await this.file.slice(offset, offset + length).arrayBuffer());
  }

  // A block's text and its malformed sequences, of which some blocks are kept.
  async #decoded(i) {
    let block = this.#kept.get(i);
    this.#kept.delete(i);
    if (!block) {
      const faults = [], start = i * BLOCK, isLast = start + BLOCK >= this.file.size;
      const bytes = await this.file.slice(start, start + BLOCK).arrayBuffer();
      const malformed = (offset, length, at) => faults.push({ offset, length, at });
      block = { text: this.#blocks[i].decoder.clone({ malformed }).decode(bytes, { stream: !isLast }), faults };
    }
    this.#kept.set(i, block);
    if (this.#kept.size > KEPT) this.#kept.delete(this.#kept.keys().next().value);
    return block;
  }

  // The last block in which a row that is at most this one begins.
  #blockOf(row) {
    let [low, high] = [0, this.#blocks.length];
    while (high - low > 1) {
      const middle = (low + high) >> 1, { place } = this.#blocks[middle];
      if (place.row + (place.column > 0 ? 1 : 0) <= row) low = middle;
      else high = middle;
    }
    return low;
  }

  /** Rows, each with its line, whether it begins that line, and its parts: texts, and malformed sequences. */
  async rowsFrom(first, count) {
    const rows = [];
    for (let i = this.#blockOf(first), isDone = false; i < this.#blocks.length && !isDone; i++) {
      const { text, faults } = await this.#decoded(i), place = Object.assign(new Place(), this.#blocks[i].place);
      isDone = place.through(text, (at, end, isWhole) => {
        if (place.row < first) return false;
        const row = rows[place.row - first] ??= { line: place.line, begins: place.begins, parts: [] };
        row.parts.push(...partsOf(text, faults, at, end));
        return isWhole && rows.length === count;
      });
    }
    return rows;
  }

  /** The row in which a malformed sequence stands. Its U+FFFD is in the block of its first byte, or in a later one. */
  async rowOf({ offset }) {
    for (let i = Math.min(Math.floor(offset / BLOCK), this.#blocks.length - 1); i < this.#blocks.length; i++) {
      const { text, faults } = await this.#decoded(i), fault = faults[firstFrom(faults, offset, 'offset')];
      if (fault?.offset !== offset) continue;
      const place = Object.assign(new Place(), this.#blocks[i].place);
      place.through(text, (_, end) => end > fault.at);
      return place.row;
    }
    return 0;
  }
}

// The parts of a row: pieces of text, and malformed sequences in the place of their U+FFFD.
function partsOf(text, faults, at, end) {
  const parts = [];
  let start = at;
  for (let i = firstFrom(faults, at, 'at'); i < faults.length && faults[i].at < end; i++) {
    if (faults[i].at > start) parts.push(text.slice(start, faults[i].at));
    parts.push(faults[i]);
    start = faults[i].at + 1;
  }
  if (end > start) parts.push(text.slice(start, end));
  return parts;
}

// The number of the first malformed sequence whose `at` or `offset` is that number or more.
function firstFrom(faults, number, name) {
  let [low, high] = [0, faults.length];
  while (low < high) {
    const middle = (low + high) >> 1;
    if (faults[middle][name] < number) low = middle + 1;
    else high = middle;
  }
  return low;
}
