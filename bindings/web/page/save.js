// The text of a file in another encoding, as a file to save.
import { TextEncoder } from '../encoding.js';

// Unmappable characters that are listed.
const MOST_LISTED = 1000;

/**
 * Encodes a text, with a decimal reference for each unmappable character. Returns a blob and the unmappable characters:
 * how many there are, and up to some number each with its number and its first line. Returns null if it is stopped.
 */
export async function encoded(text, label, progress, signal) {
  const parts = [], found = new Map();
  let chunk = '', lines = 0, before = 0, unmappable = 0;
  const report = (point, offset) => {
    unmappable++;
    const it = found.get(point);
    if (it) it.count++;
    else if (found.size < MOST_LISTED) found.set(point, { count: 1, line: lines + endsIn(chunk, offset - before) });
  };
  const encoder = new TextEncoder(label, { unmappable: report });
  for await (const { text: next, end } of text.texts(signal)) {
    // (of a carriage return at the end of a chunk the next one says whether a line feed follows)
    if (chunk.endsWith('\r') && !next.startsWith('\n')) lines++;
    chunk = next;
    // (a blob of each part, which the browser may keep on a disk)
    parts.push(new Blob([encoder.encode(chunk, { stream: true })]));
    lines += endsIn(chunk, chunk.length);
    before += chunk.length;
    progress(end);
  }
  parts.push(new Blob([encoder.encode()]));
  if (signal.aborted) return null;
  const characters = [...found].map(([point, it]) => ({ point, ...it })).sort((a, b) => b.count - a.count);
  return { blob: new Blob(parts), unmappable, characters, areAllListed: found.size < MOST_LISTED };
}

// The number of lines that end before a place: by a line feed, or by a carriage return that another character follows.
function endsIn(text, end) {
  const ends = /\n|\r(?!\n|$)/g;
  let number = 0;
  while (ends.test(text) && ends.lastIndex <= end) number++;
  return number;
}

/** Saves a blob by a name, as a download. */
export function save(blob, name) {
  const link = document.createElement('a');
  link.href = URL.createObjectURL(blob);
  link.download = name;
  link.click();
  setTimeout(() => URL.revokeObjectURL(link.href), 60_000);
}
