// The types of encoding.js. Section numbers are those of the WHATWG Encoding Standard.

type Bytes = ArrayBufferView | ArrayBuffer | SharedArrayBuffer;

/**
 * Loads the library: from an address, by default that of encoding.wasm beside this file, from its bytes, or from a
 * compiled module. Rejects where WebAssembly has no memory64. Everything else wants it to have ended.
 */
export function load(source?: URL | string | BufferSource | WebAssembly.Module): Promise<void>;

/** The names of all encodings, in the order of the standard's table (4.2). */
export function encodings(): string[];

/** The name of the encoding that a label names (4.2, "get an encoding"), or null. */
export function encodingForLabel(label: string): string | null;

/** The encoding of the byte order mark at the start of some bytes (6, "BOM sniff"), and its length, or null. */
export function encodingForBOM(source: Bytes): { encoding: string; length: number } | null;

/** The malformed sequences of a whole input: the offset and the length of each, in bytes. */
export function malformed(
  source: Bytes, label?: string, options?: { ignoreBOM?: boolean; sniffBOM?: boolean },
): { offset: number; length: number }[];

export interface TextDecoderOptions {
  /** A malformed sequence is a TypeError, and not U+FFFD. */
  fatal?: boolean;
  /** A byte order mark of the encoding stays in the text as U+FEFF. */
  ignoreBOM?: boolean;
  /** A byte order mark of UTF-8, UTF-16BE or UTF-16LE sets the encoding (6, "decode"), whatever `ignoreBOM` says. */
  sniffBOM?: boolean;
  /**
   * Is called for each malformed sequence, when its part of the chunk is decoded, with its offset in all chunks since
   * the first and its length, both in bytes, and where its U+FFFD stands in the text that the call returns, in code
   * units. It may use other decoders and encoders. If it throws, the call throws, and the next one begins anew.
   */
  malformed?: (offset: number, length: number, at: number) => void;
}

/** TextDecoder (7.2). Throws a RangeError for a label that names no encoding, or replacement. */
export class TextDecoder {
  constructor(label?: string, options?: TextDecoderOptions);
  /** The name of the encoding, in lower case. A byte order mark that is looked for changes it. */
  readonly encoding: string;
  readonly fatal: boolean;
  readonly ignoreBOM: boolean;
  /** Decodes a chunk. Without `stream` it is the last, and the next call begins anew. */
  decode(input?: Bytes, options?: { stream?: boolean }): string;
  /** A decoder that goes on from here by itself, with another function for malformed sequences, or by null with none. */
  clone(options?: { malformed?: TextDecoderOptions['malformed'] | null }): TextDecoder;
}

export interface TextEncoderOptions {
  /** An unmappable character is a TypeError, and not a decimal reference such as "&#9731;". */
  fatal?: boolean;
  /**
   * Is called for each unmappable character with its code point, and its offset in all chunks since the first, in code
   * units.
   */
  unmappable?: (codePoint: number, offset: number) => void;
}

/**
 * TextEncoder (7.4), of the output encoding of any label: UTF-8 for UTF-16BE, UTF-16LE and replacement. A surrogate by
 * itself becomes U+FFFD. Throws a RangeError for a label that names no encoding.
 */
export class TextEncoder {
  constructor(label?: string, options?: TextEncoderOptions);
  /** The name of the output encoding, in lower case. */
  readonly encoding: string;
  readonly fatal: boolean;
  /** Encodes a chunk. Without `stream` it is the last, and the next call begins anew. */
  encode(input?: string, options?: { stream?: boolean }): Uint8Array;
  /**
   * Encodes as many whole characters as have room, by itself. In ISO-2022-JP the bytes of a part may end in another
   * character set than ASCII. Unless it is fatal or of UTF-8, it writes nothing into fewer than 10 bytes, the length of
   * the longest reference.
   */
  encodeInto(source: string, destination: Uint8Array): { read: number; written: number };
}

/** TextDecoderStream (7.5). */
export class TextDecoderStream {
  constructor(label?: string, options?: TextDecoderOptions);
  readonly encoding: string;
  readonly fatal: boolean;
  readonly ignoreBOM: boolean;
  readonly readable: ReadableStream<string>;
  readonly writable: WritableStream<Bytes>;
}

/** TextEncoderStream (7.6), of the output encoding of any label. */
export class TextEncoderStream {
  constructor(label?: string, options?: TextEncoderOptions);
  readonly encoding: string;
  readonly fatal: boolean;
  readonly readable: ReadableStream<Uint8Array>;
  readonly writable: WritableStream<string>;
}
