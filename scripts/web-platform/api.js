// Runs in the global scope of a test, and defines the interfaces of the Encoding Standard, section 7 ("API").
//
// Each answer about labels, names, bytes and text comes from the library. Here stands only what the standard has above
// that: options, errors, whether a byte order mark is removed, the flag "do not flush", and the lead surrogate that a
// TextEncoderStream keeps. `host` is of the realm outside, and has functions from strings to strings alone.
'use strict';
{
  const digits = Array.from({ length: 256 }, (_, it) => it.toString(16).toUpperCase().padStart(2, '0'));
  const hexOfBytes = (bytes) => Array.from(bytes, (it) => digits[it]).join('');
  const hexOfUnits = (text) => {
    let hex = '';
    for (let i = 0; i < text.length; i++) hex += digits[text.charCodeAt(i) >> 8] + digits[text.charCodeAt(i) & 255];
    return hex;
  };
  const numbersOf = (hex, width) => Array.from({ length: hex.length / width },
    (_, i) => parseInt(hex.slice(width * i, width * (i + 1)), 16));
  const textOf = (hex) => numbersOf(hex, 4).map((it) => String.fromCharCode(it)).join('');
  const bytesOf = (hex) => Uint8Array.from(numbersOf(hex, 2));

  const ask = (...words) => {
    const answer = host.ask(words.map((it) => it || '-').join(' '));
    return answer === '?' ? null : answer;
  };

  // The calls of the library.
  const library = {
    // The name of a label's encoding, or null.
    name: (label) => ask('name', host.utf8(label)),
    // The text of the last chunk, or null for a malformed sequence, and the name of the decoder's encoding.
    decode(label, marks, mode, chunks) {
      const words = ask('decode', host.utf8(label), marks, mode, ...chunks).split(';');
      const text = words[words.length - 2];
      return [text.endsWith('!') ? null : textOf(text), words[words.length - 1]];
    },
    // Items: bytes in hexadecimal, and the code point of each unmappable character as a number.
    encode(label, text) {
      const calls = ask('encode', host.utf8(label), hexOfUnits(text)).split(';').slice(0, -1);
      return calls.map((it) => it.split('&')).flatMap(([bytes, point]) => (point ? [bytes, Number(point)] : [bytes]));
    },
    // The number of units read, and the bytes, of one call that writes UTF-8.
    fill(text, room) {
      const [read, bytes] = ask('fill', host.utf8('utf-8'), `${room}`, hexOfUnits(text)).split(';');
      return [Number(read), bytesOf(bytes)];
    },
  };

  // The conversions of Web IDL: a dictionary, and the bytes of an AllowSharedBufferSource.
  const dictionary = (options) => {
    if (options === undefined || options === null) return {};
    if (typeof options !== 'object' && typeof options !== 'function') throw new TypeError('no dictionary');
    return options;
  };
  const bytesIn = (source) => {
    const isView = ArrayBuffer.isView(source);
    const isBuffer = / (Shared)?ArrayBuffer\]/.test(Object.prototype.toString.call(source));
    if (!isView && !isBuffer) throw new TypeError('no buffer');
    if (source.byteLength === 0) return []; // a detached buffer has no bytes
    return isView ? new Uint8Array(source.buffer, source.byteOffset, source.byteLength) : new Uint8Array(source);
  };

  // A call makes the decoder's earlier calls anew, since a question is about a new decoder. So after a call with
  // `stream` that throws, those up to the next without it throw too.
  class TextDecoder {
    #label; #name; #fatal; #ignoreBOM; #streams = false; #chunks = [];
    constructor(label = 'utf-8', options = undefined) {
      label = `${label}`;
      options = dictionary(options);
      const fatal = !!options.fatal, ignoreBOM = !!options.ignoreBOM;
      const name = library.name(label);
      if (name === null || name === 'replacement') throw new RangeError('no encoding');
      [this.#label, this.#name, this.#fatal, this.#ignoreBOM] = [label, name, fatal, ignoreBOM];
    }
    get encoding() { return this.#name.toLowerCase(); }
    get fatal() { return this.#fatal; }
    get ignoreBOM() { return this.#ignoreBOM; }
    decode(input = undefined, options = undefined) {
      const bytes = input === undefined ? [] : bytesIn(input);
      const stream = !!dictionary(options).stream;
      if (!this.#streams) this.#chunks = [];
      this.#streams = stream;
      this.#chunks.push(hexOfBytes(bytes) + (stream ? '+' : ''));
      const marks = this.#ignoreBOM ? 'off' : 'remove', mode = this.#fatal ? 'report' : 'replace';
      const [text] = library.decode(this.#label, marks, mode, this.#chunks);
      if (text === null) throw new TypeError('malformed');
      return text;
    }
  }

  class TextEncoder {
    get encoding() { return 'utf-8'; }
    encode(input = '') { return bytesOf(library.encode('utf-8', `${input}`).join('')); }
    encodeInto(source, destination) {
      source = `${source}`;
      if (Object.prototype.toString.call(destination) !== '[object Uint8Array]') throw new TypeError('no Uint8Array');
      const [read, bytes] = library.fill(source, destination.length);
      for (let i = 0; i < bytes.length; i++) destination[i] = bytes[i];
      return { read, written: bytes.length };
    }
  }

  class TextDecoderStream {
    #decoder; #transform;
    constructor(label = 'utf-8', options = undefined) {
      const decoder = new TextDecoder(label, options);
      const put = (text, controller) => { if (text) controller.enqueue(text); };
      this.#decoder = decoder;
      this.#transform = new TransformStream({
        transform(chunk, controller) {
          bytesIn(chunk);
          put(decoder.decode(chunk, { stream: true }), controller);
        },
        flush(controller) { put(decoder.decode(), controller); },
      });
    }
    get encoding() { return this.#decoder.encoding; }
    get fatal() { return this.#decoder.fatal; }
    get ignoreBOM() { return this.#decoder.ignoreBOM; }
    get readable() { return this.#transform.readable; }
    get writable() { return this.#transform.writable; }
  }

  class TextEncoderStream {
    #transform;
    constructor() {
      const encoder = new TextEncoder();
      let lead = '';
      const put = (text, controller) => { if (text) controller.enqueue(encoder.encode(text)); };
      this.#transform = new TransformStream({
        transform(chunk, controller) {
          const text = lead + `${chunk}`;
          lead = /[\uD800-\uDBFF]$/.test(text) ? text.slice(-1) : '';
          put(lead ? text.slice(0, -1) : text, controller);
        },
        flush(controller) { put(lead, controller); },
      });
    }
    get encoding() { return 'utf-8'; }
    get readable() { return this.#transform.readable; }
    get writable() { return this.#transform.writable; }
  }

  for (const it of [TextDecoder, TextEncoder, TextDecoderStream, TextEncoderStream]) {
    Object.defineProperty(self, it.name, { value: it, writable: true, configurable: true });
  }
  host.library = library;
}
