// Runs one test file of the suite in a worker of a page, over bindings/web: the worker's global scope is the test's,
// and its TextDecoder, TextEncoder and classes of streams are those of encoding.js. page.js stands for the document, as
// in Node, and all of its bytes are decoded and its text is encoded by these classes too.
//
// The server has the suite at /, encoding.js at /web/ and this folder at /harness/. The answer is a list of subtests,
// each with its message, which is null if it has passed.
'use strict';
{
  const send = self.postMessage.bind(self);
  const Request = self.XMLHttpRequest;
  const digits = Array.from({ length: 256 }, (_, it) => it.toString(16).toUpperCase().padStart(2, '0'));
  const toHex = (bytes) => Array.from(bytes, (it) => digits[it]).join('');
  const fromHex = (hex) => Uint8Array.from(hex.match(/../g) ?? [], (it) => parseInt(it, 16));
  const latin1 = (bytes) => Array.from(bytes, (it) => String.fromCharCode(it)).join('');
  const numbersOf = (text) => Array.from(text, (it) => it.charCodeAt(0));
  const CLASSES = ['TextDecoder', 'TextEncoder', 'TextDecoderStream', 'TextEncoderStream'];
  // By what the suite asks of byte order marks.
  const MARKS = { sniff: { sniffBOM: true }, remove: {}, off: { ignoreBOM: true } };

  // The bytes of a file, or null.
  function fetched(address) {
    const request = new Request();
    request.open('GET', address, false);
    request.responseType = 'arraybuffer';
    request.send();
    return request.status === 200 ? new Uint8Array(request.response) : null;
  }

  // The answers that page.js wants of the library, as api.js has them in Node.
  const libraryOver = (encoding) => ({
    name: (label) => encoding.encodingForLabel(label),
    decode(label, marks, mode, chunks) {
      const decoder = new encoding.TextDecoder(label, { fatal: mode === 'report', ...MARKS[marks] });
      let text = '';
      for (const it of chunks) text = decoder.decode(fromHex(it.replace('+', '')), { stream: it.endsWith('+') });
      return [text, encoding.encodingForLabel(decoder.encoding)];
    },
    // Items: bytes in hexadecimal, and the code point of each unmappable character as a number.
    encode(label, text) {
      const points = [];
      const bytes = new encoding.TextEncoder(label, { unmappable: (point) => points.push(point) }).encode(text);
      let rest = latin1(bytes);
      const items = points.flatMap((point) => {
        const reference = `&#${point};`, at = rest.indexOf(reference), before = rest.slice(0, at);
        rest = rest.slice(at + reference.length);
        return [before, point];
      });
      return [...items, rest].map((it) => (typeof it === 'number' ? it : toHex(numbersOf(it))));
    },
  });

  // The functions that page.js and report.js have of the outside, from strings to strings alone.
  const hostOf = (file, encoding) => ({
    url: new URL(file).pathname.split('/').pop(), isPage: file.endsWith('.html'), library: libraryOver(encoding),
    read: (address) => toHex(fetched(new URL(address, file)) ?? []),
    charset: (address) => {
      const headers = fetched(new URL(`${address}.headers`, file));
      return headers && (/charset=(\S+)/.exec(latin1(headers))?.[1] ?? null);
    },
    // the same bytes in small chunks
    recoded: (label, hex) => {
      const decoder = new encoding.TextDecoder(label, { sniffBOM: true }), bytes = fromHex(hex);
      let text = '';
      for (let at = 0; at < bytes.length; at += 3) text += decoder.decode(bytes.subarray(at, at + 3), { stream: true });
      return text + decoder.decode();
    },
    percentDecode: (text) => toHex(numbersOf(
      text.replace(/%([0-9A-Fa-f]{2})/g, (_, it) => String.fromCharCode(parseInt(it, 16))))),
    end: (json) => send(JSON.parse(json)),
  });

  const define = (name, value) => Object.defineProperty(self, name, { value, writable: true, configurable: true });
  const code = (source) => URL.createObjectURL(new Blob([source], { type: 'text/javascript' }));

  // The addresses of a test's scripts.
  function scriptsOf(file) {
    if (file.endsWith('.html')) {
      const isOwn = ({ address }) => !/testharness(report)?\.js$/.test(address ?? '');
      const scripts = JSON.parse(host.pageScripts()).filter(isOwn);
      return scripts.map(({ address, code: source }) => (address ? `${new URL(address, file)}` : code(source)));
    }
    const named = latin1(fetched(file)).matchAll(/^\/\/ META: script=(.*)$/gm);
    return [...Array.from(named, ([, address]) => `${new URL(address, file)}`), file];
  }

  // Makes this scope that of a test.
  function exchange(file, encoding) {
    for (const it of CLASSES) define(it, encoding[it]);
    for (const it of ['DedicatedWorkerGlobalScope', 'WorkerGlobalScope']) delete self[it];
    define('host', hostOf(file, encoding));
    define('GLOBAL', { isWindow: () => true, isWorker: () => false, isShadowRealm: () => false });
    define('location', { search: '', href: file });
  }

  // Compares the text of a page with that of its reference.
  function compare(file) {
    importScripts('/harness/page.js');
    const [ours, theirs] = [file, file.replace('.html', '-ref.html')].map((it) => JSON.stringify(host.pageText(it)));
    send([['the text of the reference', ours === theirs ? null : `${ours} is not ${theirs}`]]);
  }

  function runHarness(file) {
    importScripts('/resources/testharness.js', '/harness/report.js', '/harness/page.js');
    host.pageElements();
    importScripts(...scriptsOf(file));
    host.pageLoads();
  }

  self.onmessage = async ({ data: { file, module } }) => {
    try {
      const encoding = await import('/web/encoding.js');
      await encoding.load(module);
      exchange(file, encoding);
      const isPage = file.endsWith('.html');
      const isReftest = isPage && !latin1(fetched(file)).includes('testharness.js');
      (isReftest ? compare : runHarness)(file);
    } catch (error) {
      send([['the scripts', `${error}`]]);
    }
  };
}
