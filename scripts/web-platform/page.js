// Runs in the global scope of a test, after api.js, and defines as much of a document as pages of the suite use: the
// query of a link, forms that are submitted into frames, frames with the text of spans, and XMLHttpRequest.
//
// The library decodes all bytes and encodes all text. Each document is decoded by recode too, which must write the same
// text. `host` has `read`, the bytes of a file, `charset`, what the server declares of it by the file's .headers,
// `recoded`, the text that recode writes, and `percentDecode`, the bytes of a URL; all bytes are in hexadecimal.
'use strict';
{
  const { library } = host;
  const latin1 = (hex) => hex.replace(/../g, (it) => String.fromCharCode(parseInt(it, 16)));
  const digitsOf = (byte) => byte.toString(16).toUpperCase().padStart(2, '0');
  const hexOf = (ascii) => Array.from(ascii, (it) => digitsOf(it.charCodeAt(0))).join('');
  const unescapeHTML = (text) => text.replace(/&#x([0-9A-Fa-f]+);/g,
    (_, it) => String.fromCodePoint(parseInt(it, 16)));
  const attributesOf = (tag) => Array.from(tag.matchAll(/([\w-]+)="([^"]*)"/g), ([, name, value]) => [name, value]);

  // What the suite's scripts on the server answer, which the package lacks: bytes, charset and type, by the label.
  const SERVED = {
    'single-byte-raw.py': (label) => [hexOf(String.fromCharCode(...Array(255).keys())), label, 'text/plain'],
    'text-plain-charset.py': (label) => [hexOf('hello encoding'), label, 'text/plain'],
    'text-html-meta-charset.py': (label) => [hexOf(`<!doctype html><meta charset="${label}">`), null, 'text/html'],
  };

  // Fetches a URL: bytes, the charset declared, and the type.
  function fetched(url) {
    const script = /([\w-]+\.py)\?label=(.*)$/.exec(url);
    if (script) return SERVED[script[1]](latin1(host.percentDecode(script[2])));
    const data = /^data:([^;,]*)(?:;charset=([^,]*))?,(.*)$/s.exec(url);
    if (data) return [host.percentDecode(data[3]), data[2] ?? null, data[1]];
    return [host.read(url), host.charset(url), url.endsWith('.xml') ? 'application/xml' : 'text/html'];
  }

  // Decodes a document, with the encoding of the document around it if nothing else names one.
  function loaded(url, around) {
    const [hex, charset, type] = fetched(url);
    const isHTML = type === 'text/html';
    const meta = isHTML && /<meta[^>]*?charset\s*=\s*["']?([^"'>]+)/i.exec(latin1(hex.slice(0, 2048)));
    const labels = [charset, meta && meta[1].trim(), isHTML ? around : 'utf-8'];
    const label = labels.find((it) => it && library.name(it)) ?? 'windows-1252';
    const [text, encoding] = library.decode(label, 'sniff', 'replace', [hex]);
    if (host.recoded(label, hex) !== text) throw new Error(`recode ${label} utf-8 writes another text for ${url}`);
    return { text, encoding, type, label };
  }

  // The document of a frame.
  function documentOf({ text, encoding, type }) {
    const root = /<html[^>]*?data-parsed="([^"]*)"/.exec(text);
    const spans = Array.from(text.matchAll(/<span([^>]*)>([^]*?)<\/span>/g), ([, tag, inner]) => {
      const data = attributesOf(tag).filter(([name]) => name.startsWith('data-'));
      const dataset = Object.fromEntries(data.map(([name, value]) => [name.slice('data-'.length), value]));
      return { dataset, textContent: unescapeHTML(inner) };
    });
    const inner = text.replace(/^[^]*<\/title>\s*/, '').replace(/<[^>]*>/g, '').replace(/[\r\n]+$/, '');
    return {
      characterSet: encoding, inputEncoding: encoding, charset: encoding, contentType: type,
      documentElement: { dataset: root ? { parsed: root[1] } : {} },
      body: { textContent: inner }, querySelectorAll: () => spans,
    };
  }

  // "Percent-encode after encoding" of the URL Standard. `keeps` is whether a byte stands for itself.
  function percentEncoded(label, text, keeps) {
    const byteOf = (byte) => (keeps(parseInt(byte, 16)) ? latin1(byte) : `%${byte}`);
    const items = library.encode(label, text);
    return items.map((it) => (typeof it === 'number' ? `%26%23${it}%3B` : it.replace(/../g, byteOf))).join('');
  }
  const keepsInQuery = (byte) => byte > 0x20 && byte < 0x7F && !'"#<>\''.includes(String.fromCharCode(byte));
  const keepsInForm = (byte) => byte === 0x20 || /[A-Za-z0-9*\-._]/.test(String.fromCharCode(byte));
  const inForm = (label, text) => percentEncoded(label, text, keepsInForm).replace(/ /g, '+');

  class Element {
    constructor(tag) { Object.assign(this, { tag, children: [], style: {} }); }
    // Of a link only the query is asked for.
    set href(url) {
      const [address] = url.replace(/^[\x00-\x20]+|[\x00-\x20]+$|[\t\n\r]/g, '').split('#');
      const query = address.split('?').slice(1).join('?');
      this.search = `?${percentEncoded(document.characterSet, query, keepsInQuery)}`;
    }
    appendChild(child) { this.children.push(child); return added(child); }
    remove() { elements.splice(elements.indexOf(this), 1); }
    getAttribute(name) { return this[name]; }
    // Loads a document into a frame.
    open(url) {
      this.contentDocument = documentOf(loaded(url, document.characterSet));
      this.contentWindow = { document: this.contentDocument, location: { href: url, search: '' } };
      this.contentWindow.window = this.contentWindow;
    }
    // Submits a form by the method GET, into the frame that it names.
    submit() {
      const label = this.acceptCharset || document.characterSet;
      const query = this.children.map((it) => `${inForm(label, it.name)}=${inForm(label, it.value)}`).join('&');
      const href = `${this.action}?${query}`;
      if (this.action.startsWith('data:')) return setTimeout(() => runFrame(href), 0);
      const frame = elements.find((it) => it.tag === 'iframe' && it.name === this.target);
      frame.contentWindow = { location: { href, search: `?${query}` } };
      setTimeout(() => frame.onload(), 0);
    }
  }

  // Runs a page in a data: URL, which is `<body onload="CODE"><plaintext>TEXT`.
  function runFrame(href) {
    const [, code, innerText] = /<body onload="([^"]*)"><plaintext>([^]*)$/.exec(loaded(href, null).text);
    const parent = { postMessage: (data) => listenersOf('message').forEach((it) => it({ data })) };
    new Function('parent', 'document', 'location', code)(parent, { body: { innerText } }, { href });
  }

  const elements = [], listeners = [];
  const listenersOf = (type) => listeners.filter(([it]) => it === type).map(([, listener]) => listener);
  const added = (element) => {
    elements.push(element);
    if (element.tag === 'iframe' && element.src) {
      setTimeout(() => { element.open(element.src); if (element.onload) element.onload(); }, 0);
    }
    return element;
  };
  const body = {
    appendChild: added, append: added, insertBefore: added, removeChild: (it) => it.remove(), firstChild: null,
  };
  const page = host.isPage ? loaded(host.url, null) : { text: '', encoding: 'UTF-8', label: 'utf-8' };
  const markup = page.text.replace(/<script[^]*?<\/script>/g, '');

  self.window = self;
  self.addEventListener = (type, listener) => listeners.push([type, listener]);
  self.document = {
    characterSet: page.encoding, inputEncoding: page.encoding, readyState: 'complete', body,
    createElement: (tag) => new Element(tag),
    getElementById: (id) => elements.find((it) => it.id === id) ?? null,
    getElementsByTagName: (tag) => elements.filter((it) => it.tag === tag),
    querySelector: () => ({ getAttribute: () => page.label }),
  };
  Object.defineProperty(self, 'frames', { // which a page may replace
    get: () => document.getElementsByTagName('iframe').map((it) => it.contentWindow), configurable: true,
    set: (value) => Object.defineProperty(self, 'frames', { value, writable: true }),
  });

  self.XMLHttpRequest = class {
    open(method, url) { this.url = url; }
    overrideMimeType(type) { this.label = /charset="?([^"]*)"?/.exec(type)[1]; }
    send() {
      const [hex, charset] = fetched(this.url);
      const label = [this.label, charset].find((it) => it && library.name(it)) ?? 'utf-8';
      [this.responseText] = library.decode(label, 'sniff', 'replace', [hex]);
      setTimeout(() => this.onload(), 0);
    }
  };

  // The scripts of the page, each with its address or with its code.
  host.pageScripts = () => JSON.stringify(
    Array.from(page.text.matchAll(/<script(?:\s+src=["']?([^"'>\s]+)["']?)?\s*>([^]*?)<\/script>/g),
      ([, address, code]) => ({ address, code })));
  // Makes the elements that the page has itself.
  host.pageElements = () => {
    for (const [, tag] of markup.matchAll(/<iframe([^>]*)>/g)) {
      const frame = Object.assign(new Element('iframe'), Object.fromEntries(attributesOf(tag)));
      frame.open(frame.src);
      elements.push(frame);
    }
    for (const [, id, textContent] of markup.matchAll(/<div id=(\w+)>([^<]*)<\/div>/g)) {
      elements.push(Object.assign(new Element('div'), { id, textContent }));
    }
  };
  // The event `load`, at the end of the page.
  host.pageLoads = () => {
    for (const listener of listenersOf('load')) listener();
    const attribute = /<body onload="([^"]*)"/.exec(markup);
    if (attribute) (0, eval)(attribute[1]);
  };
  // The text of a page that is compared with another.
  host.pageText = (url) => {
    const { text } = loaded(url, null);
    return unescapeHTML(text.replace(/<title>[^]*?<\/title>|<link[^>]*>\s*/g, '')).trimEnd();
  };
}
