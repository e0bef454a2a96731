// The encoding of a file by its first bytes: its byte order mark, or the label that it declares.
import { TextDecoder, encodingForBOM, encodingForLabel } from '../encoding.js';
import { prescan } from './prescan.js';

// How many bytes are looked at. HTML looks at 1,024 of them for a meta element.
const HEAD = 4096, HEAD_OF_HTML = 1024;

const XML = /^\s*<\?xml\s[^>]*?encoding\s*=\s*["']([^"']+)["']/;
const HEADERS = /^(?:From [^\r\n]*\r?\n)?[\w-]+:/;
const MAIL = /^content-type:[^\r\n]*(?:\r?\n[ \t][^\r\n]*)*?(?<=[;\s])charset\s*=\s*"?([^"\s;]+)/im;

const latin1 = (bytes) => Array.from(bytes, (it) => String.fromCharCode(it)).join('');

// The label that is declared and where, or null. What begins with a tag, or has a name of HTML, is taken for HTML.
function labelIn(head, name) {
  const text = latin1(head), xml = XML.exec(text);
  if (xml) return [xml[1], 'the XML declaration'];
  const isHTML = /^\s*</.test(text) || /\.x?html?$/i.test(name);
  const label = isHTML && prescan(text.slice(0, HEAD_OF_HTML));
  if (label) return [label, 'a meta element'];
  const [headers] = text.split(/\r?\n\r?\n/, 1), mail = HEADERS.test(headers) && MAIL.exec(headers);
  return mail ? [mail[1], 'a mail header'] : null;
}

// HTML (13.2.3.2) takes these labels in a meta element for those of other encodings: a file that can be read so far is
// in none of them.
const INSTEAD = { 'UTF-16BE': 'UTF-8', 'UTF-16LE': 'UTF-8', 'x-user-defined': 'windows-1252' };

function isUTF8(head, isWhole) {
  try {
    new TextDecoder('utf-8', { fatal: true }).decode(head, { stream: !isWhole });
    return true;
  } catch {
    return false;
  }
}

/** The encoding of a file, a few words on how it is known, whether a mark sets it, and the label that is declared. */
export async function encodingOf(file) {
  const head = new Uint8Array(await file.slice(0, HEAD).arrayBuffer());
  const mark = encodingForBOM(head), [label = null, where] = labelIn(head, file.name) ?? [];
  if (mark) return { encoding: mark.encoding, by: 'by its byte order mark', sniffBOM: true, label };
  const declared = label && encodingForLabel(label);
  if (declared && declared !== 'replacement') {
    const encoding = INSTEAD[declared] ?? declared;
    return { encoding, by: `declared in ${where} as “${label}”`, sniffBOM: false, label };
  }
  const unknown = label ? `${where} declares “${label}”, which is no encoding; ` : 'nothing declares it; ';
  return isUTF8(head, head.length === file.size)
    ? { encoding: 'UTF-8', by: `${unknown}its start is UTF-8`, sniffBOM: false, label: null }
    : { encoding: 'windows-1252', by: `${unknown}its start is not UTF-8`, sniffBOM: false, label: null };
}
