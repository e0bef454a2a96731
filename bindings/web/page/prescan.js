// The label in a meta element, by HTML (13.2.3.2), "prescan a byte stream to determine its encoding". A byte is a
// character here.

const SPACE = /[\t\n\f\r ]/;
// "Extract a character encoding from a meta element".
const CONTENT = /charset[\t\n\f\r ]*=[\t\n\f\r ]*("[^"]*"|'[^']*'|[^"'\t\n\f\r ;][^\t\n\f\r ;]*)/i;

/** The label that the start of a document declares, or null. */
export function prescan(text) {
  for (let at = 0; at < text.length;) {
    const rest = text.slice(at);
    if (rest.startsWith('<!--')) {
      const end = text.indexOf('-->', at + 2);
      if (end < 0) return null;
      at = end + 3;
    } else if (/^<meta[\t\n\f\r /]/i.test(rest)) {
      const [attributes, end] = attributesFrom(text, at + 5), label = labelOf(attributes);
      if (label) return label;
      at = end;
    } else if (/^<\/?[a-z]/i.test(rest)) {
      const name = /^<\/?[^\t\n\f\r >]*/.exec(rest)[0];
      [, at] = attributesFrom(text, at + name.length);
    } else if (/^<[!/?]/.test(rest)) {
      const end = text.indexOf('>', at);
      if (end < 0) return null;
      at = end + 1;
    } else {
      const next = text.indexOf('<', at + 1);
      at = next < 0 ? text.length : next;
    }
  }
  return null;
}

// The label of a meta element: that of `charset`, or that in `content` if `http-equiv` says that it has one.
function labelOf(attributes) {
  const charset = attributes.get('charset');
  if (charset !== undefined) return charset;
  if (attributes.get('http-equiv')?.toLowerCase() !== 'content-type') return null;
  const found = CONTENT.exec(attributes.get('content') ?? '');
  return found && found[1].replace(/^(["'])(.*)\1$/, '$2');
}

// The attributes of a tag, of which the first of a name counts, and the place after the tag.
function attributesFrom(text, at) {
  const attributes = new Map();
  for (;;) {
    while (at < text.length && (SPACE.test(text[at]) || text[at] === '/')) at++;
    if (at >= text.length || text[at] === '>') return [attributes, at + 1];
    const [name, value, end] = attributeAt(text, at);
    if (!attributes.has(name)) attributes.set(name, value);
    at = end;
  }
}

// "Get an attribute": its name in lower case, its value, and the place after it.
function attributeAt(text, at) {
  const [name] = /^=?[^=\t\n\f\r />]*/.exec(text.slice(at));
  const [gap] = /^[\t\n\f\r ]*/.exec(text.slice(at + name.length));
  let end = at + name.length;
  if (text[end + gap.length] !== '=') return [name.toLowerCase(), '', end + gap.length];
  end += gap.length + 1;
  end += /^[\t\n\f\r ]*/.exec(text.slice(end))[0].length;
  const quoted = /^(["'])([^]*?)\1/.exec(text.slice(end));
  if (quoted) return [name.toLowerCase(), quoted[2], end + quoted[0].length];
  if (/["']/.test(text[end] ?? '')) return [name.toLowerCase(), '', text.length]; // a quote that nothing closes
  const [value] = /^[^\t\n\f\r >]*/.exec(text.slice(end));
  return [name.toLowerCase(), value, end + value.length];
}
