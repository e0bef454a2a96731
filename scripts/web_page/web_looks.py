"""Looks at the page in JavaScript, for the walk through it."""

import json

# The page as a person sees it.
LOOK = """
const at = (id) => document.getElementById(id), text = (id) => at(id).textContent;
const all = (query) => [...document.querySelectorAll(query)].filter((it) => it.checkVisibility());
return {
  name: text('name'), size: text('size'), lines: text('lines'), by: text('by'), status: text('status'),
  malformed: text('malformed'),
  encoding: at('encoding').value, isIdle: at('work').hidden, isOver: document.body.classList.contains('over'),
  isDialog: at('unmappable').open, isClosed: at('open').hidden && at('opened').hidden,
  rows: all('#text .row .words').map((it) => it.textContent),
  numbers: all('#text .row .number').map((it) => it.textContent), focus: document.activeElement.className,
  marks: all('#text mark').map((it) => it.title), here: all('#text .row.here mark').map((it) => it.textContent),
  faults: all('#faults .row').map((it) => it.innerText.replace(/\\s+/g, ' ')),
  options: all('[role=option][data-name]').map((it) => it.dataset.name), canSave: !at('save').disabled,
  none_found: all('.picker .none').map((it) => it.textContent)[0],
  isListOpen: all('[role=listbox]').length > 0,
  characters: [...document.querySelectorAll('#characters tr')].map(
    (it) => [...it.cells].map((cell) => cell.textContent).join(' ')),
};
"""

# Notes the longest task from here on, in milliseconds: tasks below 50 are not noted.
FRAMES = """
window.longest = 0;
const note = ({ duration }) => { window.longest = Math.max(window.longest, duration); };
new PerformanceObserver((list) => list.getEntries().forEach(note)).observe({ type: 'longtask' });
"""

# Elements that are wider than the screen.
WIDE = """
const right = (it) => Math.round(it.getBoundingClientRect().right);
return [...document.querySelectorAll('body, body *')].filter(
  (it) => it.checkVisibility() && it.id !== 'file' && !it.closest('.rows, .scrolled') &&
    (right(it) > innerWidth + 1 || it.scrollWidth > innerWidth)).map(
  (it) => `${it.tagName.toLowerCase()}#${it.id} reaches ${right(it)} of ${innerWidth} pixels`);
"""

# Texts whose contrast is below that of WCAG 2.2, level AA (1.4.3): 4.5, or 3 where letters are large.
CONTRAST = """
const canvas = document.createElement('canvas').getContext('2d', { willReadFrequently: true });
const parts = (color) => {
  canvas.clearRect(0, 0, 1, 1);
  canvas.fillStyle = color;
  canvas.fillRect(0, 0, 1, 1);
  return [...canvas.getImageData(0, 0, 1, 1).data];
};
const light = (color) => {
  const [r, g, b] = parts(color).slice(0, 3).map((it) => it / 255).map(
    (it) => (it <= 0.04045 ? it / 12.92 : ((it + 0.055) / 1.055) ** 2.4));
  return 0.2126 * r + 0.7152 * g + 0.0722 * b;
};
const back = (it) => {
  for (let color; it; it = it.parentElement) {
    color = getComputedStyle(it).backgroundColor;
    if (parts(color)[3] === 255) return color;
  }
  return 'white';
};
const own = (it) => [...it.childNodes].some((node) => node.nodeType === 3 && node.textContent.trim());
const seen = [...document.querySelectorAll('body *')].filter(
  (it) => it.checkVisibility() && (own(it) || it.matches('input')));
return seen.flatMap((it) => {
  const style = getComputedStyle(it), [a, b] = [light(style.color), light(back(it))].sort((x, y) => y - x);
  const ratio = (a + 0.05) / (b + 0.05), size = parseFloat(style.fontSize);
  const least = size >= 24 || size >= 18.66 && Number(style.fontWeight) >= 700 ? 3 : 4.5;
  const name = `${it.tagName.toLowerCase()}#${it.id}.${it.className}`;
  return ratio < least ? [`${name} has a contrast of ${ratio.toFixed(2)}`] : [];
});
"""


def offered(kind, name, text):
    """Drops or pastes a file, or a text where it has no name."""
    data = json.dumps(text)
    file = f"new File([{data}], {json.dumps(name)})"
    put = f"data.items.add({file});" if name else f"data.setData('text/plain', {data});"
    events = {"drop": "[new DragEvent('dragover', how), new DragEvent('drop', how)]",
              "paste": "[new ClipboardEvent('paste', how)]"}[kind]
    return f"""
const data = new DataTransfer();
{put}
const how = {{ dataTransfer: data, clipboardData: data, bubbles: true, cancelable: true }};
for (const it of {events}) document.body.dispatchEvent(it);
"""
