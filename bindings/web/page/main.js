// The page: opens, shows and saves a file, by its controls.
import { encodingForLabel, encodings, load, TextEncoder } from '../encoding.js';
import { encodingOf } from './declared.js';
import { FileText, MOST_LISTED } from './file_text.js';
import { Picker } from './picker.js';
import { RowList } from './row_list.js';
import { encoded, save } from './save.js';

// The least time between two counts that are shown, in milliseconds.
const OFTEN = 100;
// The height of a row in pixels: page.css has it in the unit of the page's font.
const ROW = 1.5 * parseFloat(getComputedStyle(document.documentElement).fontSize);

const at = (id) => document.getElementById(id);
const counted = (number, one, many = `${one}s`) => `${number.toLocaleString('en')} ${number === 1 ? one : many}`;
const hexOf = (bytes) => Array.from(bytes, (it) => it.toString(16).toUpperCase().padStart(2, '0')).join(' ');

function element(tag, className, ...parts) {
  const made = document.createElement(tag);
  made.className = className;
  made.append(...parts);
  return made;
}

function say(text, isFault = false) {
  at('status').textContent = text;
  at('status').classList.toggle('fault', isFault);
}

// Work that takes long: its progress is shown, and it can be stopped.
class Work {
  #control = null;
  constructor() { at('stop').addEventListener('click', () => this.stop()); }

  stop() { this.#control?.abort(); }

  // Runs what takes a signal, and says what it does meanwhile.
  async run(doing, task) {
    this.stop();
    const control = this.#control = new AbortController();
    at('doing').textContent = doing;
    at('progress').value = 0;
    at('work').hidden = false;
    try {
      return await task(control.signal);
    } finally {
      if (this.#control === control) this.#end();
    }
  }

  #end() {
    const hadFocus = document.activeElement === at('stop');
    at('work').hidden = true;
    if (hadFocus) at('text').focus();
  }

  set share(share) { at('progress').value = share; }
}

// A file that is open: its text, and its malformed sequences.
class View {
  // The file, its text if it has one yet, the label that it declares, and the malformed sequence that was gone to.
  #file; #text = null; #label = null; #chosen = -1;
  #work; #rows; #faults; #reading; #saving;

  constructor(work) {
    this.#work = work;
    this.#rows = new RowList(at('text'), ROW, this.#guarded((first, count) => this.#textRows(first, count)));
    this.#faults = new RowList(at('faults'), ROW, this.#guarded((first, count) => this.#faultRows(first, count)));
    const all = encodings().filter((it) => it !== 'replacement');
    this.#reading = new Picker(at('encoding'), at('encodings'), all, (it) => this.#read(it, false, 'chosen'));
    const outputs = all.filter((it) => encodingForLabel(new TextEncoder(it).encoding) === it);
    this.#saving = new Picker(at('target'), at('targets'), outputs);
    this.#saving.value = 'UTF-8';
    at('save').addEventListener('click', () => this.#save());
    at('next').addEventListener('click', () => this.#go(this.#chosen + 1));
    at('previous').addEventListener('click', () => this.#go(Math.max(this.#chosen, 0) - 1));
  }

  // Has a task say why the file could not be read, if it still is the one that is open. There are no rows then.
  #guarded(task) {
    return async (...words) => {
      const file = this.#file;
      try {
        return await task(...words);
      } catch (fault) {
        if (file === this.#file) say(`${file.name} could not be read: ${fault.message}`, true);
        return [];
      }
    };
  }

  // Opens a file, of which the encoding may be known. `more` is how many others there were.
  async open(file, known = null, more = 0) {
    this.#work.stop();
    [this.#file, this.#text, this.#label, this.#chosen] = [file, null, null, -1];
    this.#rows.count = this.#faults.count = 0;
    for (const it of ['save', 'next', 'previous']) at(it).disabled = true;
    for (const it of ['by', 'lines', 'malformed']) at(it).textContent = '';
    this.#reading.value = '';
    at('name').textContent = file.name;
    at('size').textContent = counted(file.size, 'byte') + (more ? `, the first of ${more + 1} files` : '');
    at('opened').hidden = false;
    say('');
    await this.#guarded(async () => {
      const { encoding, by, sniffBOM, label } = known ?? await encodingOf(file);
      if (file !== this.#file) return;
      this.#label = label;
      await this.#read(encoding, sniffBOM, by);
    })();
  }

  // Decodes the whole file by an encoding, and shows what is there meanwhile.
  async #read(encoding, sniffBOM, by) {
    const text = this.#text = new FileText(this.#file, encoding, sniffBOM);
    this.#chosen = -1;
    this.#reading.value = encoding;
    at('by').textContent = by;
    this.#rows.count = this.#faults.count = 0;
    at('save').disabled = true;
    say('');
    let shown = 0;
    const progress = () => {
      if (text !== this.#text) return;
      this.#work.share = text.read / Math.max(1, text.file.size);
      if (performance.now() - shown < OFTEN) return;
      shown = performance.now();
      this.#count();
    };
    const doing = `Decoding ${text.file.name}`;
    await this.#guarded(() => this.#work.run(doing, (signal) => text.decode(progress, signal)))();
    if (text !== this.#text) return;
    at('save').disabled = false;
    this.#count();
    if (text.isWhole) say(`Decoded ${counted(text.lines, 'line')}, ${counted(text.malformed, 'malformed sequence')}.`);
  }

  #count() {
    const { lines, malformed, listed, isWhole, read } = this.#text;
    const within = isWhole ? '' : ` in the first ${counted(read, 'byte')}`;
    at('lines').textContent = `, ${counted(lines, 'line')}${within}`;
    at('malformed').textContent = malformed.toLocaleString('en');
    at('none').hidden = listed > 0 && malformed <= MOST_LISTED;
    at('none').textContent = listed === 0 ? `None${isWhole ? '' : ' so far'}.`
      : `The first ${MOST_LISTED.toLocaleString('en')} are listed.`;
    at('previous').disabled = at('next').disabled = listed === 0;
    this.#rows.count = this.#text.rows;
    this.#faults.count = listed;
  }

  async #textRows(first, count) {
    const rows = await this.#text.rowsFrom(first, count);
    return rows.map((row) => this.#textRow(row));
  }

  #textRow({ line, begins, parts }) {
    const words = parts.map((it) => (typeof it === 'string' ? it.replace(/(?:\r\n|\n|\r)$/, '') : this.#mark(it)));
    const isHere = words.some((it) => it.className === 'chosen');
    const number = element('span', 'number', begins ? `${line + 1}` : '');
    return element('div', isHere ? 'row here' : 'row', number, element('span', 'words', ...words));
  }

  #mark({ offset, length }) {
    const isChosen = this.#chosen >= 0 && this.#text.fault(this.#chosen).offset === offset;
    const mark = element('mark', isChosen ? 'chosen' : '', '\uFFFD');
    mark.title = `${counted(length, 'malformed byte')} at offset ${offset.toLocaleString('en')}`;
    return mark;
  }

  async #faultRows(first, count) {
    const faults = Array.from({ length: count }, (_, i) => this.#text.fault(first + i));
    const bytes = await Promise.all(faults.map((it) => this.#text.bytesAt(it.offset, it.length)));
    return faults.map((it, i) => this.#faultRow(first + i, it, bytes[i]));
  }

  #faultRow(number, fault, bytes) {
    const place = `${fault.offset.toLocaleString('en')}, line ${(fault.line + 1).toLocaleString('en')}`;
    const kind = number === this.#chosen ? 'row here' : 'row';
    const row = element('button', kind, element('code', '', hexOf(bytes)), `at ${place}`);
    row.addEventListener('click', () => this.#go(number));
    return row;
  }

  // Goes to a malformed sequence: shows its row, and its mark in the row.
  async #go(number) {
    const text = this.#text, chosen = this.#chosen = (number + text.listed) % text.listed, fault = text.fault(chosen);
    await this.#guarded(async () => {
      const row = await text.rowOf(fault);
      if (text !== this.#text || chosen !== this.#chosen) return;
      await Promise.all([this.#rows.show(row), this.#faults.show(chosen)]);
      at('text').querySelector('.chosen')?.scrollIntoView({ block: 'nearest', inline: 'center' });
      const place = `offset ${fault.offset}, line ${fault.line + 1}`;
      say(`Malformed sequence ${chosen + 1} of ${text.listed}: ${place}`);
    })();
  }

  async #save() {
    const encoding = this.#saving.value, text = this.#text, label = this.#label, { name, size } = text.file;
    const progress = (end) => { this.#work.share = end / Math.max(1, size); };
    const encode = (signal) => encoded(text, encoding, progress, signal);
    const made = await this.#guarded(() => this.#work.run(`Encoding into ${encoding}`, encode))();
    if (text !== this.#text || Array.isArray(made)) return; // another is open, or there was a fault
    if (!made || made.unmappable > 0 && !await confirmed(made, encoding)) {
      say('Nothing is saved.');
      return;
    }
    save(made.blob, name);
    const saved = `Saved ${name} as ${encoding}: ${counted(made.blob.size, 'byte')}.`;
    say([saved, ...notesOn(text, label, encoding)].join(' '));
  }
}

// Notes on a text that is saved in an encoding: its U+FFFD, and a label in it that names another encoding.
function notesOn({ malformed }, label, encoding) {
  const notes = [];
  if (malformed) notes.push(`${counted(malformed, 'malformed sequence')} became U+FFFD.`);
  if (label && encodingForLabel(label) !== encoding) notes.push(`The text still declares “${label}”.`);
  return notes;
}

// Shows the unmappable characters, and asks whether the text is to be saved with references.
function confirmed({ unmappable, characters, areAllListed }, encoding) {
  const dialog = at('unmappable'), stands = unmappable === 1 ? 'is' : 'are';
  at('unmappable-title').textContent = `${counted(unmappable, 'character')} ${stands} not in ${encoding}`;
  at('not-listed').hidden = areAllListed;
  at('characters').replaceChildren(...characters.map(({ point, count, line }) => {
    const code = `U+${point.toString(16).toUpperCase().padStart(4, '0')}`;
    const cells = [String.fromCodePoint(point), code, count.toLocaleString('en'), (line + 1).toLocaleString('en')];
    return element('tr', '', ...cells.map((it) => element('td', '', it)));
  }));
  dialog.returnValue = '';
  dialog.showModal();
  return new Promise((resolve) => {
    at('with-references').onclick = () => dialog.close('save');
    at('cancel').onclick = () => dialog.close();
    dialog.onclose = () => resolve(dialog.returnValue === 'save');
  });
}

// A text has no other encoding here, whatever it declares.
const OF_TEXT = { encoding: 'UTF-8', by: 'it is a text', sniffBOM: false, label: null };

// Opens the first file that is dropped or pasted, or a text.
function openData(data, open) {
  const [file] = data.files, text = data.getData('text/plain');
  if (file) open(file, null, data.files.length - 1);
  else if (text) open(new File([text], 'pasted.txt'), OF_TEXT);
}

function listen(open) {
  at('file').addEventListener('change', (event) => {
    if (event.target.files.length) open(event.target.files[0]);
    event.target.value = ''; // so that the same file can be opened again
  });
  addEventListener('paste', (event) => { if (!event.target.closest?.('input')) openData(event.clipboardData, open); });
  addEventListener('dragover', (event) => {
    event.preventDefault();
    document.body.classList.add('over');
  });
  addEventListener('dragleave', (event) => { if (!event.relatedTarget) document.body.classList.remove('over'); });
  addEventListener('drop', (event) => {
    event.preventDefault();
    document.body.classList.remove('over');
    openData(event.dataTransfer, open);
  });
}

/** Begins, with the bytes of the module. */
export async function begin(module) {
  try {
    await load(module);
  } catch (fault) {
    at('open').hidden = true;
    say(fault.message.replace(/^encoding\.js: /, ''), true);
    return;
  }
  const view = new View(new Work());
  listen((...words) => view.open(...words));
}
