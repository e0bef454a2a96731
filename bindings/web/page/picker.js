// A field with a list of encodings, which is searched as one types: by names and all labels. It is the pattern
// "combobox" of the ARIA Authoring Practices.
import { encodingForLabel } from '../encoding.js';
import { LABELS } from '../labels.js';

export class Picker {
  #input; #list; #names; #chosen = ''; #pick; #active = -1;

  // `input` and `list` are elements of the page, `names` the encodings that there are, and `pick` gets the one chosen.
  constructor(input, list, names, pick) {
    [this.#input, this.#list, this.#names, this.#pick] = [input, list, names, pick];
    input.addEventListener('focus', () => input.select());
    input.addEventListener('click', () => {
      if (!list.hidden) return;
      input.select();
      this.#open('');
    });
    input.addEventListener('input', () => this.#open(input.value));
    input.addEventListener('blur', () => this.#close());
    input.addEventListener('keydown', (event) => this.#press(event));
    list.addEventListener('mousedown', (event) => event.preventDefault()); // so that the field keeps the focus
    list.addEventListener('click', (event) => this.#choose(event.target.closest('[role=option]')?.dataset.name));
  }

  get value() { return this.#chosen; }
  set value(name) {
    this.#chosen = name;
    this.#input.value = name;
  }

  get #options() { return [...this.#list.querySelectorAll('[role=option]')]; }

  // Opens the list, with the encodings whose name or one of whose labels has a text.
  #open(sought) {
    const text = sought.trim().toLowerCase();
    const found = this.#names.map((name) => [name, LABELS[name].filter((it) => it.includes(text))])
      .filter(([name, labels]) => name.toLowerCase().includes(text) || labels.length);
    this.#list.replaceChildren(...(found.length ? found.map((it, i) => this.#option(i, ...it)) : [this.#none()]));
    this.#list.hidden = false;
    this.#input.setAttribute('aria-expanded', 'true');
    const exact = found.findIndex(([name]) => name === (text ? encodingForLabel(text) : this.#chosen));
    this.#activate(Math.max(exact, 0));
  }

  #option(i, name, labels) {
    const option = document.createElement('li'), more = document.createElement('small');
    option.id = `${this.#list.id}-${i}`;
    option.setAttribute('role', 'option');
    option.dataset.name = name;
    more.textContent = labels.filter((it) => it !== name.toLowerCase()).join(' ');
    option.append(name, more);
    return option;
  }

  // An option that can't be chosen.
  #none() {
    const option = document.createElement('li');
    option.id = `${this.#list.id}-none`;
    option.className = 'none';
    option.setAttribute('role', 'option');
    option.setAttribute('aria-disabled', 'true');
    option.textContent = 'No encoding has such a label';
    return option;
  }

  #activate(i) {
    const options = this.#options;
    this.#active = (i + options.length) % options.length;
    options.forEach((it, at) => it.setAttribute('aria-selected', `${at === this.#active}`));
    this.#input.setAttribute('aria-activedescendant', options[this.#active]?.id ?? '');
    options[this.#active]?.scrollIntoView({ block: 'nearest' });
  }

  #press(event) {
    const step = { ArrowDown: 1, ArrowUp: -1 }[event.key];
    if (step) {
      event.preventDefault();
      if (this.#list.hidden) this.#open('');
      else this.#activate(this.#active + step);
    } else if (event.key === 'Enter' && !this.#list.hidden) {
      event.preventDefault();
      this.#choose(this.#options[this.#active]?.dataset.name);
    } else if (event.key === 'Escape') {
      this.#close();
    }
  }

  #choose(name) {
    if (!name) return;
    this.value = name;
    this.#close();
    this.#input.select();
    this.#pick?.(name);
  }

  #close() {
    this.#list.hidden = true;
    this.#input.setAttribute('aria-expanded', 'false');
    this.#input.setAttribute('aria-activedescendant', '');
    this.#input.value = this.#chosen;
  }
}
