// A list of any number of rows of one height. Only those in sight are elements. Browsers limit the height of an
// element, so a long list is less high than its rows together: then dragging the scroll bar moves by shares of the
// list, and all else by rows.

// The greatest height that is asked of a browser. Firefox takes 17.9 million pixels, Chromium 33.5 million.
const MOST_PIXELS = 10_000_000;

export class RowList {
  // `element` is scrolled, `height` is that of a row in pixels, and `render` returns elements of rows, or a promise.
  #element; #spacer; #window; #height; #render;
  // How many rows there are, the one at the top with its share above it, and where the scroll bar was put for it.
  #count = 0; #top = 0; #expected = 0;
  // The number of the first row that is painted, and the painting that goes on, after which another may be due.
  #first = 0; #painting = null; #isStale = false;

  constructor(element, height, render) {
    [this.#element, this.#height, this.#render] = [element, height, render];
    [this.#window, this.#spacer] = ['window', 'spacer'].map((name) => {
      const part = document.createElement('div');
      part.className = name;
      return part;
    });
    element.replaceChildren(this.#window, this.#spacer);
    element.addEventListener('scroll', () => this.#scrolled());
    element.addEventListener('scrollend', () => this.#settle());
    element.addEventListener('wheel', (event) => this.#roll(event), { passive: false });
    element.addEventListener('keydown', (event) => this.#press(event));
    new ResizeObserver(() => this.#paint()).observe(element);
  }

  set count(count) {
    this.#count = count;
    this.#spacer.style.height = `${Math.min(count * this.#height, MOST_PIXELS)}px`;
    this.#top = Math.min(this.#top, this.#last);
    this.#settle();
    this.#paint();
  }

  /** Brings a row into the middle. The promise ends when it is painted. */
  show(row) { return this.#go(row - (this.#visible - 1) / 2); }

  get #visible() { return this.#element.clientHeight / this.#height; }
  get #last() { return Math.max(0, this.#count - this.#visible); }
  get #range() { return Math.max(0, this.#element.scrollHeight - this.#element.clientHeight); }
  get #isShort() { return this.#count * this.#height <= MOST_PIXELS; }

  // Goes to a row, and puts the scroll bar there.
  #go(row) {
    this.#top = Math.max(0, Math.min(row, this.#last));
    this.#settle();
    return this.#paint();
  }

  #settle() {
    const share = this.#last > 0 ? this.#top / this.#last : 0;
    const at = Math.round(this.#isShort ? this.#top * this.#height : share * this.#range);
    if (at !== Math.round(this.#element.scrollTop)) this.#element.scrollTop = at;
    this.#expected = this.#element.scrollTop;
  }

  // Follows the scroll bar: by rows where it moved a little, and near the ends of the list to the end.
  #scrolled() {
    const at = this.#element.scrollTop, moved = at - this.#expected;
    this.#expected = at;
    if (moved === 0) return;
    const isNear = Math.abs(moved) < 3 * this.#element.clientHeight;
    let row = this.#isShort ? at / this.#height
      : isNear ? this.#top + moved / this.#height : (at / this.#range) * this.#last;
    if (at <= 0 && row < 5 * this.#visible) row = 0;
    if (at >= this.#range && row > this.#last - 5 * this.#visible) row = this.#last;
    this.#top = Math.max(0, Math.min(row, this.#last));
    this.#paint();
  }

  // Moves a long list by rows, since the scroll bar would move it by more.
  #roll(event) {
    if (this.#isShort || event.ctrlKey || Math.abs(event.deltaX) > Math.abs(event.deltaY)) return;
    event.preventDefault();
    const rows = [1 / this.#height, 1, this.#visible][event.deltaMode]; // of a pixel, a line and a page
    this.#go(this.#top + event.deltaY * rows);
  }

  #press(event) {
    const page = Math.max(1, Math.floor(this.#visible) - 1), all = Infinity;
    const rows = { ArrowUp: -1, ArrowDown: 1, PageUp: -page, PageDown: page, Home: -all, End: all }[event.key];
    if (!rows || event.ctrlKey || event.altKey || event.metaKey || event.shiftKey) return;
    event.preventDefault();
    this.#go(Math.round(this.#top) + rows);
  }

  // Paints the rows in sight, and again if they have changed meanwhile.
  #paint() {
    this.#isStale = true;
    this.#painting ??= this.#paintAll().finally(() => { this.#painting = null; });
    return this.#painting;
  }

  async #paintAll() {
    while (this.#isStale) {
      this.#isStale = false;
      await this.#paintOnce();
    }
  }

  // The row that had the focus has it again, or the list if that row is out of sight.
  async #paintOnce() {
    const top = this.#top, first = Math.floor(top);
    const count = Math.min(Math.ceil(this.#visible) + 1, this.#count - first);
    const rows = count > 0 ? await this.#render(first, count) : [];
    const focused = [...this.#window.children].indexOf(document.activeElement), number = this.#first + focused;
    this.#window.replaceChildren(...rows);
    this.#window.style.transform = `translateY(${(first - top) * this.#height}px)`;
    this.#first = first;
    if (focused >= 0) (rows[number - first] ?? this.#element).focus({ preventScroll: true });
  }
}
