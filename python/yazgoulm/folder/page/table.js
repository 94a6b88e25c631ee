"use strict";
// The table of a window. Only the rows that are seen are drawn, and asked for in pieces.

const HIGH = 24; // of a row, as page.css has it
const MOST = 1000000; // rows that a table shows: browsers draw nothing much longer
const AROUND = 60; // rows that are asked for before and after those that are seen, where it is scrolled
const FEW = 10; // and where something has changed
const WIDTHS = { name: "minmax(9em, 3fr)", folder: "minmax(5em, 2fr)", size: "6em", modified: "10.5em", kind: "4.5em" };
const SAYS = { came: "new", moved: "moved", changed: "changed", left: "gone" };

// An attribute, if it isn't so already.
function set(element, name, value) {
  if (element.getAttribute(name) !== value) {
    element.setAttribute(name, value);
  }
}

class Table {
  static SHOWN = 1000; // milliseconds that a row shows what happened to it

  // `ask` gives a piece of the rows.
  constructor(grid, columns, ask) {
    this.grid = grid;
    this.columns = columns;
    this.ask = ask;
    this.by = "name";
    this.down = false;
    this.count = 0;
    this.piece = { first: 0, rows: [] };
    this.key = ""; // of the piece
    this.drawn = new Map(); // the elements of the rows that are seen, by node
    this.marks = new Map(); // what has happened to rows, by node
    this.waiting = []; // marks that are shown with the rows that are asked for next
    this.going = []; // the rows that have gone, which stay for a while: their elements, the upper ones first
    this.current = 0; // the row that the keyboard is at
    this.isAsking = this.isStale = this.isDue = false;
    this.space = grid.querySelector(".space");
    this.drawHead();
    this.top = 0; // how far it is scrolled, and how high it is: to ask for them may cost a layout
    this.height = 0;
    grid.onscroll = () => {
      this.top = grid.scrollTop;
      this.later();
    };
    grid.onkeydown = (event) => this.press(event);
    grid.onfocus = () => this.later();
    grid.onblur = () => this.later();
    this.resized = new ResizeObserver(() => {
      this.height = grid.clientHeight;
      this.later();
    });
    this.resized.observe(grid);
  }

  drawHead() {
    this.heads = this.columns.map((column, place) => {
      const button = made("button", "", column);
      button.type = "button";
      button.onclick = () => this.sort(column);
      const head = made("div", `cell ${column}`, button);
      head.setAttribute("role", "columnheader");
      head.setAttribute("aria-colindex", place + 1);
      return head;
    });
    this.grid.querySelector(".head").replaceChildren(...this.heads);
    this.grid.setAttribute("aria-colcount", this.columns.length);
    const css = this.columns.map((column) => WIDTHS[column] ?? "minmax(5em, 1fr)").join(" ");
    this.grid.style.setProperty("--columns", css);
    this.showOrder();
  }

  showOrder() {
    for (const [place, head] of this.heads.entries()) {
      const isBy = this.columns[place] === this.by;
      head.setAttribute("aria-sort", !isBy ? "none" : this.down ? "descending" : "ascending");
    }
  }

  sort(column) {
    this.down = column === this.by && !this.down;
    this.by = column;
    this.showOrder();
    this.current = 0;
    this.grid.scrollTop = this.top = 0;
    this.later();
    this.refresh();
  }

  // There are `count` rows now, and something happened to those that are marked.
  change(count, marks) {
    this.count = Math.min(count, MOST);
    this.waiting.push(...Object.entries(marks));
    this.refresh();
  }

  mark(node, what) {
    const old = this.drawn.get(node);
    if (what === "left") {
      this.marks.delete(node);
      if (old) {
        this.drawn.delete(node);
        this.letGo(old);
      }
      return;
    }
    const mark = { what };
    this.marks.set(node, mark);
    if (old) {
      this.show(old, what);
    }
    setTimeout(() => {
      if (this.marks.get(node) === mark) {
        this.marks.delete(node);
        this.show(this.drawn.get(node), "");
      }
    }, Table.SHOWN);
  }

  // A row that has gone keeps its place for a while.
  letGo(row) {
    this.show(row, "left");
    row.removeAttribute("id");
    this.going = [...this.going, row].sort((a, b) => a.dataset.place - b.dataset.place);
    setTimeout(() => {
      this.going = this.going.filter((it) => it !== row);
      row.remove();
      this.later();
    }, Table.SHOWN);
  }

  // The place of a row: those that are going have theirs.
  placeOf(at) {
    return this.going.reduce((place, it) => place + (Number(it.dataset.place) <= place), at);
  }

  // Shows what happened to a row, by its colour and by a word.
  show(row, what) {
    if (row) {
      row.dataset.what = what;
      row.querySelector(".what").textContent = SAYS[what] ?? "";
    }
  }

  // The rows that are there are old: the ones that are seen are asked for again.
  refresh() {
    this.isStale = true;
    if (!this.isAsking) {
      this.fetch(this.seen(), FEW);
    }
  }

  later() {
    if (!this.isDue) {
      this.isDue = true;
      requestAnimationFrame(() => {
        this.isDue = false;
        this.draw();
      });
    }
  }

  seen() {
    const first = Math.max(0, Math.floor(this.top / HIGH));
    const room = Math.ceil(this.height / HIGH);
    return { first: Math.min(first, Math.max(0, this.count - room)), end: Math.min(this.count, first + room) };
  }

  async fetch({ first, end }, around = AROUND) {
    this.isAsking = true;
    this.isStale = false;
    const marks = this.waiting.splice(0);
    const from = Math.max(0, first - around);
    const reply = await this.ask({ by: this.by, down: this.down, first: from, count: end + around - from });
    this.isAsking = false;
    for (const [node, what] of marks) {
      this.mark(Number(node), what);
    }
    if (reply.rows) {
      const count = Math.min(reply.count, MOST), key = JSON.stringify([reply.first, reply.rows]);
      if (key !== this.key || count !== this.count || this.isStale) {
        this.later(); // a frame costs more than all of this
      }
      [this.piece, this.count, this.key] = [reply, count, key];
    }
  }

  draw() {
    const { first, end } = this.seen();
    const piece = this.piece, last = piece.first + piece.rows.length;
    if (!this.isAsking && (this.isStale || first < piece.first || end > last)) {
      this.fetch({ first, end });
    }
    this.space.style.height = `${HIGH * (this.count + this.going.length)}px`;
    set(this.grid, "aria-rowcount", String(this.count + 1));
    const kept = new Map();
    for (let at = Math.max(first, piece.first); at < Math.min(end, last); at++) {
      const row = piece.rows[at - piece.first];
      const element = this.drawn.get(row.node) ?? this.newRow(row.node);
      this.fill(element, row, at);
      kept.set(row.node, element);
    }
    for (const [node, element] of this.drawn) {
      if (!kept.has(node)) {
        element.remove();
      }
    }
    this.drawn = kept;
    this.showCurrent();
  }

  newRow(node) {
    const cells = this.columns.map((column, place) => {
      const cell = made("div", `cell ${column}`, made("span", "text"));
      cell.setAttribute("role", "gridcell");
      cell.setAttribute("aria-colindex", place + 1);
      return cell;
    });
    cells[0].append(made("span", "what"));
    const row = made("div", "row", ...cells);
    row.setAttribute("role", "row");
    row.id = `${this.grid.id}-${node}`;
    this.space.append(row);
    this.show(row, this.marks.get(node)?.what ?? "");
    return row;
  }

  // Shows a row in its place. What is shown already is left alone, since the browser would lay it out again.
  fill(element, row, at) {
    const key = JSON.stringify([row, at, this.placeOf(at)]);
    if (element.key === key) {
      return;
    }
    element.key = key;
    element.dataset.place = this.placeOf(at);
    element.style.transform = `translateY(${HIGH * element.dataset.place}px)`;
    element.setAttribute("aria-rowindex", at + 2);
    element.dataset.at = at;
    for (const [place, [text, hover]] of this.texts(row).entries()) {
      const cell = element.children[place], inside = cell.firstElementChild;
      if (inside.textContent !== text) {
        inside.textContent = text;
      }
      if (cell.title !== hover) {
        cell.title = hover;
      }
    }
  }

  // What each cell of a row says, and what it says on hover.
  texts({ name, folder, size: bytes, time, kind, more }) {
    const isFolder = kind === "folder"; // has no size and time of its own
    const others = more.map((value, place) => {
      const column = this.columns[this.columns.length - more.length + place];
      const text = value === null ? "" : NANOSECONDS.has(column) ? exactly(value / 1e9) : String(value);
      return [text, text];
    });
    return [
      [name, folder ? `${folder}/${name}` : name],
      [folder, folder],
      isFolder ? ["", ""] : [size(bytes), plural(bytes, "byte")],
      isFolder ? ["", ""] : [when(time), exactly(time)],
      [kind, kind],
      ...others,
    ];
  }

  press(event) {
    const room = Math.max(1, Math.floor(this.grid.clientHeight / HIGH) - 2);
    const to = {
      ArrowDown: this.current + 1,
      ArrowUp: this.current - 1,
      PageDown: this.current + room,
      PageUp: this.current - room,
      Home: 0,
      End: this.count - 1,
    }[event.key];
    if (to === undefined || event.target !== this.grid || event.altKey || event.ctrlKey || event.metaKey) {
      return;
    }
    event.preventDefault();
    this.current = Math.max(0, Math.min(to, this.count - 1));
    const top = HIGH * this.current, low = top + 3 * HIGH - this.grid.clientHeight;
    this.grid.scrollTop = Math.min(top, Math.max(this.grid.scrollTop, low));
    this.later();
  }

  // The row that the keyboard is at.
  showCurrent() {
    const hasFocus = document.activeElement === this.grid;
    this.current = Math.max(0, Math.min(this.current, this.count - 1));
    let now = "";
    for (const element of this.drawn.values()) {
      const isIt = hasFocus && Number(element.dataset.at) === this.current;
      set(element, "aria-selected", String(isIt));
      now = isIt ? element.id : now;
    }
    set(this.grid, "aria-activedescendant", now);
  }

  end() {
    this.resized.disconnect();
  }
}
