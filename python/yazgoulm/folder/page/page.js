"use strict";
// The page of a folder: windows on it, and what happens to them.

const LINES = 100; // that a window shows of what happened
const AGAIN = 2000; // milliseconds before the server is tried again
const TYPING = 150; // milliseconds without a key before a formula is looked at
const EXAMPLES = [
  ["texts", "name==*.txt"],
  ["texts over 1 kB", "name==*.txt && size>1000"],
  ["pictures", "name==*.jpg || name==*.png"],
  ["a name in either case", "iname==*report*"],
  ["over 100 MB", "size>100000000"],
  ["changed since yesterday", `last_modified>${Math.floor(Date.now() / 1000) - 86400} && kind==file`],
  ["folders", "kind==folder"],
  ["rated above 3", "user.rating:number>3"],
  ["everything", "name==*"],
];
const byId = (id) => document.getElementById(id);
const windows = new Map();

class LiveWindow {
  constructor({ window: number, formula, columns, warnings }) {
    this.number = number;
    this.section = byId("window").content.cloneNode(true).firstElementChild;
    this.section.setAttribute("aria-label", formula);
    this.find("formula").textContent = formula;
    this.find("close").onclick = () => post("/close", { window: number });
    this.find("warnings").append(...warnings.map((it) => marked(formula, it.place, it.says, "warning")));
    this.find("json").onchange = () => this.section.classList.toggle("as-json", this.find("json").checked);
    this.find("table").id = `window-${number}`;
    this.find("table").setAttribute("aria-label", `entries that match ${formula}`);
    byId("windows").append(this.section);
    this.table = new Table(this.find("table"), columns, (piece) => post("/rows", { window: number, ...piece }));
  }

  find(name) {
    return this.section.querySelector("." + name);
  }

  // Shows what has changed.
  update({ count, told, lines, marks = {} }) {
    this.find("lines").prepend(...lines.map(item).reverse());
    while (this.find("lines").childElementCount > LINES) {
      this.find("lines").lastElementChild.remove();
    }
    const more = count > MOST ? `, the first ${GROUPED.format(MOST)} of them here` : "";
    this.find("counts").textContent = `${plural(count, "entry", "entries")}${more}; ` +
      `${plural(told, "change")} so far`;
    this.table.change(count, marks);
  }

  end() {
    this.table.end();
    this.section.remove();
  }
}

// A line of what happened, in words and as JSON.
function item({ at, says, json }) {
  return made("li", "", made("span", "words", `${clock(new Date(1000 * at))}  ${says}`),
    made("code", "raw", JSON.stringify(json)));
}

function add(data) {
  windows.get(data.window)?.end();
  const added = new LiveWindow(data);
  windows.set(data.window, added);
  added.update(data);
}

async function post(path, body) {
  const headers = { "Content-Type": "application/json" };
  try {
    const response = await fetch(path, { method: "POST", headers, body: JSON.stringify(body) });
    return await response.json();
  } catch {
    return { error: "the command doesn't answer" };
  }
}

// What is wrong with a formula, below the box.
function showFault(formula, { error, place, warnings = [] }) {
  const said = warnings.map((it) => marked(formula, it.place, `warning: ${it.says}`, "warning"));
  if (error) {
    said.push(place === undefined ? error : marked(formula, place, `${error} at byte ${place}`, "bad"));
  }
  byId("fault").replaceChildren(...said);
}

let asked = 0, typing;

// Looks at the formula while it is written.
async function explain() {
  const formula = byId("formula").value, number = ++asked;
  const reply = formula.trim() ? await post("/explain", { formula }) : {};
  if (number === asked) {
    showFault(formula, reply);
  }
}

byId("formula").oninput = () => {
  clearTimeout(typing);
  typing = setTimeout(explain, TYPING);
};

byId("open").onsubmit = async (event) => {
  event.preventDefault();
  clearTimeout(typing);
  asked++;
  const formula = byId("formula").value;
  const reply = await post("/open", { formula });
  showFault(formula, reply.error ? reply : {});
  if (!reply.error) {
    byId("formula").value = "";
  }
};

for (const [says, formula] of EXAMPLES) {
  byId("examples").append(new Option(`${says}: ${formula}`, formula));
}
byId("examples").onchange = () => {
  byId("formula").value = byId("examples").value;
  byId("examples").selectedIndex = 0;
  byId("formula").focus();
  explain();
};

function say(state, className = "") {
  document.body.className = className;
  byId("state").textContent = state;
}

const acts = {
  hello({ folder, windows: all, late }) {
    say(late ? "This page was too slow for all that happened, so it begins anew." : "");
    byId("folder").textContent = folder;
    windows.forEach((it) => it.end());
    windows.clear();
    all.forEach(add);
  },
  open: add,
  update(data) {
    windows.get(data.window)?.update(data);
  },
  close({ window: number }) {
    windows.get(number)?.end();
    windows.delete(number);
  },
};

// Follows the events, and tries again where they end.
function follow() {
  const source = new EventSource("/events");
  let why = "the command doesn't answer";
  for (const [name, act] of Object.entries(acts)) {
    source.addEventListener(name, (event) => act(JSON.parse(event.data)));
  }
  source.addEventListener("end", (event) => {
    why = JSON.parse(event.data).error;
  });
  source.onerror = () => {
    source.close();
    say(`${why}; it is tried again`, "ended");
    setTimeout(follow, AGAIN);
  };
}
follow();
