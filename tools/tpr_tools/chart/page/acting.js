// What one can do: choose, hide, search, go to; by keys and clicks.

// ------------------------------------------------------------ Names, and the list of components

function button(text, title, act, kind) {
  const made = document.createElement("button");
  made.type = "button";
  made.textContent = text;
  made.title = title;
  made.setAttribute("aria-label", title);
  if (kind) made.className = kind;
  made.addEventListener("click", (event) => { event.stopPropagation(); act(); });
  return made;
}

// What changes the life lines leaves the row at the top where it is.
const change = (act) => () => {
  const row = state.rows[Math.floor(scroll.scrollTop / ROW)];
  act();
  arrange();
  keepRow(row);
};
const hide = (component) => change(() => state.hidden.add(component));
const fold = (component) => change(() => { if (!state.folded.delete(component)) state.folded.add(component); });
const show = (component) => change(() => { if (!state.hidden.delete(component)) state.hidden.add(component); });

// Past the next component that is shown.
const move = (component, way) => change(() => {
  let place = state.order.indexOf(component) + way;
  while (state.order[place] !== undefined && state.hidden.has(state.order[place])) place += way;
  if (state.order[place] === undefined) return;
  state.order.splice(state.order.indexOf(component), 1);
  state.order.splice(place, 0, component);
});

function keepRow(row) {
  if (row !== undefined) scroll.scrollTop = Math.max(placeBefore(row), 0) * ROW;
}

function buttonsOf(component) {
  return [button("◂", `move ${name(component)} to the left`, move(component, -1)),
    button(state.folded.has(component) ? "+" : "–", `fold ${name(component)}`, fold(component), "fold"),
    button("×", `hide ${name(component)}`, hide(component), "hide"),
    button("▸", `move ${name(component)} to the right`, move(component, 1))];
}

function drawNames() {
  const all = document.createElement("div");
  for (const component of state.columns) {
    const box = document.createElement("div"), buttons = document.createElement("span");
    const isFolded = state.folded.has(component);
    const width = isFolded ? FOLDED - 4 : WIDE - 14, title = document.createElement("b");
    box.className = isFolded ? "name folded" : "name";
    box.dataset.name = name(component);
    box.title = name(component);
    box.style.left = `${state.middle[component] - width / 2}px`;
    box.style.width = `${width}px`;
    title.textContent = name(component);
    buttons.append(...buttonsOf(component));
    box.append(title, buttons);
    all.append(box);
  }
  const corner = document.createElement("div");
  corner.className = "corner";
  corner.textContent = "row";
  get("names").replaceChildren(all, corner);
}

function drawList() {
  const list = document.createElement("ul"), head = document.createElement("h2");
  head.textContent = `components, ${state.columns.length} of ${told.names.length} shown`;
  for (const component of state.order) {
    const item = document.createElement("li"), label = document.createElement("label");
    const box = document.createElement("input");
    box.type = "checkbox";
    box.checked = !state.hidden.has(component);
    box.style.width = "auto";
    box.addEventListener("change", show(component));
    label.append(box, ` ${name(component)}`);
    item.append(label, button("only", `show ${name(component)} alone`, change(() => {
      state.hidden = new Set(state.order.filter((other) => other !== component));
    })), ...buttonsOf(component).filter((made) => made.className !== "hide"));
    list.append(item);
  }
  get("components").replaceChildren(head,
    button("all", "show all components", change(() => state.hidden.clear())),
    button("none", "hide all components", change(() => { state.hidden = new Set(state.order); })),
    button("unfold", "unfold all components", change(() => state.folded.clear())), list);
}

// ------------------------------------------------------------ What is chosen

function choose(number, stays) {
  state.chosen = number;
  state.foot = -1;
  const row = told.rows[number];
  if (state.place[number] < 0) { for (const it of componentsOf(row)) state.hidden.delete(it); arrange(); }
  if (!stays) goTo(state.place[number] * ROW, componentsOf(row)[0]);
  get("told").textContent = `row ${number + 1}: ${said(row)}`;
  drawPanel();
  draw();
}

function goTo(y, component) {
  const height = scroll.clientHeight;
  if (y < scroll.scrollTop + ROW || y > scroll.scrollTop + height - 3 * ROW) scroll.scrollTop = y - height / 3;
  const x = state.middle[component];
  if (x >= 0 && (x < scroll.scrollLeft + GUTTER || x > scroll.scrollLeft + scroll.clientWidth - 60))
    scroll.scrollLeft = x - scroll.clientWidth / 2;
}

function chooseFoot(component) {
  state.chosen = -1;
  state.foot = component;
  if (state.hidden.delete(component)) arrange();
  goTo(state.rows.length * ROW + FOOT, component);
  get("told").textContent = `${name(component)}: ${told.feet[component][0]}, verdict ${told.feet[component][1]}`;
  drawPanel();
  draw();
}

// The line of the script, where whoever made the page knew it.
const scriptLine = (line) => told.script[line] ? `, script ${told.script[line]}` : "";

function place(number, line) {
  const made = document.createElement("span");
  if (number < 0) return made;
  const row = `row ${number + 1}`;
  made.append(button(row, `go to ${row}`, () => choose(number)), ` report line ${line}${scriptLine(line)}`);
  return made;
}

function drawPanel() {
  panel.hidden = state.chosen < 0 && state.foot < 0;
  if (panel.hidden) return;
  const head = document.createElement("h2"), parts = document.createElement("dl");
  const add = (what, value) => {
    const term = document.createElement("dt"), told = document.createElement("dd");
    term.textContent = what;
    told.append(value);
    parts.append(term, told);
  };
  panel.replaceChildren(head, parts, button("close", "close (Escape)", unchoose));
  if (state.foot >= 0) return tellFoot(head, add);
  const row = told.rows[state.chosen];
  if (row[0] === DID) {
    head.textContent = row[2];
    add("component", name(row[1]));
    return add("where", place(state.chosen, row[4]));
  }
  tellMessage(head, add, message(row[1]));
}

function tellMessage(head, add, it) {
  const text = document.createElement("pre");
  head.textContent = `message ${it.number} from ${name(it.sender)} to ${name(it.receiver)}.${it.port}`;
  text.textContent = it.text;
  add("message", text);
  add("from", name(it.sender));
  add("to", `${name(it.receiver)}, port ${it.port}`);
  add("number", it.number);
  add("sent", place(it.sentRow, it.sentLine));
  for (const [row, line] of it.found) add("found", place(row, line));
  if (it.fate === "left") add("then", `left in the queue of ${it.port}`);
  else add(it.fate, place(it.goneRow, it.goneLine));
}

function tellFoot(head, add) {
  const foot = told.feet[state.foot], last = told.last[state.foot];
  head.textContent = name(state.foot);
  add("end", foot[0]);
  add("verdict", foot[1]);
  if (last >= 0) add("last entry", place(last, told.rows[last][told.rows[last].length - 1]));
  for (const text of foot[2]) add("left", text.slice(5));
}

function unchoose() {
  state.chosen = state.foot = -1;
  get("told").textContent = told.summary;
  drawPanel();
  draw();
  scroll.focus();
}

// The other end of the chosen message: the next of the rows that are its.
function otherEnd() {
  const row = told.rows[state.chosen];
  if (!row || row[0] === DID) return;
  const it = message(row[1]);
  const rows = [it.sentRow, ...it.found.map((found) => found[0]), it.goneRow].filter((number) => number >= 0);
  const next = rows.find((number) => number > state.chosen);
  choose(next === undefined ? it.sentRow : next);
}

function step(way) {
  const from = state.chosen < 0 ? Math.floor(scroll.scrollTop / ROW) - (way > 0 ? 1 : 0) : placeBefore(state.chosen);
  const next = Math.min(Math.max(from + way, 0), state.rows.length - 1);
  if (state.rows.length) choose(state.rows[next]);
}

// ------------------------------------------------------------ Search, and jumps

let texts = null;
function search(words) {
  state.words = words;
  texts = texts || told.rows.map((row) => said(row).toLowerCase());
  const wanted = words.toLowerCase();
  state.hits = wanted ? [...texts.keys()].filter((number) => texts[number].includes(wanted)) : [];
  state.hit = new Set(state.hits);
  tellHits();
  draw();
}

function tellHits() {
  const at = state.hits.indexOf(state.chosen);
  get("found").textContent = !state.words ? "" : state.hits.length === 0 ? "nothing" :
    at < 0 ? `${state.hits.length} row${state.hits.length > 1 ? "s" : ""}` : `${at + 1} of ${state.hits.length}`;
}

function nextHit(way) {
  if (get("words").value !== state.words) search(get("words").value);
  if (!state.hits.length) return;
  const behind = state.hits.findIndex((number) => number > state.chosen);
  let at = way > 0 ? behind : state.hits.findLastIndex((number) => number < state.chosen);
  if (at < 0) at = way > 0 ? 0 : state.hits.length - 1;
  choose(state.hits[at]);
  tellHits();
}

const firstRow = (holds) => told.rows.findIndex((row) => holds(wordOf(row), row));
const JUMPS = [
  ["set fail", "f", firstRow((word, row) => row[0] === DID && word === "set fail"), choose],
  ["failed", "e", firstRow((word, row) => row[0] === DID && word.startsWith("failed ")), choose],
  ["end waiting", "w", told.feet.findIndex((foot) => foot[0] === "end waiting"), chooseFoot],
  ["dropped", "d", firstRow((word) => word === "dropped"), choose],
  ["else", "o", firstRow((word, row) => row[0] === DID && word === "else"), choose],
];

function addJumps() {
  for (const [text, key, target, act] of JUMPS) {
    const made = button(text, `go to the first ${text} (${key})`, () => act(target));
    made.disabled = target < 0;
    get("jumps").append(made);
  }
}

// ------------------------------------------------------------ Keys and clicks

const KEYS = { ArrowDown: () => step(1), ArrowUp: () => step(-1), j: () => step(1), k: () => step(-1), Enter: otherEnd,
  Escape: unchoose, n: () => nextHit(1), N: () => nextHit(-1), "/": () => get("words").focus(),
  Home: () => { if (state.rows.length) choose(state.rows[0]); },
  End: () => { if (state.rows.length) choose(state.rows[state.rows.length - 1]); } };

document.addEventListener("keydown", (event) => {
  if (event.ctrlKey || event.altKey || event.metaKey) return;
  const on = event.target.tagName;
  if (on === "INPUT") { if (event.key === "Escape") scroll.focus(); return; }
  if (on === "BUTTON" && ["Enter", " "].includes(event.key)) return;
  const jump = JUMPS.find((it) => it[1] === event.key && it[2] >= 0);
  const act = jump ? () => jump[3](jump[2]) : KEYS[event.key];
  if (act) { event.preventDefault(); act(); }
});

scroll.addEventListener("click", (event) => {
  const box = scroll.getBoundingClientRect();
  const place = Math.floor((event.clientY - box.top + scroll.scrollTop) / ROW);
  const x = event.clientX - box.left + scroll.scrollLeft;
  if (place < state.rows.length) return choose(state.rows[place], true);
  const near = state.columns.find((component) => Math.abs(state.middle[component] - x) < WIDE / 2);
  if (near !== undefined) chooseFoot(near);
});
scroll.addEventListener("scroll", draw);
window.addEventListener("resize", draw);
get("search").addEventListener("submit", (event) => { event.preventDefault(); nextHit(1); });
get("words").addEventListener("input", () => search(get("words").value));
get("before").addEventListener("click", () => nextHit(-1));
get("list").addEventListener("click", () => {
  get("components").hidden = !get("components").hidden;
  get("list").setAttribute("aria-expanded", String(!get("components").hidden));
  draw();
});

get("title").textContent = told.title;
get("result").textContent = `result ${told.result}`;
get("result").className = `pill v-${told.result}`;
get("told").textContent = told.summary;
addJumps();
arrange();
