"use strict";
// What the page is told (tools/tpr_tools/chart/page.py). A row is [0, message, word, line, ..] for a sending,
// [1, message, word, line] for what was got, [2, component, text, verdict, line] for what one did by itself.
const told = JSON.parse(document.getElementById("data").textContent);
const SENT = 0, GOT = 1, DID = 2;
const ROW = 26, GUTTER = 58, FOLDED = 30, WIDE = Math.min(Math.max(1000 / told.names.length, 140), 340), FOOT = 74, STUB = 90;
const get = (name) => document.getElementById(name);
const scroll = get("scroll"), view = get("view"), panel = get("panel");

// A message, by the names of its parts.
const message = (place) => {
  const it = told.messages[place];
  return { place, sender: it[0], receiver: it[1], port: it[2], number: it[3], text: told.texts[it[4]], fate: it[5],
    sentRow: it[6], sentLine: it[7], goneRow: it[8], goneLine: it[9], found: it[10] };
};
const name = (component) => told.names[component];
const escaped = (text) => String(text).replace(/[&<>"]/g, (sign) => "&#" + sign.charCodeAt(0) + ";");

// Which components are shown and how, which rows are, and what is chosen: a row, or the foot of a component.
const state = { order: told.names.map((_, place) => place), hidden: new Set(), folded: new Set(),
  rows: [], place: [],
  columns: [], middle: [], chosen: -1, foot: -1, hits: [], hit: new Set(), words: "" };

const wordOf = (row) => row[0] === DID ? row[2] : row[2] || "sent";
const componentsOf = (row) => row[0] === DID ? [row[1]] : row[0] === SENT ? told.messages[row[1]].slice(0, 2) :
  [told.messages[row[1]][1], told.messages[row[1]][0]];

// A row in words, as it is searched in and read out.
function said(row) {
  if (row[0] === DID) return `${name(row[1])}: ${row[2]}`;
  const it = message(row[1]), what = `#${it.number} ${it.text}`;
  if (row[0] === GOT) return `${name(it.receiver)} ${row[2]} ${it.port} from ${name(it.sender)} ${what}`;
  const then = row[2] ? `: ${row[2]} ${it.port}` : "";
  return `${name(it.sender)} sent to ${name(it.receiver)}.${it.port} ${what}${then}`;
}

// ------------------------------------------------------------ Places

function arrange() {
  state.columns = state.order.filter((component) => !state.hidden.has(component));
  let x = GUTTER + 20;
  state.middle = told.names.map(() => -1);
  for (const component of state.columns) {
    const width = state.folded.has(component) ? FOLDED : WIDE;
    state.middle[component] = x + width / 2;
    x += width;
  }
  state.width = x + 140;
  state.rows = [];
  state.place = new Int32Array(told.rows.length).fill(-1);
  told.rows.forEach((row, number) => {
    if (componentsOf(row).some((component) => !state.hidden.has(component) && concerns(row, component))) {
      state.place[number] = state.rows.length;
      state.rows.push(number);
    }
  });
  get("space").style.width = `${state.width}px`;
  get("space").style.height = `${state.rows.length * ROW + FOOT}px`;
  drawNames();
  drawList();
  draw();
}

// What is only sent to a component is seen at it too, and what it got at the sender's end only where it was sent.
const concerns = (row, component) => row[0] !== GOT || component === told.messages[row[1]][1];
