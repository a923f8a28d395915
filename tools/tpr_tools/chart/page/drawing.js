// What is drawn of the rows that are in sight. What the page is told and how it is arranged stands in told.js.

// ------------------------------------------------------------ Drawing

let asked = false;
function draw() {
  if (asked) return;
  asked = true;
  requestAnimationFrame(() => { asked = false; drawNow(); });
}

function drawNow() {
  const top = Math.max(Math.floor(scroll.scrollTop / ROW) - 2, 0);
  const last = Math.min(Math.ceil((scroll.scrollTop + scroll.clientHeight) / ROW) + 2, state.rows.length);
  const y0 = top * ROW, height = Math.min((last - top + 4) * ROW + FOOT, state.rows.length * ROW + FOOT - y0);
  const parts = [];
  for (let place = top; place < last; place++) parts.push(band(place, (place - top) * ROW));
  for (const component of state.columns) parts.push(lifeLine(component, y0, Math.max(height, 0)));
  for (let place = top; place < last; place++)
    parts.push(drawRow(told.rows[state.rows[place]], (place - top) * ROW));
  const footTop = state.rows.length * ROW - y0;
  if (footTop < height) for (const component of state.columns) parts.push(drawFoot(component, footTop));
  for (let place = top; place < last; place++) parts.push(gutter(place, (place - top) * ROW));
  view.style.top = `${y0}px`;
  view.setAttribute("width", state.width);
  view.setAttribute("height", Math.max(height, 0));
  view.innerHTML = parts.join("");
  get("names").firstChild.style.transform = `translateX(${-scroll.scrollLeft}px)`;
}

function band(place, y) {
  const number = state.rows[place];
  let kind = state.hit.has(number) ? "hit" : "";
  if (isOther(number)) kind = "other";
  if (number === state.chosen) kind = "chosen";
  return kind ? `<rect class="band ${kind}" x="0" y="${y}" width="${state.width}" height="${ROW}"/>` : "";
}

function isOther(number) {
  if (state.chosen < 0) return false;
  const mine = told.rows[state.chosen], row = told.rows[number];
  if (mine[0] === DID || number === state.chosen) return false;
  const it = message(mine[1]);
  return (row[0] !== DID && row[1] === mine[1]) || it.goneRow === number;
}

function lifeLine(component, y0, height) {
  const x = state.middle[component], row = told.last[component];
  let last = row < 0 ? 0 : (placeBefore(row) + 1) * ROW - y0;
  last = Math.min(Math.max(last, 0), height);
  return `<path class="life" d="M${x} 0V${last}"/><path class="life over" d="M${x} ${last}V${height}"/>`;
}

// The last row that is shown, up to this one.
function placeBefore(row) {
  let low = 0, high = state.rows.length;
  while (low < high) {
    const middle = (low + high) >> 1;
    if (state.rows[middle] <= row) low = middle + 1; else high = middle;
  }
  return low - 1;
}

function gutter(place, y) {
  const x = scroll.scrollLeft;
  return `<rect x="${x}" y="${y}" width="${GUTTER - 6}" height="${ROW}" fill="#fff" opacity="0.85"/>` +
    `<text class="small end" x="${x + GUTTER - 12}" y="${y + 17}">${state.rows[place] + 1}</text>`;
}

function drawRow(row, y) {
  if (row[0] === DID)
    return pill(state.middle[row[1]], y + ROW / 2, row[2], row[3] || "plain", state.folded.has(row[1]));
  const it = message(row[1]);
  return row[0] === GOT ? drawGot(it, row[2], y) : drawSent(it, row[2], y);
}

function pill(x, y, text, verdict, isFolded) {
  if (x < 0) return "";
  const short = isFolded ? "" : text.length > 34 ? text.slice(0, 33) + "…" : text;
  const width = isFolded ? 12 : short.length * 7.3 + 16;
  return `<rect class="v-${verdict}" x="${x - width / 2}" y="${y - 9}" width="${width}" height="18" rx="9"/>` +
    `<text class="middle" x="${x}" y="${y + 4}">${escaped(short)}</text>`;
}

function line(x1, x2, y, kind, end) {
  const back = x1 < x2 ? -1 : 1;
  let head = "";
  if (end === "took" || end === "found")
    head = `M${x2 + 8 * back} ${y - 4}L${x2} ${y}L${x2 + 8 * back} ${y + 4}`;
  if (end === "dropped") head = `M${x2 - 5} ${y - 5}l10 10m0 -10l-10 10`;
  if (end === "left" || end === "discarded" || end === "waits")
    head = `M${x2 + 2 * back} ${y - 5}h${10 * back}v10h${-10 * back}z`;
  if (end === "discarded") head += `m0 0l${10 * back} 10m0 -10l${-10 * back} 10`;
  return `<path class="arrow ${kind}" d="M${x1} ${y}H${x2}${head}"/>`;
}

// Where a text can be seen, of what lies between two places.
function seen(x1, x2) {
  const from = Math.max(Math.min(x1, x2), scroll.scrollLeft + GUTTER);
  const to = Math.min(Math.max(x1, x2), scroll.scrollLeft + scroll.clientWidth);
  return to > from ? [from, to] : [Math.min(x1, x2), Math.max(x1, x2)];
}

function cut(text, width) {
  const most = Math.max(Math.floor(width / 7.3), 3);
  return text.length <= most ? text : text.slice(0, most - 1) + "…";
}

function drawSent(it, word, y) {
  const x1 = state.middle[it.sender], x2 = state.middle[it.receiver], at = y + 18;
  if (it.sender === it.receiver) return drawOwn(it, word || "waits", x1, y);
  if (x1 < 0) return stub(x2, it, `from ${name(it.sender)} `, word || "waits", at, -1);
  if (x2 < 0) return stub(x1, it, `to ${name(it.receiver)} `, word || "waits", at, 1);
  const [from, to] = seen(x1, x2), toRight = x1 < x2;
  // An end that one doesn't see is named, with the message's number.
  const source = `from ${name(it.sender)}`, target = `to ${name(it.receiver)}`;
  const before = from > Math.min(x1, x2) + 20 ? `‹ ${toRight ? source : target} ` : "";
  const behind = to < Math.max(x1, x2) - 20 ? ` ${toRight ? target : source} ›` : "";
  const what = before || behind ? `#${it.number} ${it.text}` : it.text;
  const text = before + cut(what, to - from - 24 - 7.3 * (before.length + behind.length)) + behind;
  const outside = word ? besideEnd(x2, at, toRight, `${word} ${it.port}`) : "";
  return line(x1, x2, at, word || "waits", word || "waits") +
    `<text class="middle halo" x="${(from + to) / 2}" y="${at - 5}">${escaped(text)}</text>` + outside;
}

function besideEnd(x, y, toRight, text) {
  const at = `x="${toRight ? x + 6 : x - 6}" y="${y + 4}"`;
  return `<text class="small halo ${toRight ? "" : "end"}" ${at}>${escaped(text)}</text>`;
}

// The end of an arrow of which the other end stands in another row, or at a component that is hidden.
function stub(x, it, told, word, y, way) {
  const text = cut(`${told}#${it.number} ${it.text}`, 320) + (way > 0 ? "" : ` ${word} ${it.port}`);
  const begins = way > 0 ? x : x + STUB, stops = way > 0 ? x + STUB : x;
  return line(begins, stops, y, word, word) +
    `<text class="halo" x="${x + STUB + 8}" y="${y + 4}">${escaped(text)}</text>`;
}

function drawGot(it, word, y) {
  const x = state.middle[it.receiver], at = y + 15;
  const toRight = state.middle[it.sender] >= 0 && state.middle[it.sender] < x, back = toRight ? -1 : 1;
  const text = escaped(cut(`from ${name(it.sender)} #${it.number} ${it.text}`, 300));
  return line(x + back * STUB / 2, x, at, word, word) +
    `<text class="halo ${toRight ? "end" : ""}" x="${x + back * (STUB / 2 + 6)}" y="${at + 4}">${text}</text>` +
    besideEnd(x, at, toRight, `${word} ${it.port}`);
}

function drawOwn(it, word, x, y) {
  if (x < 0) return "";
  return `<path class="arrow ${word}" d="M${x} ${y + 6}h22v13h-22m8 -4l-8 4l8 4"/>` +
    `<text class="halo" x="${x + 30}" y="${y + 17}">${escaped(cut(it.text, WIDE))} ` +
    `<tspan class="small">${escaped(word === "waits" ? "" : word + " " + it.port)}</tspan></text>`;
}

function drawFoot(component, y) {
  const x = state.middle[component], [end, verdict, left] = told.feet[component];
  const isFolded = state.folded.has(component), parts = [];
  if (state.foot === component)
    parts.push(`<rect class="band chosen" x="${x - 60}" y="${y}" width="120" height="${FOOT}"/>`);
  if (!isFolded)
    parts.push(`<text class="middle halo" x="${x}" y="${y + 20}">${escaped(cut(end, WIDE - 8))}</text>`);
  if (!isFolded && left.length)
    parts.push(`<text class="small middle halo" x="${x}" y="${y + 66}">${left.length} left</text>`);
  return parts.join("") + pill(x, y + 40, cut(verdict, WIDE - 20), verdict, isFolded);
}
