// What pages.py looks at on the page of a suite.

function shownRows() {
  return [...document.querySelectorAll(".row")].filter((row) => !row.hidden);
}

function isOpenRowInSight() {
  const box = document.querySelector(".row[open] summary").getBoundingClientRect();
  return 0 <= box.top && box.top < innerHeight;
}

// The states of rows of which a cell begins, in the same line, before the one at its left has ended with some room
// behind it.
function rowsOfTouchingCells() {
  const touch = (one, other) =>
    one.left < other.left && one.right + 4 > other.left && one.top < other.bottom && other.top < one.bottom;
  const cellsOf = (row) => [...row.querySelectorAll("summary span")].map((it) => it.getBoundingClientRect());
  const touching = (cells) => cells.some((one) => cells.some((other) => touch(one, other)));
  return rows.filter((row) => touching(cellsOf(row))).map((row) => row.dataset.state);
}

// The contrast of each text and what it stands on, with its beginning, the least first.
function contrastsOfTexts() {
  const numbers = (colour) => colour.match(/[0-9.]+/g).map(Number);
  const linear = (it) => (it <= 0.03928 ? it / 12.92 : ((it + 0.055) / 1.055) ** 2.4);
  const light = (colour) => {
    const [r, g, b] = numbers(colour).map((it) => linear(it / 255));
    return 0.2126 * r + 0.7152 * g + 0.0722 * b;
  };
  const ground = (element) => {
    for (let it = element; it; it = it.parentElement) {
      const colour = getComputedStyle(it).backgroundColor;
      if ((numbers(colour)[3] ?? 1) > 0) return colour;
    }
    throw new Error("the page has no ground");
  };
  const found = [];
  const walk = document.createTreeWalker(document.body, NodeFilter.SHOW_TEXT);
  for (let text = walk.nextNode(); text; text = walk.nextNode()) {
    const element = text.parentElement;
    if (!text.data.trim() || !element.checkVisibility()) continue;
    const [low, high] = [light(getComputedStyle(element).color), light(ground(element))].sort((a, b) => a - b);
    found.push([(high + 0.05) / (low + 0.05), text.data.trim().slice(0, 40)]);
  }
  return found.sort((a, b) => a[0] - b[0]);
}
