"use strict";
// The page is whole without this: it filters the rows, and opens the one that a link names.
const rows = [...document.querySelectorAll(".row")];
const texts = rows.map((row) => row.querySelector("summary").textContent.toLowerCase());
const words = document.getElementById("words");
const form = document.querySelector("form");

function filter() {
  const state = form.elements.state.value;
  const asked = words.value.toLowerCase().split(/\s+/);
  let count = 0;
  rows.forEach((row, place) => {
    const text = texts[place];
    row.hidden = (state !== "all" && row.dataset.state !== state) || !asked.every((word) => text.includes(word));
    count += row.hidden ? 0 : 1;
  });
  document.getElementById("told").textContent = count === rows.length ? "" : `${count} of ${rows.length} shown`;
}

function showAll() {
  words.value = "";
  form.elements.state.value = "all";
  filter();
}

function nameIn(link) {
  try {
    return decodeURIComponent(link.slice(1));
  } catch {
    return ""; // a link that isn't ours
  }
}

function goTo(link) {
  const named = document.getElementById(nameIn(link));
  const row = named && named.closest(".row");
  if (!row) return;
  if (row.hidden) showAll();
  row.open = true;
  row.scrollIntoView();
}

document.querySelector(".filter").hidden = false;
form.addEventListener("input", filter);
form.addEventListener("submit", (event) => event.preventDefault());
addEventListener("hashchange", () => goTo(location.hash));
addEventListener("keydown", (event) => {
  if (event.key === "/" && event.target !== words) {
    event.preventDefault();
    words.focus();
  } else if (event.key === "Escape") {
    showAll();
  }
});
filter();
goTo(location.hash);
