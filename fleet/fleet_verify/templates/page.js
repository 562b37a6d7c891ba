"use strict";
// How old the page is, where it is a day or more.
(() => {
  const days = Math.floor((Date.now() - Date.parse(document.getElementById("made").dateTime)) / 86400000);
  const age = document.getElementById("age");
  age.hidden = days < 1;
  age.textContent = `It is ${days} ${days === 1 ? "day" : "days"} old.`;
})();

// Search and filter: the rows that have each word that was typed, and the kind that was chosen. Without this script the page has all rows.
(() => {
  const form = document.getElementById("search");
  if (form === null) return;
  const [words, kind, told] = ["words", "kind", "told"].map((name) => form.elements.namedItem(name));
  const groups = Array.from(document.querySelectorAll("[data-rows]"));
  let rows = null;

  const read = () => groups.flatMap((group) => Array.from(group.children, (row) => ({
    row, group, kinds: (row.dataset.kind ?? "").split(" "), text: row.textContent.toLowerCase(),
  })));

  const search = () => {
    rows ??= read();
    const wanted = words.value.toLowerCase().split(/\s+/).filter((word) => word !== "");
    const found = new Map(groups.map((group) => [group, 0]));
    for (const { row, group, kinds, text } of rows) {
      const isFound = (kind.value === "" || kinds.includes(kind.value)) && wanted.every((word) => text.includes(word));
      row.hidden = !isFound;
      if (isFound) found.set(group, found.get(group) + 1);
    }
    const isAsked = wanted.length > 0 || kind.value !== "";
    let all = 0;
    for (const [group, count] of found) {
      all += count;
      const folded = group.closest("details");
      if (folded !== null && isAsked) folded.open = count > 0;
    }
    told.value = isAsked ? `${all} of ${rows.length} rows` : "";
  };

  // #search=WORDS&kind=KIND, so that what was found can be told to others.
  const begin = () => {
    const asked = new URLSearchParams(location.hash.slice(1));
    words.value = asked.get("search") ?? "";
    kind.value = asked.get("kind") ?? "";
    if (kind.selectedIndex < 0) kind.value = "";
    if (rows !== null || asked.has("search") || asked.has("kind")) search();
  };

  let waiting = 0;
  form.addEventListener("input", () => {
    clearTimeout(waiting);
    waiting = setTimeout(search, 120);
  });
  form.addEventListener("submit", (event) => {
    event.preventDefault();
    search();
  });
  addEventListener("hashchange", begin);
  form.hidden = false;
  begin();
})();

// On paper nothing can be opened: long texts, and machines that do not match, are unfolded there, and folded again afterwards.
(() => {
  let opened = [];
  addEventListener("beforeprint", () => {
    opened = Array.from(document.querySelectorAll(":is(td, th, li) details, details.paper")).filter((each) => !each.open);
    for (const each of opened) each.open = true;
  });
  addEventListener("afterprint", () => {
    for (const each of opened.splice(0)) each.open = false;
  });
})();

// Sorts a table by a column: a button in each head, which turns the order when it is pressed again. Numbers in names count as numbers.
(() => {
  const order = new Intl.Collator("en", { numeric: true });
  const sort = (table, head) => {
    const isDown = head.getAttribute("aria-sort") === "ascending";
    for (const each of table.tHead.rows[0].cells) each.removeAttribute("aria-sort");
    head.setAttribute("aria-sort", isDown ? "descending" : "ascending");
    const body = table.tBodies[0];
    const rows = Array.from(body.rows, (row) => [row.cells[head.cellIndex].textContent.trim(), row]);
    rows.sort(([one], [other]) => (isDown ? order.compare(other, one) : order.compare(one, other)));
    body.append(...rows.map(([, row]) => row));
  };

  for (const table of document.querySelectorAll("table[data-sorts]")) {
    for (const head of table.tHead.rows[0].cells) {
      const button = document.createElement("button");
      button.type = "button";
      button.append(...head.childNodes);
      head.append(button);
      button.addEventListener("click", () => sort(table, head));
    }
  }
})();
