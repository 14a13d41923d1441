"use strict";
/* Filters, orders and CSV of the lists, and the pictures at their root. All rows are there without this. */
const MORE = 500;
const unitOf = label => label.split("#")[0].split(".").slice(0, -1).join(".");
const inUnit = (label, unit) => unit === "the main block" ? unitOf(label) === "" : unitOf(label) === unit || unitOf(label).startsWith(unit + ".");

function save(name, rows) {
  const cell = it => /[",\n]/.test(it) ? `"${String(it).replaceAll('"', '""')}"` : it;
  const link = document.createElement("a");
  link.href = URL.createObjectURL(new Blob([rows.map(row => row.map(cell).join(",") + "\r\n").join("")], { type: "text/csv" }));
  link.download = name + ".csv";
  link.click();
}

/* The cut sets of one observer: those in rows, and those in the data, whose rows are made when they are shown. */
function cutSets(section) {
  const part = name => section.querySelector("." + name), list = part("list"), bodies = [...list.tBodies];
  const { labels, trees, rest } = JSON.parse(part("rest").textContent);
  const cuts = bodies.flatMap(body => [...body.rows].slice(1).map(row => ({ row, body, isThere: true,
    n: Number(row.cells[0].textContent), events: [...row.querySelectorAll("b")].map(b => b.textContent) })));
  for (const [n, ...events] of rest) cuts.push({ n, events: events.map(e => labels[e]), numbers: events });
  let found = cuts, most = MORE;

  function rowOf(cut) {
    if (cut.row) return cut.row;
    cut.row = document.createElement("tr");
    cut.row.insertCell().textContent = cut.n;
    const cell = cut.row.insertCell();
    cut.numbers.forEach((e, k) => {
      const add = (tag, text) => cell.append(Object.assign(document.createElement(tag), { textContent: text }), " ");
      if (k > 0) add("i", trees[e] < 0 ? "," : trees[e] === trees[cut.numbers[k - 1]] ? "then" : "and");
      add("b", labels[e]);
    });
    return cut.row;
  }
  function bodyOf(some) {
    const body = document.createElement("tbody");
    body.append(...some.map(rowOf));
    return body;
  }
  function show() {
    const [size, unit, name] = ["size", "unit", "name"].map(word => part(word).value);
    found = cuts.filter(cut => (size === "" || cut.events.length === Number(size)) &&
      (unit === "" || cut.events.some(e => inUnit(e, unit))) && (name === "" || cut.events.some(e => e.includes(name))));
    const kept = new Set(found), others = found.filter(cut => !cut.isThere), shown = others.slice(0, most);
    for (const cut of cuts) if (cut.isThere) cut.row.hidden = !kept.has(cut);
    if (part("by").value === "listed") {
      list.replaceChildren(bodyOf([...cuts.filter(cut => cut.isThere), ...shown].sort((a, b) => a.n - b.n)));
    } else {
      const full = new Set(found.map(cut => cut.body));
      for (const cut of cuts) if (cut.isThere) cut.body.append(cut.row);
      for (const body of bodies) body.hidden = !full.has(body);
      list.replaceChildren(...bodies, bodyOf(shown));
    }
    part("more").hidden = shown.length === others.length;
    part("shown").textContent = `${found.length} of ${cuts.length} cut sets`;
  }
  for (const word of ["size", "unit", "name", "by"]) part(word).addEventListener("input", () => { most = MORE; show(); });
  part("more").addEventListener("click", () => { most += MORE; show(); });
  part("csv").addEventListener("click", () => save(section.id, [["line", "events", "labels"], ...found.map(cut => [cut.n, cut.events.length, ...cut.events])]));
  return { part, show };
}

/* A button for each other table of data. */
function tables() {
  for (const table of document.querySelectorAll("#effects table, #fmea table")) {
    const button = Object.assign(document.createElement("button"), { textContent: "Save as CSV" });
    button.addEventListener("click", () => save(table.closest("section").id, [...table.rows].map(row => [...row.cells].map(cell => cell.textContent))));
    table.before(button);
  }
}

/* A picture begins where its root is: the flows at the observer, which is at their end. */
function roots() {
  for (const place of document.querySelectorAll(".picture")) {
    const titles = [...place.querySelectorAll("g.node > title")];
    const root = (titles.find(title => title.textContent === "top") || titles[0])?.parentElement;
    if (!root || place.closest("#modes")) continue;
    const one = root.getBoundingClientRect(), all = place.getBoundingClientRect();
    place.scrollTop = (one.top + one.bottom) / 2 - all.top - place.clientHeight / 2;
    if (one.right > all.right) place.scrollLeft = one.right - all.right + 20;
  }
}

document.body.classList.add("script");
const sections = [...document.querySelectorAll("section.cuts")].filter(section => section.querySelector(".rest")).map(cutSets);
const wanted = new URLSearchParams(location.hash.slice(1));
for (const word of ["size", "unit", "name", "by"]) if (wanted.has(word) && sections.length) sections[0].part(word).value = wanted.get(word);
for (const one of sections) one.show();
tables();
roots();
