"use strict";
/* The picture: `dot` draws it once, the page puts in the values and the marks. */
const LINK = "http://www.w3.org/1999/xlink";
const view = { root: 0, opened: [], closed: [], centre: null, across: true, zoom: 0, width: 1, height: 1 };
let rows = [], marked = new Map(), drawAsked = 0;

const linkOf = it => it.getAttributeNS(LINK, "href") || "";
const toggle = (list, n, isIn) => isIn ? [...list, n] : list.filter(m => m !== n);

function draw() {
  const mine = ++drawAsked, query = new URLSearchParams({
    root: view.root, opened: view.opened.join(), closed: view.closed.join(), across: view.across ? 1 : 0 });
  if (view.centre !== null) query.set("centre", view.centre);
  const ask = new XMLHttpRequest();
  ask.open("GET", "picture?" + query);
  ask.responseType = "document";
  ask.onload = () => {
    if (mine !== drawAsked) return;
    if (ask.status === 200 && ask.responseXML) put(document.importNode(ask.responseXML.documentElement, true), ask.getResponseHeader("X-Boxes") || "");
    else at("picture").replaceChildren(make("p", { textContent: ask.status === 501 ?
      "There is no dot here (apt-get install graphviz), so there is no picture. All else works." : "No picture was made." }));
  };
  ask.onerror = () => failed(new TypeError());
  ask.send();
}
function put(svg, boxes) {
  const [, , width, height] = svg.getAttribute("viewBox").split(" ").map(Number);
  Object.assign(view, { width, height, zoom: 0 });
  for (const it of svg.querySelectorAll("title")) it.remove();
  for (const it of svg.querySelectorAll("a")) {
    it.setAttribute("tabindex", "-1");
    it.setAttribute("aria-label", it.getAttributeNS(LINK, "title") || "");
  }
  svg.querySelector("g:not([id^=a_n]) > a")?.setAttribute("tabindex", "0");
  at("picture").replaceChildren(svg);
  rows = rowsOf(svg);
  marked = new Map();
  crumbs(...boxes.split(" of "));
  zoom();
  showPicture();
  if (changed.size) follow();
  else toObserver();
}
/* What is marked: rows with their kind and number, and arrows with the variable at which they begin. */
function rowsOf(svg) {
  const found = [...svg.querySelectorAll("g[id^=a_]")].map(it => {
    const [, kind, number] = /^#([a-z])(\d*)/.exec(linkOf(it.firstElementChild)) || [];
    return { it, kind, n: Number(number), isName: it.id.startsWith("a_n") || it.id === "a_top", isFrame: it.id.startsWith("a_c"),
      isFolded: it.parentElement.classList.contains("folded") };
  });
  for (const it of svg.querySelectorAll("g.edge")) {
    found.push({ it, kind: "edge", n: Number((/\bs(\d+)\b/.exec(it.getAttribute("class")) || [])[1]) });
  }
  return found.filter(row => row.kind && !row.isFrame);
}
function toObserver() {
  const top = at("a_top");
  if (!top || view.root !== 0) return;
  const one = top.getBoundingClientRect(), place = at("picture").getBoundingClientRect();
  if (one.right > place.right || one.bottom > place.bottom) {
    at("picture").scrollBy(one.right - place.right + 20, one.top - (place.top + place.bottom) / 2);
  }
}
function crumbs(drawn, every) {
  const words = model.units[view.root] ? model.units[view.root].split(".") : [], row = [];
  const to = (text, unit, isHere) => make("button", { textContent: text, disabled: isHere, on: () => look(unit) });
  row.push(to("the system", "", !words.length && view.centre === null));
  words.forEach((word, k) => row.push(" › ", to(word, words.slice(0, k + 1).join("."), k === words.length - 1)));
  const centre = view.centre ?? model.observer;
  if (drawn !== every) {
    row.push(make("span", { className: "quiet", textContent: ` ${drawn} of ${every} boxes, around ${centre === null ? "the first" : nameOf(centre)}` }));
  }
  at("crumbs").replaceChildren(...row);
}
function look(unit, centre = null) {
  view.root = Math.max(0, model.units.indexOf(unit));
  view.centre = centre;
  draw();
}
function zoom(by) {
  const svg = at("picture").querySelector("svg"), place = at("picture");
  if (!svg) return;
  const wide = (place.clientWidth - 12) / view.width, high = (place.clientHeight - 12) / view.height;
  if (by) view.zoom = Math.max(0.2, Math.min(4, view.zoom * by));
  else view.zoom = Math.max(wide > 0.66 ? Math.min(wide, 0.78) : 0.78, Math.min(wide, high, 1.3));
  svg.setAttribute("width", view.width * view.zoom);
  svg.setAttribute("height", view.height * view.zoom);
}

/* Only rows whose marks or value are other than before are touched. */
function showPicture() {
  if (!values.length) return;
  for (const row of rows) {
    const [names, text] = looksOf(row), key = names.join(" ") + "=" + text;
    if (marked.get(row) === key) continue;
    for (const name of ["moved", "state", "changed", "can", "cannot", "failed", "reached"]) row.it.classList.toggle(name, names.includes(name));
    if (text !== null) row.it.querySelector("text").textContent = text;
    if (row.kind === "f") row.it.firstElementChild.toggleAttribute("aria-disabled", !enabled.has(row.n));
    marked.set(row, key);
  }
}
function looksOf(row) {
  if (row.kind === "v") return [marks(row.n), row.isName ? null : values[row.n]];
  if (row.kind === "edge") return [marks(row.n), null];
  if (row.kind === "f") return [[enabled.has(row.n) ? "can" : "cannot"], null];
  if (row.kind === "u") return [unitMarks(row.n, row.isFolded), null];
  if (model.observer === null) return [[], null];
  return [[...marks(model.observer), isReached() && "reached"].filter(Boolean), row.isName ? null : values[model.observer]];
}
/* A unit has failed where a state of it is other than at the start; what is in a folded one counts for it. */
const unitParts = new Map();
function unitMarks(u, isFolded) {
  const key = isFolded ? -1 - u : u, unit = model.units[u];
  if (!unitParts.has(key)) {
    unitParts.set(key, model.variables.map((_, n) => n).filter(n => isFolded ? inUnit(unitOf(nameOf(n)), unit) : isState(n) && unitOf(nameOf(n)) === unit));
  }
  const parts = unitParts.get(key);
  return [parts.some(n => isState(n) && isMoved(n)) && "failed", isFolded && parts.some(n => changed.has(n)) && "changed"].filter(Boolean);
}
/* The boxes that show what the step has changed, states first: rows of their own, else the folded unit. */
function shownChanges() {
  const own = [...changed.keys()].sort((a, b) => isState(b) - isState(a)).map(n => at("a_v" + n)).filter(Boolean);
  return own.length ? own : rows.filter(row => row.kind === "u" && row.isFolded && unitMarks(row.n, true).includes("changed")).map(row => row.it);
}
/* The picture moves so that what the step has changed is in view; where it is in view already, it stays. */
function follow() {
  const place = at("picture").getBoundingClientRect();
  at("away").hidden = true;
  if (!at("picture").querySelector("svg") || !changed.size) return;
  const found = shownChanges().map(it => it.getBoundingClientRect());
  at("away").hidden = found.length > 0;
  if (!found.length) return;
  const whole = around(found), isSmall = whole.right - whole.left < place.width && whole.bottom - whole.top < place.height;
  const one = isSmall ? whole : found[0];
  const by = (low, high, from, to) => low >= from + 8 && high <= to - 8 ? 0 : (low + high - from - to) / 2;
  const left = by(one.left, one.right, place.left, place.right), top = by(one.top, one.bottom, place.top, place.bottom);
  if (left || top) at("picture").scrollBy({ left, top, behavior: isCalm() ? "auto" : "smooth" });
}
function around(some) {
  const least = side => Math.min(...some.map(one => one[side])), most = side => Math.max(...some.map(one => one[side]));
  return { left: least("left"), right: most("right"), top: least("top"), bottom: most("bottom") };
}
function showIt() {
  const n = [...changed.keys()].sort((a, b) => isState(b) - isState(a))[0];
  if (n === undefined || isObserver(n)) return;
  const above = unitOf(unitOf(nameOf(n)));
  if (above) look(above);
  else look("", n);
}

/* A unit is chosen: the lists show what is in it. */
function choose(u) {
  const unit = model.units[u], button = (text, does) => make("button", { textContent: text, on: () => { does(); draw(); choose(u); } });
  const row = [make("span", { className: "path", textContent: unit || "the system" })];
  if (unit && model.units.some(other => other !== unit && inUnit(other, unit))) {
    const isFolded = view.closed.includes(u) || rows.some(one => one.kind === "u" && one.n === u && one.isFolded);
    row.push(button("Look inside", () => { view.root = u; view.centre = null; }), button(isFolded ? "Unfold" : "Fold", () => {
      view.closed = toggle(view.closed.filter(n => n !== u), u, !isFolded);
      view.opened = toggle(view.opened.filter(n => n !== u), u, isFolded);
    }));
  }
  at("chosen").hidden = false;
  at("chosen").replaceChildren(...row);
  for (const id of ["find_fire", "find_values"]) at(id).value = unit ? unit + "." : "";
  showFire();
  showValues();
}
function clicked(event) {
  const it = event.target.closest("a");
  if (!it) return;
  event.preventDefault();
  const [, kind, number] = /^#([a-z])(\d*)/.exec(linkOf(it)) || [], n = Number(number);
  for (const other of at("picture").querySelectorAll("a[tabindex='0']")) other.setAttribute("tabindex", "-1");
  it.setAttribute("tabindex", "0");
  if (kind === "v") why(n);
  if (kind === "v" && event.shiftKey) look(model.units[view.root], n);
  if (kind === "f" && enabled.has(n)) fire(labels[n]);
  if (kind === "t" && model.observer !== null) why(model.observer);
  if (kind === "u") choose(n);
}
/* The arrow keys go from box to box. */
function towards(event) {
  const sides = new Map([["ArrowLeft", [-1, 0]], ["ArrowRight", [1, 0]], ["ArrowUp", [0, -1]], ["ArrowDown", [0, 1]]]).get(event.key);
  const it = event.target.closest("a");
  if (!it || !sides && event.key !== "Enter" && event.key !== " ") return;
  event.preventDefault();
  event.stopPropagation();
  if (!sides) return clicked(event);
  const best = nearest(it, sides);
  if (!best) return;
  it.setAttribute("tabindex", "-1");
  best.setAttribute("tabindex", "0");
  best.focus();
  best.scrollIntoView({ block: "nearest", inline: "nearest" });
}
function nearest(it, [right, down]) {
  const middle = one => { const box = one.getBoundingClientRect(); return [box.left + box.width / 2, box.top + box.height / 2]; };
  const [x, y] = middle(it);
  let best = null, least = Infinity;
  for (const other of at("picture").querySelectorAll("a")) {
    if (other === it || other.parentElement.id.startsWith("a_n")) continue;
    const [u, v] = middle(other), along = (u - x) * right + (v - y) * down;
    const far = along + 2.5 * (Math.abs((u - x) * down) + Math.abs((v - y) * right));
    if (along > 2 && far < least) [least, best] = [far, other];
  }
  return best;
}
