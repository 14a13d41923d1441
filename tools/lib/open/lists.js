"use strict";
/* The lists: observers, steps, what changed, what can be fired, values and cut sets. */
let size = "", cutsShown = 100, cutsAsked = 0;

function showObservers() {
  const rows = model.observers.map(([name], k) => {
    const n = model.variables.length + k, isChosen = n === model.observer;
    const it = make("button", { textContent: `${name} = ${values[n] ?? "?"}`, title: "why", on: () => why(n) });
    it.className = [...marks(n), isChosen && "chosen", isChosen && isReached() && "reached"].filter(Boolean).join(" ");
    return [isChosen ? 0 : 1, make("li", {}, it)];
  });
  at("observers").replaceChildren(...rows.sort((a, b) => a[0] - b[0]).map(row => row[1]));
}

/* The steps as a row, a slider and a script. */
function showTime() {
  const step = (text, to, isLater) => make("li", {}, make("button", { textContent: text, className: isLater ? "later" : "", on: () => go(to) }));
  const row = [step("start", 0), ...steps.map((label, n) => step(`${n + 1} ${label}`, n + 1, n >= now))];
  row[now].firstChild.setAttribute("aria-current", "step");
  const hadFocus = at("steps").contains(document.activeElement);
  at("steps").replaceChildren(...row);
  rove(at("steps"), row[now].firstChild);
  if (hadFocus) row[now].firstChild.focus();
  const strip = at("steps"), here = row[now];
  strip.scrollLeft = here.offsetLeft - strip.offsetLeft - strip.clientWidth / 2 + here.offsetWidth / 2;
  Object.assign(at("slider"), { max: steps.length, disabled: steps.length === 0 });
  at("slider").value = now;
  at("slider").setAttribute("aria-valuetext", now ? `after ${steps[now - 1]}` : "start");
  at("where").textContent = (cutNumber ? `cut set ${cutNumber}: ` : "") + `step ${now} of ${steps.length}`;
  at("first").disabled = at("back").disabled = now === 0;
  at("forward").disabled = now === steps.length;
  at("play").disabled = now === steps.length && !playing;
  at("clear").disabled = steps.length === 0;
  at("lines").textContent = steps.slice(0, now).map(s => "fire " + s).join("\n") || "// nothing has been fired";
  const reached = isReached() ? `; ${nameOf(model.observer)} = ${model.value}` : "";
  at("said").textContent = now ? `${steps[now - 1]}: ${changed.size} values changed${reached}` : "start";
}

function valueRow(n, old) {
  const it = make("button", { className: ["value", ...marks(n)].join(" "), on: () => why(n), title: "why" },
    make("span", { textContent: nameOf(n) }), make("em", { textContent: values[n] }));
  if (old !== undefined) it.lastChild.before(make("s", { textContent: `${old} →` }));
  return it;
}
function showChanged() {
  at("changed_by").textContent = now ? `Changed by ${steps[now - 1]} (${changed.size})` : "Changed by the last step";
  const rows = [...changed].slice(0, MOST_SHOWN).map(([n, old]) => make("li", {}, valueRow(n, old)));
  const none = now ? "Nothing." : "Nothing has been fired. Fire an event in the list, or ▸ in the picture.";
  at("changed").replaceChildren(...(rows.length ? rows : [make("li", { className: "quiet", textContent: none })]));
  rove(at("changed"));
}

const wordsIn = id => at(id).value.trim().split(/\s+/).filter(Boolean);
const more = count => quiet(`${count - MOST_SHOWN} more: search for them.`);

function showFire() {
  const words = wordsIn("find_fire"), groups = new Map();
  const found = [...enabled].filter(k => words.every(word => labels[k].includes(word)));
  for (const k of found.slice(0, MOST_SHOWN)) {
    const unit = unitOf(labels[k]);
    groups.set(unit, [...(groups.get(unit) || []), k]);
  }
  const rows = [...groups].map(([unit, some]) => make("div", { className: "unit" },
    make("span", { className: "path", textContent: unit || "the system" }), ...some.map(fireButton)));
  if (found.length > MOST_SHOWN) rows.push(more(found.length));
  if (!found.length) rows.push(quiet(words.length ? "No event that can be fired has these words." : "Nothing can be fired."));
  keepFocus(at("list_fire"), rows);
  at("count_fire").textContent = enabled.size;
}
function fireButton(k) {
  const isDropped = model.dropped.includes(k), title = `fire ${labels[k]}${isDropped ? ", which is left out of the cut sets" : ""}`;
  return make("button", { textContent: lastOf(labels[k]), title, className: isDropped ? "dropped" : "", on: () => fire(labels[k]) });
}

function showValues() {
  const words = wordsIn("find_values"), isMovedOnly = at("only").checked;
  const found = model.variables.map((_, n) => n).filter(n => (!isMovedOnly || isMoved(n)) && words.every(word => nameOf(n).includes(word)));
  const rows = found.slice(0, MOST_SHOWN).map(n => valueRow(n));
  if (found.length > MOST_SHOWN) rows.push(more(found.length));
  if (!found.length) rows.push(quiet("No value."));
  keepFocus(at("list_values"), rows);
  at("count_values").textContent = model.variables.length;
}

/* Cut sets: the server has the list, and sends a page of it. */
async function showCuts() {
  const mine = ++cutsAsked, query = new URLSearchParams({ text: at("find_cuts").value, size, first: 0, most: cutsShown });
  let answer;
  try {
    answer = await call("cuts?" + query);
  } catch (error) {
    return failed(error);
  }
  if (mine !== cutsAsked) return;
  at("count_cuts").textContent = answer.count ?? "";
  if (answer.state === "listed") {
    showSizes(answer);
    keepFocus(at("list_cuts"), cutRows(answer));
  } else {
    at("list_cuts").replaceChildren(...noCuts(answer));
    if (answer.state === "running" || answer.state === "refused" && !answer.is_whole) setTimeout(showCuts, 700);
  }
}
function noCuts(answer) {
  if (answer.state === "off") return [quiet("Start `open` with --observer O for the cut sets of O.")];
  if (answer.state === "running") return [quiet(`The program lists them, for ${answer.seconds} s now: ${answer.count} so far.`)];
  return [make("p", { textContent: "The program refuses to list them:" }), make("pre", { textContent: answer.why || answer.text })];
}
function showSizes(answer) {
  at("sizes").replaceChildren(...[["", answer.count], ...answer.sizes].map(([n, count]) => make("button", {
    textContent: n === "" ? `all ${count}` : `${n} event${n === 1 ? "" : "s"}: ${count}`, "aria-pressed": String(n) === size,
    on: () => { size = String(n); cutsShown = 100; showCuts(); } })));
}
function cutRows(answer) {
  const rows = [];
  if (answer.kept < answer.count) {
    rows.push(quiet(`Of the ${answer.count} cut sets, the ${answer.kept} with the fewest events are here; the command cuts lists all.`));
  }
  let last = -1;
  for (const [number, events] of answer.cuts) {
    if (events.length !== last) {
      last = events.length;
      rows.push(make("h3", { textContent: last === 1 ? "one event" : `${last} events` }));
    }
    rows.push(cutRow(number, events));
  }
  if (!answer.cuts.length) rows.push(quiet(answer.count ? "No cut set has these." : "No set of events brings it about."));
  if (answer.found > answer.cuts.length && cutsShown < 1000) {
    rows.push(make("button", { textContent: `${answer.found - answer.cuts.length} more`, on: () => { cutsShown += 450; showCuts(); } }));
  } else if (answer.found > answer.cuts.length) rows.push(quiet(`${answer.found - answer.cuts.length} more: search for them.`));
  return rows;
}
function cutRow(number, events) {
  const it = make("button", { className: "cut", title: "play it", on: () => playCut(number, events) }, make("small", { textContent: number }),
    make("span", { textContent: events.length ? events.join(", ") : "no event: it holds at the start" }));
  it.dataset.number = number;
  it.toggleAttribute("aria-current", number === cutNumber);
  return it;
}

/* A list has one place for Tab; the arrows go within it. */
function rove(list, first) {
  const all = [...list.querySelectorAll("button")], it = first || all[0];
  for (const other of all) other.tabIndex = -1;
  if (it) it.tabIndex = 0;
}
function keepFocus(list, rows) {
  const place = [...list.querySelectorAll("button")].indexOf(document.activeElement);
  list.replaceChildren(...rows);
  rove(list);
  if (place < 0) return;
  const all = [...list.querySelectorAll("button")], it = all[Math.min(place, all.length - 1)];
  if (!it) return list.closest("[role=tabpanel]").querySelector("input").focus();
  rove(list, it);
  it.focus();
}
function within(event) {
  const list = event.currentTarget, all = [...list.querySelectorAll("button")], place = all.indexOf(document.activeElement);
  const to = new Map([["ArrowDown", place + 1], ["ArrowUp", place - 1], ["Home", 0], ["End", all.length - 1]]).get(event.key);
  if (to === undefined || place < 0) return;
  event.preventDefault();
  event.stopPropagation();
  if (to < 0) {
    list.parentElement.querySelector("input[type=search]")?.focus();
    return;
  }
  const it = all[Math.min(to, all.length - 1)];
  rove(list, it);
  it.focus();
}
