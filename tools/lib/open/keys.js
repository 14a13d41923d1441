"use strict";
/* Tabs, keys, the splitter, and the beginning. */
const TABS = ["fire", "values", "cuts"];

function tab(name, isFocused) {
  for (const one of TABS) {
    at(one).hidden = one !== name;
    at("tab_" + one).setAttribute("aria-selected", one === name);
    at("tab_" + one).tabIndex = one === name ? 0 : -1;
  }
  if (isFocused) at("tab_" + name).focus();
}
const openTab = () => TABS.find(one => !at(one).hidden);

function typing(event) {
  const panel = event.target.closest("[role=tabpanel]");
  if (event.key === "ArrowDown") {
    event.preventDefault();
    panel.querySelector(".list button")?.focus();
  }
  if (event.key === "Escape") event.target.blur();
  const hits = panel.querySelectorAll(".list button");
  if (event.key === "Enter" && hits.length === 1) {
    hits[0].click();
    event.target.select();
  }
}
const KEYS = new Map([
  ["ArrowLeft", () => now > 0 && go(now - 1)], ["ArrowRight", () => now < steps.length && go(now + 1)],
  ["Home", () => go(0)], ["End", () => go(steps.length)],
  ["/", () => at("find_" + openTab()).focus()], ["f", () => tab("fire", true)], ["v", () => tab("values", true)], ["c", () => tab("cuts", true)],
  ["p", () => (at("picture").querySelector("a[tabindex='0']") || at("picture")).focus()],
  ["+", () => zoom(1.25)], ["-", () => zoom(0.8)], ["0", () => zoom()], ["?", () => at("help").click()],
  [" ", () => playing ? stop() : play()],
]);
function pressed(event) {
  if (event.ctrlKey || event.metaKey || event.altKey || !model) return;
  if (event.target.matches("input[type=search]")) return typing(event);
  if (event.target.matches("[role=tab]") && ["ArrowLeft", "ArrowRight"].includes(event.key)) {
    event.preventDefault();
    return tab(TABS[(TABS.indexOf(openTab()) + (event.key === "ArrowLeft" ? 2 : 1)) % 3], true);
  }
  if (event.target.matches("#slider, [role=separator]")) return;
  if (event.key === " " && event.target.matches("button, summary, a, input")) return;
  const does = KEYS.get(event.key);
  if (!does) return;
  event.preventDefault();
  does();
}
function toggles(button, part) {
  at(button).addEventListener("click", () => {
    at(part).hidden = !at(part).hidden;
    at(button).setAttribute("aria-expanded", !at(part).hidden);
  });
}
/* The splitter between the lists and the reasons: dragged, or by the arrow keys. */
function split(share) {
  const part = Math.max(15, Math.min(85, Math.round(share)));
  document.querySelector("main").style.setProperty("--lists", `${part}fr`);
  document.querySelector("main").style.setProperty("--reasons", `${100 - part}fr`);
  at("splitter").setAttribute("aria-valuenow", part);
}
function splits() {
  const bar = at("splitter"), place = document.querySelector("main");
  bar.addEventListener("pointerdown", event => bar.setPointerCapture(event.pointerId));
  bar.addEventListener("pointermove", event => {
    const whole = place.getBoundingClientRect();
    if (bar.hasPointerCapture(event.pointerId)) split(100 * (event.clientY - whole.top) / whole.height);
  });
  bar.addEventListener("keydown", event => {
    const by = new Map([["ArrowUp", -5], ["ArrowDown", 5]]).get(event.key);
    if (by) {
      event.preventDefault();
      split(Number(bar.getAttribute("aria-valuenow")) + by);
    }
  });
}

function listen() {
  document.addEventListener("keydown", pressed);
  for (const one of TABS) at("tab_" + one).addEventListener("click", () => tab(one));
  for (const list of ["list_fire", "list_values", "list_cuts", "changed"]) at(list).addEventListener("keydown", within);
  const clicks = { first: () => go(0), back: () => go(now - 1), forward: () => go(now + 1), play: () => playing ? stop() : play(),
    clear: () => go(0, []), larger: () => zoom(1.25), smaller: () => zoom(0.8), fit: () => zoom(), show_it: showIt, picture: clicked,
    turn: () => { view.across = !view.across; draw(); } };
  for (const [id, does] of Object.entries(clicks)) at(id).addEventListener("click", does);
  const inputs = { slider: () => go(Number(at("slider").value)), find_fire: showFire, find_values: showValues, only: showValues,
    find_cuts: () => { cutsShown = 100; showCuts(); } };
  for (const [id, does] of Object.entries(inputs)) at(id).addEventListener("input", does);
  at("picture").addEventListener("keydown", towards);
  toggles("help", "keys");
  toggles("script", "lines");
  splits();
}
function head() {
  document.title = `${model.file}${model.observer === null ? "" : ": " + nameOf(model.observer)}`;
  at("file").textContent = model.file;
  at("size").textContent = [...model.size.matchAll(/(\w+) (\d+)/g)].map(([, word, n]) => `${n} ${n === "1" ? word.slice(0, -1) : word}`).join(", ");
  at("proved").textContent = `The program is ${model.proved}. This page is not proved.`;
  at("sum").textContent = `sha-256 of the model ${model.sum.slice(0, 12)}…`;
  at("words").textContent = model.words.join(" ");
}
/* The steps that were kept over a reload of the page. */
function kept() {
  try {
    const found = JSON.parse(sessionStorage.getItem("steps " + model.sum));
    if (Array.isArray(found) && Array.isArray(found[0])) return found;
  } catch { /* what was kept is none */ }
  return [[], 0, 0];
}
async function begin() {
  try {
    model = await call("model");
  } catch (error) {
    return failed(error);
  }
  labels = model.ways.map(way => way[0]);
  head();
  listen();
  const [all, to, cut] = kept();
  await go(to, all, { cut });
  draw();
  showCuts();
}
begin();
