"use strict";
/* What the page knows, how it asks, and how it moves. Every answer is asked of the program anew: the page sends all steps. */
const at = id => document.getElementById(id);
const MOST_SHOWN = 300;
const PAUSE = { first: 500, next: 900 };
let model, labels = [];
let steps = [], now = 0, cutNumber = 0;
let start = [], moments = [[]], enabled = new Set(), values = [], changed = new Map();
let asked = 0, playing = 0;

/* Elements are made, and text is put in as text: nothing of the model or of its remarks is ever read as markup. */
function make(tag, more = {}, ...inner) {
  const it = document.createElement(tag);
  for (const [name, value] of Object.entries(more)) {
    if (name === "on") it.addEventListener("click", value);
    else if (name in it && name !== "list") it[name] = value;
    else it.setAttribute(name, value);
  }
  it.append(...inner);
  return it;
}
const quiet = text => make("p", { className: "quiet", textContent: text });
const unitOf = path => path.slice(0, Math.max(0, path.lastIndexOf(".")));
const lastOf = path => path.slice(path.lastIndexOf(".") + 1);
const inUnit = (path, unit) => unit === "" || path === unit || path.startsWith(unit + ".");
const isCalm = () => matchMedia("(prefers-reduced-motion: reduce)").matches;

async function call(name, body) {
  const answer = await fetch(name, body === undefined ? {} : {
    method: "POST", headers: { "Content-Type": "application/json" }, body: JSON.stringify(body) });
  if (!answer.ok) throw new Error(await answer.text());
  return answer.json();
}
function notice(text, ...more) {
  at("notice").hidden = !text;
  at("notice").replaceChildren(text || "", ...more);
}
function failed(error) {
  notice(error instanceof TypeError ? "There is no answer: the program `open` has ended. Start it again." : error.message);
}

/* Variables and observers have numbers: the observers come behind the variables. Names are only ever shown. */
const isObserver = n => n >= model.variables.length;
const isState = n => !isObserver(n) && model.variables[n][1] === 1;
const observerOf = n => model.observers[n - model.variables.length];
const nameOf = n => isObserver(n) ? observerOf(n)[0] : model.variables[n][0];
const isMoved = n => values[n] !== start[n];
const marks = n => [isMoved(n) && "moved", isState(n) && "state", changed.has(n) && "changed"].filter(Boolean);
const isReached = () => model.observer !== null && values[model.observer] === model.value;

/* Goes to a moment of these steps. */
async function go(to, all = steps, how = {}) {
  const mine = ++asked;
  if (!how.play) stop();
  let answer;
  try {
    answer = await call("run", { steps: all, at: Math.max(0, Math.min(to, all.length)) });
  } catch (error) {
    return failed(error);
  }
  if (mine !== asked) return;
  const before = steps;
  if (answer.start) {
    start = answer.start;
    moments = answer.moments;
  }
  steps = answer.fault && answer.moments.length ? all.slice(0, answer.moments.length - 1) : all;
  now = Math.min(answer.at, steps.length);
  enabled = new Set(answer.enabled || []);
  cutNumber = how.cut ?? (all === before ? cutNumber : 0);
  said(answer);
  takeValues();
  sessionStorage.setItem("steps " + model.sum, JSON.stringify([steps, now, cutNumber]));
  show();
}
function said(answer) {
  at("took").textContent = `last answer ${answer.took} ms`;
  if (answer.fault) {
    notice((answer.moments.length ? "This step is not taken. " : "") + answer.fault);
    stop();
  } else if (answer.changed) {
    notice("The file of the model has changed. What is shown is the text as it was. ", make("button", { textContent: "Load it", on: reload }));
  } else notice("");
}
async function reload() {
  try {
    await call("reload", {});
    location.reload();
  } catch (error) {
    failed(error);
  }
}
/* The values at this moment, and what the last step changed with the values before. */
function takeValues() {
  const put = (some, moment) => { for (const [n, value] of moment) some[n] = value; };
  const before = [...start];
  for (const moment of moments.slice(1, now)) put(before, moment);
  values = [...before];
  changed = new Map();
  if (now === 0) return;
  put(values, moments[now]);
  for (const [n] of moments[now]) changed.set(n, before[n]);
}
const fire = label => go(now + 1, [...steps.slice(0, now), label]);

/* A cut set is a history like any other: its events in firing order. */
async function playCut(number, events) {
  await go(isCalm() ? events.length : 0, events, { cut: number });
  if (!isCalm() && cutNumber === number) play();
}
function play() {
  stop();
  if (now >= steps.length) return;
  at("play").textContent = "❚❚ Stop";
  const step = async () => {
    await go(now + 1, steps, { play: true });
    if (playing && now < steps.length) playing = setTimeout(step, PAUSE.next);
    else stop();
  };
  playing = setTimeout(step, PAUSE.first);
}
function stop() {
  clearTimeout(playing);
  playing = 0;
  at("play").textContent = "▶ Play";
}

function show() {
  showObservers();
  showTime();
  showPicture();
  follow();
  showChanged();
  showFire();
  showValues();
  for (const row of document.querySelectorAll(".cut")) row.toggleAttribute("aria-current", Number(row.dataset.number) === cutNumber);
  if (reasonOf !== null) why(reasonOf, false);
}
