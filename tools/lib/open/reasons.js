"use strict";
/* Why a value is what it is: the line of `explain` with the line of the text, open along what the last step changed. */
const DEEP = 8, MOST_OPEN = 60, MOST_ASKED = 200;
let reasonOf = null, whyAsked = 0, whySaid = new Map(), whyKey = "";

async function why(n, isNew = true) {
  const mine = ++whyAsked;
  reasonOf = n;
  let one;
  try {
    one = await whyOf(n, 0, { left: MOST_OPEN });
  } catch (error) {
    return failed(error);
  }
  if (mine !== whyAsked) return;
  at("why").replaceChildren(one);
  for (const it of document.querySelectorAll("#picture .asked")) it.classList.remove("asked");
  for (const id of [`a_v${n}`, `a_n${n}`]) at(id)?.classList.add("asked");
  if (isNew && matchMedia("(max-width: 820px)").matches) at("reason").scrollIntoView({ block: "nearest" });
}

/* A value that folds out to its reasons. `room` is shared by all that open at once, so a wide story stays short. */
async function whyOf(n, depth, room) {
  const summary = make("summary", { className: changed.has(n) ? "changed" : "" }, `${nameOf(n)} = `,
    make("em", { textContent: values[n], className: marks(n).join(" ") }));
  if (changed.has(n)) summary.append(make("span", { className: "quiet", textContent: `  was ${changed.get(n)}` }));
  const it = make("details", { className: "why" }, summary);
  let isFilled = false;
  const fill = async () => {
    if (isFilled) return;
    isFilled = true;
    try {
      it.append(...await reasons(n, depth, room));
    } catch (error) {
      it.append(make("p", { textContent: error.message }));
    }
  };
  it.addEventListener("toggle", () => { if (it.open) fill(); });
  if (depth === 0 || changed.has(n) && depth < DEEP && room.left-- > 0) {
    await fill();
    it.open = true;
  }
  return it;
}
async function reasons(n, depth, room) {
  if (isObserver(n)) {
    const [, expression, named] = observerOf(n);
    return [make("p", { textContent: "It is this expression:" }), make("pre", { textContent: expression }), ...await each(named, depth, room)];
  }
  if (isState(n)) return [make("p", { textContent: setBy(n) })];
  const answer = (await saidOf([n])).get(n);
  if (answer.fault) return [make("p", { textContent: answer.fault })];
  const sources = answer.given.map(a => make("pre", { textContent: `line ${a.row}: ${a.source.trim()}`, title: `assignment ${a.number}: ${a.text}` }));
  return [make("p", { textContent: given(answer) }), ...sources,
    ...await each(answer.from || [...new Set(answer.given.flatMap(a => a.named))], depth, room)];
}
async function each(some, depth, room) {
  await saidOf(some.filter(n => !isObserver(n) && !isState(n) && changed.has(n)));
  const found = [];
  for (const n of some) found.push(await whyOf(n, depth + 1, room));
  return found;
}
function setBy(n) {
  const step = moments.slice(0, now + 1).findLastIndex((moment, k) => k > 0 && moment.some(([m]) => m === n));
  return step > 0 ? `A state, set by step ${step}: ${steps[step - 1]}.` : "A state, as at the start.";
}
function given(answer) {
  if (answer.from) return answer.from.length ? "It is given by this line, from what is below it:" : "It is given by this line:";
  if (answer.given.length) return "It has its reset value: no line gives it a value, each waits for what it reads.";
  return "It has its reset value: no line sets it.";
}
/* What the program says of these flows; each is asked once for a moment. */
async function saidOf(some) {
  const key = JSON.stringify([steps.slice(0, now)]);
  if (key !== whyKey) {
    whyKey = key;
    whySaid = new Map();
  }
  const kept = whySaid, left = some.filter(n => !kept.has(n)).slice(0, MOST_ASKED);
  if (left.length) {
    const answer = await call("why", { steps, at: now, variables: left });
    left.forEach((n, k) => kept.set(n, answer.fault ? { fault: answer.fault } : answer.reasons[k]));
  }
  return kept;
}
