// What the page does: the line that is chosen, keys, filter and folds, and what is told of the line.
const get = id => document.getElementById(id);
const panes = [];
let view;

function clean(parent, ...children) {
  parent.replaceChildren(...children);
}

function node(name, text, className) {
  const element = document.createElement(name);
  if (text !== undefined) element.textContent = text;
  if (className) element.className = className;
  return element;
}

// A run with all that the page keeps of how it is shown.
function paneOf(run, at) {
  const end = at ? `_${at}` : "";
  const pane = { run, end, here: 0, step: 16, rows: [], rowOf: new Map(), hasArrows: true, isPrinted: false, rings: get("rings") };
  pane.section = node("section", undefined, "pane");
  pane.chart = node("div", undefined, "chart");
  pane.space = node("div", undefined, "space");
  pane.lanes = make("svg", { id: `lanes${end}`, class: "lanes", role: "img", "aria-labelledby": "title summary" });
  pane.chart.id = `chart${end}`;
  pane.chart.tabIndex = 0;
  pane.chart.setAttribute("role", "application");
  pane.chart.setAttribute("aria-label", `Lanes of requests${run.name ? ` of ${run.name}` : ""}; Left and Right step through the lines`);
  pane.space.append(pane.lanes);
  pane.chart.append(pane.space);
  if (run.name) pane.section.append(headOf(pane));
  pane.section.append(pane.chart);
  pane.chart.addEventListener("scroll", drawSoon);
  pane.chart.addEventListener("focus", () => turn(pane));
  pane.lanes.addEventListener("click", event => pick(pane, event));
  return pane;
}

// What a run is called, what became of it, and its choices that aren't in order.
function headOf(pane) {
  const { run } = pane;
  const head = node("header");
  head.append(node("h2", run.name));
  if (run.told) head.append(node("p", run.told, run.wrong >= 0 ? "told wrong" : "told"));
  const choices = run.choices.filter(one => one.way);
  if (choices.length) {
    const list = node("p", undefined, "choices");
    for (const choice of choices.slice(0, 12)) {
      const button = node("button", tellChoice(choice));
      button.type = "button";
      button.addEventListener("click", () => { turn(pane); choose(choice.place); });
      list.append(button);
    }
    if (choices.length > 12) list.append(`and ${choices.length - 12} more`);
    head.append(list);
  }
  return head;
}

// Makes this run the one that keys and tools move.
function turn(pane, isFocused) {
  if (isFocused) pane.chart.focus();
  if (view === pane) return;
  view = pane;
  for (const one of panes) one.section.classList.toggle("is-chosen", one === pane);
  get("line").max = pane.run.size;
  get("line").value = pane.run.size ? pane.run.lines[pane.here].line : 0;
  draw();
  tell();
}

// The rows anew, by filter and folds.
function arrange(pane) {
  const words = get("filter").value.split(/[\s,]+/).filter(word => word);
  pane.run.last = undefined;
  pane.rows = rowsOf(pane.run, words.length ? new Set(words) : null, get("fold").checked, pane.here);
  pane.rowOf = new Map();
  pane.rows.forEach((row, at) => { if (row.kind === "request") pane.rowOf.set(row.request.request, at); });
}

function arrangeAll() {
  panes.forEach(arrange);
  choose(view.here);
}

function draw() {
  panes.forEach(drawLanes);
  drawRings(view);
}

let isAwaited = false;
function drawSoon() {
  if (isAwaited) return;
  isAwaited = true;
  requestAnimationFrame(() => { isAwaited = false; draw(); });
}

// Chooses a line, and the one that stands beside it in the other run, shows both and tells of the first.
function choose(place, row) {
  move(view, place, row);
  const beside = view.run.size ? view.run.besides[view.here] : -1;
  for (const pane of panes) {
    if (pane === view || beside < 0) continue;
    move(pane, beside);
    if (pane.run.parts >= 0 && pane.rows.length === view.rows.length) alongside(pane);
  }
  get("line").value = view.run.size ? view.run.lines[view.here].line : 0;
  draw();
  tell();
}

// Scrolls a run of the same program as the chosen one is, as far as its chosen line stays in sight.
function alongside(pane) {
  pane.chart.scrollTop = view.chart.scrollTop;
  pane.chart.scrollLeft = view.chart.scrollLeft;
  show(pane);
}

function move(pane, place, row) {
  pane.here = Math.max(0, Math.min(pane.run.size - 1, place));
  if (get("fold").checked) arrange(pane);
  show(pane, row);
}

// The place in a sorted list of its first number from this one on.
function firstFrom(list, number) {
  let [low, high] = [0, list.length];
  while (low < high) {
    const middle = (low + high) >> 1;
    if (list[middle] < number) low = middle + 1; else high = middle;
  }
  return low;
}

// Moves what is seen so far that the chosen line is in it, and the row, or the request that this line or the next one changes.
function show(pane, row) {
  const { chart, step, here, run } = pane;
  const x = here * step, wide = chart.clientWidth - LABEL;
  if (x < chart.scrollLeft || x + step > chart.scrollLeft + wide) chart.scrollLeft = Math.max(0, x - wide / 2);
  const near = run.changed[firstFrom(run.changed, here)] ?? run.changed[run.changed.length - 1];
  const wanted = row ?? (near === undefined ? undefined : pane.rowOf.get(run.lines[near].changes[0].request));
  if (wanted === undefined) return;
  const y = wanted * ROW;
  if (y < chart.scrollTop || y + ROW > chart.scrollTop + chart.clientHeight) chart.scrollTop = Math.max(0, Math.floor((y - chart.clientHeight / 2) / ROW) * ROW);
}

function tell() {
  const { run, here } = view;
  const line = run.lines[here];
  if (!line) return clean(get("now"), node("h2", "No line"));
  clean(get("now"), node("h2", `Line ${line.line}`), ...toldOf(line));
  const counts = COUNTS.map(name => [name, run.counts[name][here]]);
  counts.splice(1, 0, ["outstanding", run.counts.accepted[here] - run.counts.ended[here]]);
  pairs("counts", hasRings(run) ? [...counts, ["submission ring", ends("sq")], ["completion ring", ends("cq")]] : [["begun", run.counts.accepted[here]], ["ended", run.counts.ended[here]]]);
  pairs("files", filesAt(run, here).map(file => [`file ${file.file}`, `${file.length} bytes, ${file.writes} writes, ${file.synced} of them synced${safeOf(file.file)}`]));
  standing();
  lines();
}

// A crash is told of files alone.
function hasRings(run) {
  return run.setup.sq > 0;
}

function ends(ring) {
  const word = name => view.run.words[`${ring}_${name}`][view.here] % 2 ** 32;
  return `head ${word("head")}, tail ${word("tail")}`;
}

// Which writes of a file are safe after the chosen line, and which are not.
function safeOf(file) {
  const { run, here } = view;
  const writes = run.requests.filter(one => one.operation === "write" && one.file === file && one.until <= here && one.result > 0);
  const isSafe = one => one.marks.some(mark => mark.is === "safe" && mark.place <= here);
  const named = some => some.slice(-8).map(one => one.request).join(", ");
  const safe = writes.filter(isSafe), others = writes.filter(one => !isSafe(one));
  return `${safe.length ? `; safe: ${named(safe)}` : ""}${others.length ? `; not safe: ${named(others)}` : ""}`;
}

function pairs(id, all) {
  clean(get(id), ...all.flatMap(([name, value]) => [node("dt", name), node("dd", String(value))]));
}

// What is told of a line: itself, its answer, reason and changes.
function toldOf(line) {
  const told = [];
  const step = node("p");
  step.append(node("code", line.text === "" ? "(empty)" : line.text));
  if (line.answer !== undefined) step.append(" = ", node("code", line.answer, line.wrong === undefined ? "answer" : "wrong"));
  told.push(step);
  if (line.reason) told.push(node("p", line.reason, "reason"));
  for (const note of line.notes || []) told.push(node("p", note, "note"));
  for (const choice of line.choices || []) told.push(node("p", tellChoice(choice), "note"));
  if (line.bad) told.push(node("p", line.bad.replace(/^uring: line \d+: /, ""), "bad"));
  if (line.wrong !== undefined) told.push(node("p", `wrong: ${line.wrong}`, "wrong"));
  const list = node("ul");
  for (const change of (line.changes || []).slice(0, 50)) list.append(node("li", tellChange(change)));
  told.push(list);
  return told;
}

function tellChange(change) {
  const request = view.run.requests[change.request];
  const name = `request ${change.request} (${request ? request.user_data : "?"})`;
  switch (change.is) {
    case "accepted": return `${name} is accepted`;
    case "ended": return `${name} ended with ${change.result}`;
    case "ring": return `${name}: its completion is in the ring`;
    case "overflow": return `${name}: its completion waits in the overflow list`;
    case "reaped": return `${name}: its completion is reaped`;
    case "safe": return `${name}: what it wrote is safe`;
    case "lost":
    case "torn": return `${name} is ${change.is}: ${change.why}`;
    case "left": return `${name} is left, though it needn't be: ${change.why}`;
    default: return `${name}: ${change.why}`;
  }
}

// The requests that are on their way after the chosen line, the first of them.
function standing() {
  const { run, here } = view;
  const items = [];
  for (const request of run.requests) {
    if (request.from > here || request.done <= here) continue;
    if (items.length === 40) { items.push(node("li", "and more")); break; }
    const state = stateAt(request, here);
    const words = (STATES.find(([name]) => name === state.is) || [0, state.is])[1];
    const item = node("li", `${request.request} (${request.user_data}): ${state.why || words}`);
    item.dataset.request = request.request;
    items.push(item);
  }
  clean(get("standing"), ...items);
}

// The lines round the chosen one.
function lines() {
  const { run, here } = view;
  const items = [];
  for (let place = Math.max(0, here - 6); place < Math.min(run.size, here + 10); place += 1) {
    const line = run.lines[place];
    const item = node("li", `${String(line.line).padStart(6)}  ${line.text}${line.answer === undefined ? "" : ` = ${line.answer}`}`);
    if (line.reason) item.append(node("span", `  # ${line.reason}`, "reason"));
    if (line.wrong !== undefined || line.bad) item.classList.add("wrong");
    if (place === here) { item.classList.add("here"); item.setAttribute("aria-current", "true"); }
    item.addEventListener("click", () => choose(place));
    items.push(item);
  }
  clean(get("lines"), ...items);
}

// The next line after the chosen one that changes something, or the one before it.
function nearest(isOn) {
  const { changed } = view.run;
  const found = isOn ? changed[firstFrom(changed, view.here + 1)] : changed[firstFrom(changed, view.here) - 1];
  return found ?? view.here;
}

function zoom(factor) {
  const step = Math.max(2, Math.min(64, view.step * factor));
  const kept = panes.map(pane => pane.here * step - (pane.here * pane.step - pane.chart.scrollLeft));
  for (const pane of panes) pane.step = step;
  draw();
  panes.forEach((pane, at) => { pane.chart.scrollLeft = kept[at]; });
  draw();
}

// The next choice after the chosen line that isn't in order, or the first one.
function nextChoice() {
  const choices = view.run.choices.filter(one => one.way);
  return (choices.find(one => one.place > view.here) || choices[0] || { place: view.here }).place;
}

const KEYS = {
  ArrowLeft: () => choose(view.here - 1), ArrowRight: () => choose(view.here + 1), Home: () => choose(0), End: () => choose(view.run.size - 1),
  n: () => choose(nearest(true)), p: () => choose(nearest(false)), w: () => view.run.wrong >= 0 && choose(view.run.wrong),
  "+": () => zoom(1.5), "=": () => zoom(1.5), "-": () => zoom(1 / 1.5),
  j: () => get("line").select(), "/": () => get("filter").select(), f: () => { get("fold").checked = !get("fold").checked; arrangeAll(); },
  o: () => turn(panes[(panes.indexOf(view) + 1) % panes.length], true), d: () => view.run.parts >= 0 && choose(view.run.parts), c: () => choose(nextChoice()),
};

document.addEventListener("keydown", event => {
  const isTyped = event.target.matches("input[type=text], input[type=number], select");
  if (isTyped && event.key === "Escape") return view.chart.focus();
  const act = KEYS[event.key] || KEYS[event.key.toLowerCase()];
  if (isTyped || event.ctrlKey || event.metaKey || event.altKey || !act) return;
  event.preventDefault();
  act();
});

// A point of the lanes: the line there, and the row.
function pick(pane, event) {
  turn(pane);
  const box = pane.lanes.getBoundingClientRect();
  const x = event.clientX - box.left, row = Math.floor((event.clientY - box.top + pane.chart.scrollTop) / ROW);
  const picked = pane.rows[row];
  if (x < LABEL) return picked && picked.kind === "request" && choose(picked.request.from, row);
  choose(Math.floor((x - LABEL + pane.chart.scrollLeft) / pane.step), row);
}

get("back").addEventListener("click", KEYS.ArrowLeft);
get("on").addEventListener("click", KEYS.ArrowRight);
get("tools").addEventListener("submit", event => event.preventDefault());
get("line").addEventListener("change", event => choose(Number(event.target.value) - 1));
get("filter").addEventListener("input", arrangeAll);
get("fold").addEventListener("change", arrangeAll);
get("arrows").addEventListener("change", event => { for (const pane of panes) pane.hasArrows = event.target.checked; draw(); });
get("group").addEventListener("change", event => openGroup(event.target.value));
addEventListener("resize", drawSoon);
addEventListener("beforeprint", () => { for (const pane of panes) pane.isPrinted = true; draw(); });
addEventListener("afterprint", () => { for (const pane of panes) pane.isPrinted = false; draw(); });

function legend() {
  const isSeen = name => panes.some(pane => pane.run.requests.some(request => request.spans.some(span => span.is === name)));
  const items = STATES.filter(([name]) => isSeen(name)).map(([name, words]) => {
    const item = node("li"), picture = make("svg", { width: 26, height: 12, "aria-hidden": "true" });
    put(picture, "rect", { class: name, width: 26, height: 12 });
    put(picture, "text", { class: "in", x: 8, y: 10 }, LETTERS[name]);
    item.append(picture, words);
    return item;
  });
  const isMarked = names => panes.some(pane => pane.run.requests.some(request => request.marks.some(mark => names.includes(mark.is))));
  const others = ["| end, with its result"];
  if (isMarked(["safe"])) others.push("\u2713 what was written is safe");
  if (isMarked(["reaped"])) others.push("\u25cf reaped");
  const kinds = new Set(panes.flatMap(pane => pane.run.arrows.map(arrow => arrow.kind)));
  const arrows = ARROWS.filter(([kind]) => kinds.has(kind)).map(([, words]) => words);
  if (arrows.length) others.push(`arrows: ${arrows.join(", ")}`);
  if (isMarked(["lost", "torn", "left"])) others.push("\u2715 lost, \u2571 torn, \u2014 left, though it needn't be");
  if (panes.some(pane => pane.run.choices.length)) others.push("\u25bc a choice: pale where it is the one in order");
  if (panes.some(pane => pane.run.parts >= 0)) others.push("a dashed line from top to bottom: where the runs part");
  clean(get("legend"), ...items, ...others.map(words => node("li", words)));
}

// What is said of a run in a line.
function told(run) {
  const verdict = run.wrong >= 0 ? `, line ${run.lines[run.wrong].line} is wrong` : "";
  const files = run.setup.files === undefined ? "" : `, ${run.setup.files} files`;
  return { counts: `${run.size} lines, ${run.requests.length} requests`, rings: `submission ring ${run.setup.sq}, completion ring ${run.setup.cq}${files}${verdict}`, verdict };
}

// The kinds of arrows, and how each is drawn.
const ARROWS = [["group", "solid orange a member of its group"], ["drain", "long dashes a drain"], ["cancel", "short dashes a cancel"], ["doom", "solid red what dooms"], ["link", "grey a link"]];

// What keys do in every page.
const KEYS_TOLD = get("keys").textContent;

// The groups of runs that the page has, each shown by itself.
const GROUPS = [...new Set(DATA_RUNS.map(run => run.group || ""))];

// Shows the runs of a group.
function openGroup(group) {
  panes.length = 0;
  const runs = DATA_RUNS.filter(run => (run.group || "") === group).map(readRun);
  panes.push(...runs.map(paneOf));
  clean(get("panes"), ...panes.map(pane => pane.section));
  get("panes").classList.toggle("several", panes.length > 1);
  const more = [[panes.length > 1, "O the other run"], [runs.some(run => run.parts >= 0), "D where they part"], [runs.some(run => run.choices.length), "C the next choice"], [runs.some(run => run.wrong >= 0), "W the wrong line"]];
  get("keys").textContent = [KEYS_TOLD, ...more.filter(([isThere]) => isThere).map(([, words]) => words)].join(", ");
  const { counts, rings, verdict } = told(runs[0]);
  get("rings").style.display = hasRings(runs[0]) ? "" : "none";
  get("counted").textContent = hasRings(runs[0]) ? "Rings" : "Operations";
  get("summary").textContent = data.told || `${counts}; ${rings}`;
  get("title").textContent = data.title || `A run of ${runs[0].requests.length} requests, line by line`;
  document.title = `uring: ${data.title || `${counts}${verdict}`}`;
  legend();
  panes.forEach(arrange);
  const first = fit(runs);
  view = undefined;
  turn(panes[0]);
  for (const pane of panes) pane.chart.scrollLeft = first * pane.step;
  const { run } = view, bad = run.lines.findIndex(line => line.bad !== undefined);
  choose([run.wrong, bad, run.parts].find(place => place >= 0) ?? Math.max(0, run.size - 1));
}

// Has the lines from the first on that changes something fill the width, if there is room, and returns it.
function fit(runs) {
  const first = Math.max(0, Math.min(...runs.map(run => run.changed[0] ?? 0)) - 1);
  const shown = Math.max(...runs.map(run => run.size)) - first;
  for (const pane of panes) {
    const wide = pane.chart.clientWidth - LABEL - 24;
    if (shown > 0 && shown * pane.step < wide) pane.step = Math.min(160, wide / shown);
  }
  return first;
}

function start() {
  get("group_label").hidden = GROUPS.length < 2;
  clean(get("group"), ...GROUPS.map(group => node("option", group)));
  openGroup(GROUPS[0]);
}
start();
