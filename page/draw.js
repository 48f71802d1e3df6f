// The lanes and the rings, drawn as they are seen: rows and lines out of sight have no elements.
const ROW = 24, LABEL = innerWidth < 560 ? 150 : 232, SVG = "http://www.w3.org/2000/svg";
const STATES = [["waits", "waits"], ["ready", "may start"], ["doomed", "doomed"], ["runs", "runs"], ["ring", "completion in the ring"], ["overflow", "completion in the overflow list"], ["hidden", "on its way, unseen"]];
// What becomes of a write: from the middle of its row on.
const MARKS = { safe: "m-4 4l3 4l6 -9", lost: "m-5 -5l10 10m0 -10l-10 10", torn: "m-5 5l10 -10", left: "m-5 0h10" };
// A shape for each state too, for eyes that don't tell the colours apart.
const LETTERS = { waits: "W", ready: "M", doomed: "X", runs: "R", ring: "C", overflow: "O", hidden: "?" };

function make(name, marks, text) {
  const element = document.createElementNS(SVG, name);
  for (const key in marks) element.setAttribute(key, marks[key]);
  if (text !== undefined) element.textContent = text;
  return element;
}

function put(parent, name, marks, text) {
  return parent.appendChild(make(name, marks, text));
}

// What is seen: so many pixels of lanes from these on.
function sight(view) {
  const box = view.chart;
  if (view.isPrinted) return { left: 0, top: 0, width: Math.min(LABEL + view.run.size * view.step + 20, 8000), height: Math.min(view.rows.length, 400) * ROW };
  return { left: box.scrollLeft, top: box.scrollTop, width: box.clientWidth, height: box.clientHeight };
}

function drawLanes(view) {
  const { run, rows, step, here, lanes } = view;
  view.chart.style.height = `${rows.length * ROW + 24}px`;
  const seen = sight(view);
  view.space.style.width = `${LABEL + run.size * step + 20}px`;
  view.space.style.height = `${rows.length * ROW}px`;
  lanes.setAttribute("width", seen.width);
  lanes.setAttribute("height", seen.height);
  lanes.replaceChildren(...arrowHeads(view));
  const x = place => LABEL + place * step - seen.left;
  const y = row => row * ROW - seen.top;
  const first = Math.max(0, Math.floor(seen.left / step)), last = Math.min(run.size, Math.ceil((seen.left + seen.width) / step) + 1);
  const top = Math.max(0, Math.floor(seen.top / ROW)), bottom = Math.min(rows.length, Math.ceil((seen.top + seen.height) / ROW));
  drawLines(view, lanes, x, first, last, seen);
  const arrows = new Set();
  for (let row = top; row < bottom; row += 1) drawRow(view, lanes, rows[row], y(row), x, first, last, arrows);
  if (view.hasArrows) for (const arrow of arrows) drawArrow(view, lanes, arrow, x, y, first, last);
  drawChoices(view, lanes, x, first, last);
  put(lanes, "rect", { class: "panel", x: 0, y: 0, width: LABEL - 4, height: seen.height });
  for (let row = top; row < bottom; row += 1) drawLabel(view, lanes, rows[row], y(row));
  if (here >= first && here < last) put(lanes, "rect", { class: "chosen", x: Math.max(x(here), LABEL - 4), y: 1, width: step, height: seen.height - 2, "pointer-events": "none" });
}

// The line that is chosen, those that are wrong or bad, and a grid.
function drawLines(view, lanes, x, first, last, seen) {
  const { run, step, here } = view;
  put(lanes, "rect", { class: "here-line", x: x(here), y: 0, width: step, height: seen.height });
  const gap = Math.max(1, Math.ceil(60 / step));
  for (let place = first; place < last; place += 1) {
    const line = run.lines[place];
    if (line.wrong !== undefined) put(lanes, "rect", { class: "wrong-line", x: x(place), y: 0, width: step, height: seen.height });
    if (line.bad !== undefined) put(lanes, "rect", { class: "bad-line", x: x(place), y: 0, width: step, height: seen.height });
    if (place % gap === 0) put(lanes, "line", { class: "grid", x1: x(place), x2: x(place), y1: 0, y2: seen.height });
  }
}

// Where this run parts from the one beside it, and the choices that led to each step: full ones aren't in order.
function drawChoices(view, lanes, x, first, last) {
  const { run, step } = view;
  const high = sight(view).height;
  if (run.parts >= first && run.parts < last) put(lanes, "line", { class: "parts", x1: x(run.parts), x2: x(run.parts), y1: 0, y2: high });
  for (let at = firstFrom(run.choicePlaces, first); at < run.choices.length && run.choices[at].place < last; at += 1) {
    const choice = run.choices[at], middle = x(choice.place) + step / 2;
    const mark = put(lanes, "path", { class: choice.way ? "choice" : "plain", d: `M${middle - 4} 0h8l-4 7z`, "data-choice": choice.choice });
    put(mark, "title", {}, tellChoice(choice));
  }
}

function tellChoice(choice) {
  return `choice ${choice.choice}: ${choice.what}, way ${choice.way} of 0 to ${choice.of - 1}`;
}

function drawRow(view, lanes, row, y, x, first, last, arrows) {
  if (row.kind === "call") put(lanes, "rect", { class: "call", x: 0, y: y + 3, width: sight(view).width, height: ROW - 6 });
  if (row.kind !== "request") return;
  const { request } = row;
  const lane = put(lanes, "g", { class: "lane", "data-request": request.request });
  for (const span of request.spans) {
    if (span.until <= first || span.from >= last) continue;
    drawSpan(view, lane, request, span, y, x);
  }
  if (request.until >= first && request.until < last) drawEnd(view, lane, request, y, x);
  for (const mark of request.marks) if (mark.place >= first && mark.place < last) drawMark(view, lane, mark, y, x);
  for (const arrow of request.arrows || []) if (arrow.place >= first && arrow.place < last) arrows.add(arrow);
}

// A state of a request: above how it stands, below its completion.
function drawSpan(view, lane, request, span, y, x) {
  const isBelow = span.is === "ring" || span.is === "overflow";
  const from = Math.max(x(span.from), -10), width = Math.min(x(span.until), sight(view).width + 10) - from;
  const [top, height] = isBelow ? [y + 13, 8] : [y + 3, 14];
  const piece = put(lane, "rect", { class: `state ${span.is}`, x: from, y: top, width: Math.max(width, 1), height, "data-from": span.from, "data-until": span.until, "data-is": span.is });
  put(piece, "title", {}, tellSpan(view.run, request, span));
  const room = Math.min(width, x(span.until) - Math.max(from, LABEL));
  if (room > 14 && !isBelow) put(lane, "text", { class: "in", x: Math.max(from, LABEL) + 3, y: y + 14 }, room > 110 && span.why ? short(span.why, room) : LETTERS[span.is]);
}

function short(text, room) {
  const most = Math.floor(room / 6.4);
  return text.length <= most ? text : `${text.slice(0, Math.max(0, most - 1))}\u2026`;
}

// The same, but for its end from the last ` at ` on: where a transfer lies is what one looks for.
function shortened(text, room) {
  const most = Math.floor(room / 6.4), end = text.lastIndexOf(" at ");
  if (text.length <= most || end < 0 || text.length - end > most - 4) return short(text, room);
  return `${text.slice(0, most - (text.length - end) - 1)}\u2026${text.slice(end)}`;
}

function drawEnd(view, lane, request, y, x) {
  const { run, step } = view;
  const at = x(request.until) + Math.min(step, 6) / 2;
  const end = put(lane, "line", { class: "end", x1: at, x2: at, y1: y + 2, y2: y + 22, "data-place": request.until });
  put(end, "title", {}, `request ${request.request} ended with ${request.result}\n${tellLine(run.lines[request.until])}`);
  if (step >= 8) put(lane, "text", { x: at + 3, y: y + 11 }, String(request.result));
}

function drawMark(view, lane, mark, y, x) {
  const at = x(mark.place) + view.step / 2;
  const path = MARKS[mark.is];
  const drawn = path ? put(lane, "path", { class: mark.is, d: `M${at} ${y + 12}${path}`, "data-is": mark.is }) : put(lane, "circle", { class: "reaped", cx: at, cy: y + 17, r: 3, "data-is": "reaped" });
  put(drawn, "title", {}, `${mark.is}${mark.why ? `: ${mark.why}` : ""}\n${tellLine(view.run.lines[mark.place])}`);
}

// A line with its answer and reason.
function tellLine(line) {
  return `line ${line.line}: ${line.text}${line.answer === undefined ? "" : ` = ${line.answer}`}${line.reason ? `  # ${line.reason}` : ""}`;
}

function tellSpan(run, request, span) {
  const until = span.until < run.size ? `to line ${run.lines[span.until].line}` : "to the end";
  return `request ${request.request}, user data ${request.user_data}: ${span.why || (STATES.find(state => state[0] === span.is) || [0, span.is])[1]}\nfrom ${tellLine(run.lines[span.from])}\n${until}`;
}

function drawLabel(view, lanes, row, y) {
  if (row.kind === "call") return put(lanes, "text", { class: "soft", x: 6, y: y + 16, "data-call": row.call }, (view.run.headings || [])[row.call] ?? `call ${row.call}`);
  if (row.kind === "folded") return put(lanes, "text", { class: "soft folded", x: 22, y: y + 16 }, `${row.count} that ended`);
  const { request } = row;
  const next = view.run.requests[request.request + 1];
  const isHead = request.chain === request.request, goesOn = next && next.chain === request.chain;
  if (!isHead || goesOn) put(lanes, "path", { class: "chain", "data-chain": request.chain, d: `M14 ${isHead ? y + 12 : y}H10V${goesOn ? y + ROW : y + 12}H14` });
  const name = `${request.request}: ${short(request.user_data, 110)}`;
  const words = shortened(wordsOf(request), LABEL - 38 - name.length * 6.4 - request.flags.length * 8);
  const label = put(lanes, "text", { class: "label", x: 20, y: y + 16, "data-request": request.request }, `${name} ${words} ${request.flags}`);
  put(label, "title", {}, `request ${request.request} of call ${request.call}, chain of ${request.chain}: user data ${request.user_data}, ${wordsOf(request)}, flags ${request.flags || "none"}`);
  return label;
}

function drawArrow(view, lanes, arrow, x, y, first, last) {
  if (arrow.place < first || arrow.place >= last) return;
  const from = view.rowOf.get(arrow.from), to = view.rowOf.get(arrow.to);
  if (from === undefined || to === undefined) return;
  // (it begins and ends at the edges of its rows, upright, and so stays off their letters)
  const at = x(arrow.place) + Math.min(view.step / 2, 8), isDown = to > from;
  const y1 = y(from) + (isDown ? 22 : 2), y2 = y(to) + (isDown ? 2 : 22), bend = arrow.kind === "link" ? 0 : 10;
  const path = put(lanes, "path", { class: `arrow arrow-${arrow.kind}`, d: `M${at} ${y1}C${at + bend} ${y1} ${at} ${y2 + (isDown ? -12 : 12)} ${at} ${y2}`, "marker-end": `url(#head-${arrow.kind}${view.end})`, "data-kind": arrow.kind, "data-from": arrow.from, "data-to": arrow.to });
  put(path, "title", {}, `${arrow.kind}: from request ${arrow.from} to request ${arrow.to}\n${tellLine(view.run.lines[arrow.place])}`);
}

function arrowHeads(view) {
  return ["group", "drain", "cancel", "doom", "link"].map(kind => {
    const marker = make("marker", { id: `head-${kind}${view.end}`, viewBox: "0 0 8 8", refX: 7, refY: 4, markerWidth: 6, markerHeight: 6, orient: "auto" });
    put(marker, "path", { class: `arrow arrow-${kind}`, style: "stroke-dasharray: none", d: "M0 0L8 4L0 8" });
    return marker;
  });
}

// Heads and tails of both rings over the lines that are seen, one ring above the other.
function drawRings(view) {
  const { run, step, rings, here } = view;
  const seen = sight(view), high = 96;
  rings.replaceChildren();
  if (!run.size) return;
  const first = Math.max(0, Math.floor(seen.left / step)), last = Math.min(run.size, Math.ceil((seen.left + seen.width) / step) + 1);
  const x = place => LABEL + place * step - seen.left;
  put(rings, "rect", { class: "here-line", x: x(here), y: 0, width: step, height: high });
  ["sq", "cq"].forEach((ring, at) => {
    const [head, tail] = [run.words[`${ring}_head`], run.words[`${ring}_tail`]];
    const low = head[first], most = Math.max(tail[last - 1], low + 1);
    const y = word => at * 48 + 42 - (word - low) / (most - low) * 34;
    drawWord(rings, "tail", tail, first, last, x, y);
    drawWord(rings, "head", head, first, last, x, y);
  });
  put(rings, "rect", { class: "panel", x: 0, y: 0, width: LABEL - 4, height: high });
  const word = name => run.words[name][here] % 2 ** 32;
  ["sq", "cq"].forEach((ring, at) => {
    put(rings, "text", { x: 6, y: at * 48 + 20 }, `${ring === "sq" ? "submission" : "completion"} ring`);
    put(rings, "text", { class: "soft", x: 6, y: at * 48 + 36, "data-ring": ring }, `head ${word(`${ring}_head`)} (- - -), tail ${word(`${ring}_tail`)} (\u2014)`);
  });
}

function drawWord(rings, name, words, first, last, x, y) {
  let path = `M${x(first)} ${y(words[first])}`;
  for (let place = first + 1; place < last; place += 1) if (words[place] !== words[place - 1]) path += `H${x(place)}V${y(words[place])}`;
  put(rings, "path", { class: name, d: `${path}H${x(last)}` });
}
