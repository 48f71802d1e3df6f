// The data of a run as the page goes through them: for each request the spans of its states, for each line the counts after it. Lines are known by their places, from 0 on.
const data = JSON.parse(document.getElementById("data").textContent);
const DATA_RUNS = data.runs || [data];
const COUNTS = ["accepted", "ended", "running", "posted", "reaped", "overflow"];

// What an arrow tells, by the reason.
function arrowOf(change) {
  const why = change.why || "";
  if (why.includes("drains")) return "drain";
  if (why.includes("a member of its group")) return "group";
  if (why.includes("a cancel chose it")) return "cancel";
  return "doom";
}

function readRun(run) {
  const size = run.lines.length;
  const requests = run.requests.map(one => ({ ...one, spans: [], marks: [], from: size, until: size, state: "", done: size }));
  const counts = Object.fromEntries(COUNTS.map(name => [name, new Int32Array(size)]));
  const rings = ["sq_head", "sq_tail", "cq_head", "cq_tail"];
  const words = Object.fromEntries(rings.map(name => [name, new Float64Array(size)]));
  const now = Object.fromEntries(COUNTS.map(name => [name, 0]));
  const at = Object.fromEntries(rings.map(name => [name, run.setup.start]));
  const files = [], arrows = [], changed = [], choices = [], besides = new Int32Array(size);
  const turn = 2 ** 32;
  let wrong = -1, beside = -1;

  const enter = (request, place, change) => {
    const last = request.spans[request.spans.length - 1];
    if (last && last.until === size) last.until = place;
    if (change) request.spans.push({ is: change.is, from: place, until: size, of: change.of, why: change.why || "" });
    request.state = change ? change.is : "";
  };
  const take = (change, place) => {
    const request = requests[change.request];
    switch (change.is) {
      case "accepted":
        request.from = place;
        now.accepted += 1;
        if (request.chain !== request.request) arrows.push({ kind: "link", from: request.request - 1, to: request.request, place });
        return;
      case "ended":
        if (request.state === "runs") now.running -= 1;
        now.ended += 1;
        enter(request, place, null);
        request.until = place;
        request.done = place;
        request.result = change.result;
        if (change.of !== undefined) arrows.push({ kind: "cancel", from: request.request, to: change.of, place });
        return;
      case "overflow":
        now.overflow += 1;
        now.posted += 1;
        enter(request, place, change);
        request.done = size;
        return;
      case "ring":
        if (request.state === "overflow") now.overflow -= 1; else now.posted += 1;
        enter(request, place, change);
        request.done = size;
        return;
      case "reaped":
        now.reaped += 1;
        enter(request, place, null);
        request.marks.push({ is: "reaped", place });
        request.done = place;
        return;
      case "safe":
      case "lost":
      case "torn":
      case "left":
        request.marks.push({ is: change.is, place, why: change.why });
        return;
      default:
        if (change.is === "runs") now.running += 1;
        enter(request, place, change);
        if (change.of !== undefined) arrows.push({ kind: arrowOf(change), from: change.of, to: change.request, place });
    }
  };
  run.lines.forEach((line, place) => {
    for (const change of line.changes || []) take(change, place);
    if (line.changes) changed.push(place);
    if (line.file) files.push({ place, ...line.file });
    if (line.wrong !== undefined) wrong = place;
    for (const choice of line.choices || []) choices.push({ place, ...choice });
    if (line.beside !== undefined) beside = line.beside - 1;
    besides[place] = beside;
    for (const name of rings) {
      if (line[name] !== undefined) {
        const step = ((line[name] - at[name]) % turn + turn) % turn;
        at[name] += step;
      }
      words[name][place] = at[name];
    }
    for (const name of COUNTS) counts[name][place] = now[name];
  });
  for (const arrow of arrows) {
    const [from, to] = [requests[arrow.from], requests[arrow.to]];
    if (!from || !to) continue;
    (to.arrows ||= []).push(arrow);
    (from.arrows ||= []).push(arrow);
  }
  const parts = run.parts === undefined ? -1 : run.parts - 1;
  return { ...run, size, requests, counts, words, files, arrows, changed, choices, choicePlaces: choices.map(one => one.place), besides, parts, wrong };
}

// The rows of the lanes: a heading for each call, and its requests; what is folded is one row of each call.
function rowsOf(run, wanted, folded, here) {
  const rows = [];
  let call = -1, kept = 0;
  const end = () => { if (kept) rows.push({ kind: "folded", count: kept, call }); kept = 0; };
  for (const request of run.requests) {
    if (wanted && !wanted.has(request.user_data)) continue;
    if (request.call !== call) {
      end();
      call = request.call;
      if (!folded || isLive(run, call, here, wanted)) rows.push({ kind: "call", call });
    }
    if (folded && request.done <= here) kept += 1;
    else rows.push({ kind: "request", request });
  }
  end();
  return folded ? joinFolds(rows) : rows;
}

// Whether a call has a request that is shown although what has ended is folded.
function isLive(run, call, here, wanted) {
  if (!run.last) run.last = lastOfCalls(run, wanted);
  return run.last.get(call) > here;
}

// The line at which the last request of each call is done.
function lastOfCalls(run, wanted) {
  const last = new Map();
  for (const request of run.requests) {
    if (wanted && !wanted.has(request.user_data)) continue;
    last.set(request.call, Math.max(last.get(request.call) ?? -1, request.done));
  }
  return last;
}

// Folds that follow one another are one row.
function joinFolds(rows) {
  const joined = [];
  for (const row of rows) {
    const last = joined[joined.length - 1];
    if (row.kind === "folded" && last && last.kind === "folded") last.count += row.count;
    else joined.push(row);
  }
  return joined;
}

// The words for a request: what it asks for.
function wordsOf(request) {
  if (request.told) return request.told;
  const parts = [request.operation];
  if (request.target !== undefined) parts.push(`of ${request.target}`);
  if (request.file !== undefined) parts.push(`file ${request.file}`);
  if (request.length !== undefined) parts.push(`${request.length} at ${request.offset}`);
  return parts.join(" ");
}

// How each file stands after a line, newest entry of each.
function filesAt(run, here) {
  const found = new Map();
  for (const file of run.files) {
    if (file.place > here) break;
    found.set(file.file, file);
  }
  return [...found.values()].sort((one, other) => one.file - other.file);
}

// The state of a request after a line.
function stateAt(request, here) {
  if (here < request.from) return null;
  const span = request.spans.findLast(span => span.from <= here);
  if (span && here < span.until) return span;
  if (request.done <= here) return { is: request.marks.some(mark => mark.is === "reaped" && mark.place <= here) ? "reaped" : "ended", why: "" };
  return { is: here >= request.until ? "ended" : "accepted", why: "" };
}
