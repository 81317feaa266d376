"use strict";
// Looks at the replica every 15 seconds, and shows what it says. All texts go in as text nodes. The report,
// the keys and the graph cost the replica more, so they are read again only if the status says something else.
const EVERY = 15000, LONGEST = 60000, ROWS = 1000, BOXES = 60, DAY = 86400;
const byId = (id) => document.getElementById(id);
const seen = { keys: [] };

// ---- what is read

async function textOf(path) {
  const reply = await fetch(path, { cache: "no-store", signal: AbortSignal.timeout(LONGEST) });
  if (!reply.ok) throw new Error(`${path}: HTTP ${reply.status}`);
  return reply.text();
}

// JavaScript would round a number of many digits, so it becomes a text.
async function objectOf(path) {
  return JSON.parse((await textOf(path)).replace(/([:,[])(-?\d{16,})(?=[,}\]])/g, '$1"$2"'));
}

async function readAll() {
  const status = await objectOf("status.json"), { config, receipts, pending, records, domains } = status;
  const held = JSON.stringify([config, receipts, pending, records, domains]);
  if (seen.held !== held) {
    seen.report = await objectOf("report.json");
    Object.assign(seen, { status, held, drawn: "", isWhole: false });
    show();
    seen.keys = (await objectOf("keys.json")).keys;
    seen.isWhole = true;
  }
  seen.status = status;
  show();
  const domain = byId("chosen").value;
  if (domain && seen.drawn !== domain) {
    const graph = graphOf(await textOf(`graph.dot?domain=${domain}`));
    if (byId("chosen").value !== domain) return;
    showGraph(graph, domain);
    seen.drawn = domain;
  }
}

// ---- how it is said

const now = () => Date.now() / 1000;
const clock = (seconds) => new Date(seconds * 1000).toISOString().replace("T", " ").slice(0, 19);
const grouped = (number) => String(number).replace(/\B(?=(\d{3})+$)/g, ",");
const orNone = (value, unit = "") => value === null ? "none" : value + unit;

function span(seconds) {
  for (const [unit, length] of [["years", 365.25 * DAY], ["days", DAY], ["h", 3600], ["min", 60]]) {
    if (seconds >= 2 * length) return `${Math.floor(seconds / length)} ${unit}`;
  }
  return `${Math.max(0, Math.floor(seconds))} s`;
}

function leftOf(key) {
  if (!key || key.not_after === null) return ["not read", "warn"];
  const left = key.not_after - now();
  if (left < 0) return [`ended ${span(-left)} ago`, "bad"];
  return [span(left), left <= 7 * DAY ? "warn" : ""];
}

function trustOf(key) {
  if (key.distrusted) return ["distrusted", "bad"];
  if (key.same_public_key) return ["public key of a distrusted one", "bad"];
  return [key.bundles?.length === 0 ? "in no accepted bundle" : "can vouch", ""];
}

const WARNINGS = {
  "no-current": ["bad", () => "has no current bundle", "It was never fetched, or no bundle of it is vouched for."],
  "locked-out": ["bad", () => "has no trusted X.509 authority in its current bundle", "It needs a new seed."],
  "conflict": ["warn", () => "has several accepted bundles with one sequence number", "Ask the domain's owner."],
  "no-sequence": ["warn", () => "has several accepted bundles, and the current has no number", "Ask for a number."],
  "same-key": ["bad", (w) => `accepts key ${w.key}, which has the public key of a distrusted key`, "Distrust it, too."],
  "expires": ["warn", (w) => `has a certificate that ends at ${clock(w.not_after)}, of key ${w.key}`,
    "Look whether the domain's next bundle is fetched."],
  "not-fetched": ["warn", (w) => `was last fetched: ${w.fetched === null ? "never" : clock(w.fetched)}`,
    "Look at what the fetcher reports."],
  "quiet-peer": ["warn", (w) => `had no session that ended well since ${clock(w.since)}`, "Look at that replica."],
  "nearly-full": ["bad", (w) => `${grouped(w.held)} ${w.what} are held`, "Re-seed before the store is full."],
};

function warningsOf(status) {
  const found = status.warnings.map((w) => {
    const [kind, text, advice] = WARNINGS[w.kind] || ["warn", JSON.stringify, ""];
    return [kind, `${w.domain || w.peer || ""} ${text(w)}`, advice];
  });
  for (const seed of status.keyless_seeds) {
    found.push(["warn", `${seed.domain} has no X.509 authority in its configured bundle ${seed.id}`, "It authenticates nothing."]);
  }
  for (const { domain, current } of status.domains) {
    for (const key of current ? current.keys.filter((key) => key.distrusted) : []) {
      found.push(["bad", `${domain} lists the distrusted key ${key.id} in its current bundle`, "It still publishes the key."]);
    }
  }
  return found.sort((one, other) => (one[0] > other[0]) - (one[0] < other[0]));
}

const ERRORS = {
  S2: "another configuration", S9: "no connection, or it failed", bytes: "too many bytes",
};

// ---- how it is shown

function fill(node, attributes, children) {
  for (const key in attributes) node.setAttribute(key, attributes[key]);
  node.append(...children);
  return node;
}

const make = (name, attributes, ...children) => fill(document.createElement(name), attributes, children);
const idOf = (id) => make("code", { class: "id", title: id }, id);
const worded = ([text, kind]) => make("span", { class: kind }, text);

function bar(part) {
  const filled = make("i", {});
  filled.style.width = `${100 * Math.min(1, Math.max(0, part))}%`;
  return make("div", { class: "bar" }, filled);
}

// Only what differs is replaced, so that what is selected remains so.
function put(node, children) {
  const made = node.cloneNode(false);
  made.append(...children);
  if (!made.isEqualNode(node)) node.replaceChildren(...made.childNodes);
}

function putRows(id, rows) {
  const heads = Array.from(byId(id).tHead.rows[0].cells, (cell) => cell.textContent);
  const made = rows.slice(0, ROWS).map(([first, ...others]) => make("tr", {}, make("th", { scope: "row" }, first),
    ...others.map((cell, at) => make("td", { "data-head": heads[at + 1] }, make("div", {}, ...[cell].flat())))));
  const more = rows.length > ROWS ? `and ${rows.length - ROWS} more` : rows.length ? "" : "none";
  if (more) made.push(make("tr", {}, make("td", { class: "quiet", colspan: heads.length }, more)));
  put(byId(id).tBodies[0], made);
}

function showWarnings(status) {
  const found = warningsOf(status);
  document.title = `${found.length ? `(${found.length}) ` : ""}fedbundle`;
  put(byId("warnings"), found.length ? found.map(([kind, text, advice]) =>
    make("li", { class: kind }, make("strong", {}, text), make("span", {}, advice)))
    : [make("li", { class: "good" }, "Nothing needs attention.")]);
}

function showNumbers(status) {
  const peers = status.peers || [], good = peers.filter((peer) => now() - peer.ended_well < 600).length;
  const ofMost = (held, most) => [held, `of ${grouped(most)}`, bar(held / most)];
  const rows = [
    ["Receipts", ...ofMost(status.receipts, status.receipt_limit)],
    ["Pending receipts", status.pending, "wait for a voucher"],
    ["Records of distrust", ...ofMost(status.records, status.record_limit)],
    ["Peers", good, `of ${peers.length} within 10 min`],
    ["Snapshot", status.snapshot_bytes || 0, "bytes"],
    ["Journal", status.journal_bytes || 0, "bytes"],
  ];
  put(byId("numbers"), rows.map(([name, value, small, ...more]) => make("div", {}, make("dt", {}, name),
    make("dd", {}, grouped(value), " ", make("small", {}, small), ...more))));
  byId("config").textContent = status.config;
}

function showDomains(status, keys) {
  const known = new Map(keys.map((key) => [`${key.domain} ${key.key}`, key]));
  putRows("domains", status.domains.map(({ domain, current, accepted, conflicts }) => {
    const counts = [grouped(accepted), worded([grouped(conflicts), conflicts ? "warn" : ""])];
    const link = make("a", { href: `#${domain}` }, domain);
    if (!current) return [link, worded(["none", "bad"]), "none", "none", ...counts, "none"];
    const listed = current.keys.map(({ id, distrusted }) => {
      const key = known.get(`${domain} ${id}`), trust = trustOf({ ...key, distrusted });
      return make("li", {}, idOf(id), worded(leftOf(key)), trust[1] && worded(trust));
    });
    return [link, idOf(current.id), orNone(current.sequence), orNone(current.refresh_hint, " s"), ...counts,
      listed.length ? make("ul", {}, ...listed) : worded(["none", "bad"])];
  }));
}

function showKeys(keys) {
  const rank = (key) => key.distrusted ? -2e12 : key.same_public_key ? -1e12 : Number(key.not_after);
  putRows("keys", keys.sort((one, other) => rank(one) - rank(other)).map((key) => {
    const { not_before: from, not_after: until } = key, left = [worded(leftOf(key))];
    if (until !== null) left.push(bar((until - now()) / (until - from)));
    return [idOf(key.key), key.domain, worded(trustOf(key)), until === null ? "not read" : clock(until), left,
      grouped(key.bundles.length)];
  }));
}

function showRest(status, report) {
  putRows("conflicts", report.conflicts.map(({ domain, sequence, kind, documents }) =>
    [domain, orNone(sequence), kind, make("ul", {}, ...documents.map((id) => make("li", {}, idOf(id))))]));
  putRows("records", report.records.map(({ distrust, domain }) => [idOf(distrust), domain]));
  putRows("peers", (status.peers || []).map(({ peer, ended_well, fault, receipts }) => {
    const ago = now() - ended_well;
    const well = ended_well === null ? "never" : `${clock(ended_well)}, ${span(ago)} ago`;
    return [peer, worded([well, ago < 600 ? "" : "warn"]), ERRORS[fault] ? `${fault}: ${ERRORS[fault]}` : orNone(fault),
      grouped(receipts)];
  }));
}

function showChoice(status) {
  const chosen = byId("chosen"), wanted = chosen.value || location.hash.slice(1);
  put(chosen, status.domains.map(({ domain }) => make("option", {}, domain)));
  chosen.value = wanted;
  if (!chosen.value) chosen.selectedIndex = 0;
}

function show() {
  showWarnings(seen.status);
  showNumbers(seen.status);
  showDomains(seen.status, seen.keys);
  showKeys(seen.keys);
  showRest(seen.status, seen.report);
  showChoice(seen.status);
}

// ---- the graph

const BOX = /^"(\w+)" \[(.*)\];$/, LABEL = /label="([^"\\]+)(?:\\nsequence (\d+))?\\n/;
const ARROW = /^"(\w+)" -> "(\w+)" \[label="(\w+)"(.*)\];$/;
const WIDE = 158, HIGH = 48, ACROSS = 186, DOWN = 96;
const draw = (name, attributes, ...children) =>
  fill(document.createElementNS("http://www.w3.org/2000/svg", name), attributes, children);

// A later line adds to what earlier ones say of a box. Arrows that look alike are one.
function graphOf(text) {
  const boxes = new Map(), arrows = new Map();
  for (const line of text.split("\n")) {
    const arrow = ARROW.exec(line), box = !arrow && BOX.exec(line);
    if (arrow) {
      const [, tail, head, key, rest] = arrow, alike = tail + head + rest;
      const kind = rest.includes("dashed") ? "pending" : rest.includes("red") ? "distrusted" : "";
      if (!arrows.has(alike)) arrows.set(alike, { tail, head, kind, keys: [] });
      arrows.get(alike).keys.push(key);
    } else if (box) {
      const one = boxes.get(box[1]) || { id: box[1], short: box[1].slice(0, 8), row: 0 }, label = LABEL.exec(box[2]);
      if (label) Object.assign(one, { domain: label[1], sequence: label[2] ?? one.sequence });
      one.configured ||= box[2].includes("peripheries=2");
      one.current ||= box[2].includes("style=bold");
      boxes.set(one.id, one);
    }
  }
  return cut([...boxes.values()], [...arrows.values()]);
}

// The bundles with the greatest sequences, and what is between them.
function cut(all, arrows) {
  const rank = (box) => BigInt(box.sequence ?? -1);
  const boxes = all.sort((one, other) => Number(rank(one) > rank(other)) - Number(rank(one) < rank(other))).slice(-BOXES);
  const kept = new Map(boxes.map((box) => [box.id, box]));
  return {
    boxes, all: all.length,
    arrows: arrows.map((one) => ({ ...one, tail: kept.get(one.tail), head: kept.get(one.head) })).filter((one) => one.tail && one.head),
  };
}

// A box is below all that vouch for it, as far as no circle prevents that.
function setRows({ boxes, arrows }) {
  const waiting = new Set(boxes);
  while (waiting.size) {
    const waits = new Set(arrows.filter(({ tail, head }) => tail !== head && waiting.has(tail)).map(({ head }) => head));
    const left = [...waiting], next = left.find((box) => !waits.has(box)) || left[0];
    waiting.delete(next);
    for (const { tail, head } of arrows) {
      if (tail === next && waiting.has(head)) head.row = Math.max(head.row, next.row + 1);
    }
  }
}

// In a row each box is about below what vouches for it.
function setPlaces({ boxes, arrows }) {
  const rows = [];
  for (const box of boxes) (rows[box.row] ||= []).push(box);
  const most = Math.max(...rows.map((row) => row.length));
  const above = (box) => arrows.find(({ tail, head }) => head === box && tail.row < box.row)?.tail.x ?? 0;
  rows.forEach((row, down) => row.sort((one, other) => above(one) - above(other)).forEach((box, at) => {
    box.x = 4 + (at + (most - row.length) / 2) * ACROSS;
    box.y = 4 + down * DOWN;
  }));
  return [most * ACROSS + 60, rows.length * DOWN - DOWN + HIGH + 12];
}

// Down to the next row, and else around at the right.
function wayOf({ tail, head }) {
  const down = head.row - tail.row, from = tail.x + WIDE / 2, to = head.x + WIDE / 2;
  if (down === 1) {
    const above = tail.y + HIGH, below = head.y - 3, middle = (above + below) / 2;
    return [`M${from} ${above}C${from} ${middle} ${to} ${middle} ${to} ${below}`, (from + to) / 2, middle + 4];
  }
  const out = Math.max(tail.x, head.x) + WIDE + 50, above = tail.y + 36, below = head.y + (down ? 24 : 12);
  return [`M${tail.x + WIDE} ${above}C${out} ${above} ${out} ${below} ${head.x + WIDE + 3} ${below}`, out - 12, (above + below) / 2 + 4];
}

function drawArrow({ kind, keys, ...ends }) {
  const [d, x, y] = wayOf(ends), text = keys.length > 1 ? `${keys[0]} +${keys.length - 1}` : keys[0];
  return [draw("path", { d, class: kind, "marker-end": "url(#tip)" }),
    draw("text", { x, y, class: "key", "text-anchor": "middle" }, text)];
}

const called = ({ sequence }) => sequence ? `sequence ${sequence}` : "no sequence";

function drawBox(domain, box) {
  const { x, y, sequence, configured, current } = box;
  const kinds = [configured && "configured", current && "current", sequence || configured || "unknown"].join(" ");
  return draw("g", {}, draw("title", {}, `${box.id} of ${box.domain}`),
    draw("rect", { x, y, width: WIDE, height: HIGH, rx: 6, class: kinds }),
    draw("text", { x: x + 11, y: y + 20 }, called(box)),
    draw("text", { x: x + 11, y: y + 38, class: "quiet" }, box.short + (box.domain === domain ? "" : ` ${box.domain}`)));
}

function showGraph(graph, domain) {
  const { boxes, arrows, all } = graph;
  put(byId("arrows"), arrows.map(({ tail, head, kind, keys }) => make("li", {},
    `${called(tail)} (${tail.short}) vouches for ${called(head)} (${head.short}) by key ${keys.join(", ")} ${kind}`)));
  const drawn = all && all === boxes.length ? [] : [make("p", { class: "quiet" }, `${boxes.length} of ${all} bundles`)];
  if (all) {
    setRows(graph);
    const [width, height] = setPlaces(graph);
    const tip = { id: "tip", viewBox: "0 0 8 8", refX: 7, refY: 4, markerWidth: 8, markerHeight: 8, orient: "auto" };
    drawn.push(draw("svg", { width, height, role: "img", "aria-label": "The graph, which is also below as a list" },
      draw("marker", tip, draw("path", { d: "M0 0L8 4L0 8z" })),
      ...boxes.map((box) => drawBox(domain, box)), ...arrows.flatMap(drawArrow)));
  }
  put(byId("graph"), drawn);
  byId("graph").scrollTop = 1e6;
}

// ---- again and again

async function look() {
  clearTimeout(seen.timer);
  let failed = "";
  try {
    await readAll();
    seen.at = now();
    if (!seen.isWhole) failed = "The keys were not read. Look now tries it again.";
    byId("looked").textContent = `Seen at ${clock(seen.at)} UTC, and again every 15 s.`;
  } catch (error) {
    failed = `The last look failed at ${clock(now())} UTC (${error.message}). `
      + (seen.at ? `What is below was seen at ${clock(seen.at)}.` : "Not all was seen yet.");
  }
  byId("failed").textContent = failed;
  byId("failed").hidden = !failed;
  clearTimeout(seen.timer);
  seen.timer = setTimeout(look, EVERY);
}

byId("again").addEventListener("click", () => { seen.held = ""; look(); });
byId("chosen").addEventListener("change", look);
addEventListener("hashchange", () => {
  byId("chosen").value = location.hash.slice(1);
  look();
});
look();
