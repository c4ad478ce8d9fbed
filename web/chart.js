"use strict";
// The chart of a run: a line for each party, a row for each event, an arrow for each packet.
// It is made of strips of some rows. A strip is empty until it is to be seen. What crosses a strip's edge is drawn in both.

const STRIP = 30;
const LAYERS = ["band", "rule", "bar", "line", "arrow", "dot", "text", "tip"];
const escaped = (text) => text.replace(/[&<>"]/g, (sign) => `&#${sign.charCodeAt(0)};`);

// Draws a chart into an element, and its names into another one. Its strips are empty as yet.
function drawChart(place, names, rows, packets, hosts) {
  const layout = layoutOf(rows, packets, hosts);
  const strips = stripsOf(rows, piecesOf(rows, packets, layout), layout);
  const over = `<svg class="over" width="${layout.wide}" height="${layout.high}"><path id="ghost" class="arrow ghost" d=""/></svg>`;
  place.innerHTML = `${HEADS}${strips.map(({ shell }) => shell).join("")}${over}`;
  place.style.width = `${layout.wide}px`;
  place.querySelectorAll(".strip").forEach((part, number) => { strips[number].part = part; });
  names.innerHTML = layout.parties.map((name, party) => `<span style="left:${layout.lines[party]}px">${name}</span>`).join("");
  names.style.width = `${layout.wide}px`;
  return { rows, packets, layout, place, strips, bands: [], parts: null };
}

const HEADS = `<svg class="heads" width="0" height="0"><defs><marker id="tip" viewBox="0 0 8 8" refX="7.5" refY="4" markerWidth="8" markerHeight="8" ` +
  `markerUnits="userSpaceOnUse" orient="auto"><path class="head" d="M0 .5L8 4L0 7.5z"/></marker></defs></svg>`;

// All that a chart shows: each piece with its layer, and the heights between which it stands.
function piecesOf(rows, packets, layout) {
  const pieces = [];
  const put = (layer, from, to, text) => pieces.push({ layer, from, to, text });
  rows.forEach((row, number) => putRow(put, row, number, layout));
  layout.spans.forEach((span) => putBar(put, span, rows, layout));
  layout.lines.forEach((x) => put("line", 0, layout.high, `<path class="line" d="M${x} 0V${layout.high}"/>`));
  packets.forEach((packet) => putArrows(put, packet, rows, layout));
  return pieces;
}

// The strips of a chart, each with the pieces that it shows.
function stripsOf(rows, pieces, { wide, high }) {
  const strips = [];
  for (let first = 0; first < rows.length; first += STRIP) {
    const top = first === 0 ? 0 : rows[first].top;
    const end = first + STRIP < rows.length ? rows[first + STRIP].top : high;
    const size = `width="${wide}" height="${end - top}" style="contain-intrinsic-size:${wide}px ${end - top}px"`;
    const shell = `<svg class="strip" ${size} viewBox="0 ${top} ${wide} ${end - top}"></svg>`;
    strips.push({ top, end, shell, part: null, pieces: pieces.filter(({ from, to }) => from < end && to > top) });
  }
  return strips;
}

// Draws a strip, unless it is drawn, layer upon layer.
function drawStrip(chart, strip) {
  if (strip.pieces === null) return;
  const own = Object.fromEntries(LAYERS.map((layer) => [layer, ""]));
  for (const { layer, text } of strip.pieces) own[layer] += text;
  own.rule = `<path class="rule" d="${own.rule}"/>`;
  strip.part.innerHTML = LAYERS.map((layer) => own[layer]).join("");
  strip.pieces = null;
  for (const band of strip.part.querySelectorAll(".band")) chart.bands[Number(band.dataset.row)] = band;
}

// Draws what is between two heights of a chart.
function drawBetween(chart, top, bottom) {
  for (const strip of chart.strips) if (strip.top < bottom && strip.end > top) drawStrip(chart, strip);
}

// Draws the other strips too, one after another while the browser has time.
function drawLater(chart) {
  const next = chart.strips.find(({ pieces }) => pieces !== null);
  if (!next || !next.part.isConnected) return;
  const inTime = window.requestIdleCallback ?? setTimeout;
  inTime(() => {
    drawStrip(chart, next);
    drawLater(chart);
  });
}

// The band of a row.
function bandOf(chart, row) {
  const strip = chart.strips[Math.floor(row / STRIP)];
  if (strip) drawStrip(chart, strip);
  return chart.bands[row];
}

// What shows each packet, for marking; looked up when it is first wanted.
function partsOf(chart) {
  if (chart.parts) return chart.parts;
  chart.parts = new Map();
  drawBetween(chart, 0, chart.layout.high);
  for (const part of chart.place.querySelectorAll("[data-packet]")) {
    const number = Number(part.dataset.packet);
    if (chart.parts.has(number)) chart.parts.get(number).push(part);
    else chart.parts.set(number, [part]);
  }
  return chart.parts;
}

// A row: its band, the numbers of its events, who acts, and the texts beside the parties.
function putRow(put, row, number, layout) {
  const { top, high } = row;
  const piece = (layer, text) => put(layer, top, top + high, text);
  const label = labelOf(row);
  piece("band", `<rect class="band" data-row="${number}" x="0" y="${top}" width="${layout.wide}" height="${high}"/>`);
  piece("rule", `M0 ${top}H${layout.wide}`);
  piece("text", `<text class="dim" data-row="${number}" x="6" y="${top + 17}">${label}</text>`);
  const word = row.kind === "resends" ? "unfold" : row.folds === undefined ? "" : "fold";
  if (word) piece("text", `<text class="fold" data-fold="${row.first}" x="6" y="${top + 32}">${word}</text>`);
  const look = row.kind === "event" ? dotOf(row.events[0]) : "dim";
  for (const who of new Set(row.events.map((event) => event.who))) {
    piece("dot", `<circle class="dot ${look}" cx="${layout.lines[layout.parties.indexOf(who)]}" cy="${top + 13}" r="4"/>`);
  }
  layout.parties.forEach((_, party) => ["left", "right"].forEach((side) => putTexts(piece, row, party, side, layout)));
}

function dotOf(event) {
  if (event.arrival !== null) return "packet";
  return event.what === "call" ? "call" : event.what === "tick" ? "dim" : "start";
}

// The bar of a lease, of a row of the server, or of a recovery.
function putBar(put, span, rows, layout) {
  const party = layout.parties.indexOf(span.party);
  const first = rows[layout.rowOfEvent.get(span.from)];
  const end = span.to === null ? rows.at(-1) : rows[layout.rowOfEvent.get(span.to)];
  const bottom = span.to === null ? end.top + end.high : end.top + 13;
  const offset = 6 + span.lane * LANE;
  const x = layout.lines[party] + (party === 0 ? -offset - 6 : offset);
  const kind = /recovery|noncaching|reading|writing/.exec(span.words)[0];
  const words = `${span.party}: ${span.words}, from event ${span.from}${span.to === null ? "" : ` to ${span.to}`}`;
  const high = Math.max(6, bottom - first.top - 8);
  put("bar", first.top, bottom, `<rect class="bar ${kind}" x="${x}" y="${first.top + 8}" width="6" height="${high}" rx="2"><title>${words}</title></rect>`);
}

// How far from the line of a party its texts begin, at a side.
const awayFrom = (party, side, lanes) => 9 + (side === outer(party) ? lanes[party] * LANE : 0);

// The texts at one side of a party, and the number of each packet that is sent there.
function putTexts(piece, row, party, side, { lines, lanes }) {
  const sign = side === "left" ? -1 : 1;
  row.sides[party][side].forEach(({ text, look, packet, of }, line) => {
    let x = lines[party] + sign * awayFrom(party, side, lanes);
    const y = row.top + 13 + STEP * line;
    if (packet !== undefined) {
      const wide = widthOf(String(packet)) + 8;
      const left = sign < 0 ? x - wide : x;
      const frame = `<rect x="${left}" y="${y - 7}" width="${wide}" height="14" rx="4"/>`;
      piece("tip", `<g class="chip ${look}" data-packet="${packet}">${frame}<text x="${left + wide / 2}" y="${y + 4}">${packet}</text></g>`);
      x += sign * (wide + 5);
    }
    const mark = packet ?? of;
    const data = mark === undefined ? "" : ` data-packet="${mark}"`;
    if (text) piece("text", `<text class="${look}${sign < 0 ? " end" : ""}"${data} x="${x}" y="${y + 4}">${escaped(text)}</text>`);
  });
}

// The arrows of a packet, one for each arrival, and a place at its end by which it is dragged.
function putArrows(put, packet, rows, layout) {
  const from = layout.parties.indexOf(packet.from);
  const to = layout.parties.indexOf(packet.to);
  const start = chipOf(packet, rows, layout, from, to);
  if (!start) return;
  const data = `data-packet="${packet.number}"`;
  packet.arrivals.forEach((event, count) => {
    const { top } = rows[layout.rowOfEvent.get(event)];
    const x = layout.lines[to];
    const path = `M${start.x} ${start.y}L${x} ${top + 8}`;
    const ends = [Math.min(start.y, top), Math.max(start.y, top) + 12];
    put("arrow", ...ends, `<path class="arrow${count > 0 ? " again" : ""}" ${data} d="${path}" marker-end="url(#tip)"/>`);
    put("arrow", ...ends, `<path class="hit" ${data} d="${path}"/>`);
    put("tip", top, top + 18, `<circle class="tip" ${data} cx="${x}" cy="${top + 9}" r="9"/>`);
  });
}

// Where the arrows of a packet begin: at its number.
function chipOf(packet, rows, { rowOfEvent, lines, lanes }, from, to) {
  const row = rows[rowOfEvent.get(packet.sent)];
  const side = toward(from, to);
  const line = row.sides[from][side].findIndex((said) => said.packet === packet.number);
  if (line < 0) return null;
  const away = awayFrom(from, side, lanes) + widthOf(String(packet.number)) / 2 + 4;
  return { x: lines[from] + (side === "left" ? -away : away), y: row.top + 20 + STEP * line };
}
