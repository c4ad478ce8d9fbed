"use strict";
// Dragging the end of an arrow: a packet that arrives later, or earlier.

// Listens to a chart; `drop` is told the packet, and the event before which it is to arrive.
function hearDrags(place, chartNow, drop) {
  let held = null;
  place.addEventListener("pointerdown", (event) => {
    const tip = event.target.closest(".tip");
    if (!tip || document.body.classList.contains("stored")) return;
    held = { packet: Number(tip.dataset.packet), from: event.clientY, x: Number(tip.getAttribute("cx")), moved: false };
    place.setPointerCapture(event.pointerId);
    event.preventDefault();
  });
  place.addEventListener("pointermove", (event) => {
    if (!held || (!held.moved && Math.abs(event.clientY - held.from) < 5)) return;
    held.moved = true;
    showGhost(chartNow(), held, event);
  });
  const end = (event) => {
    if (!held) return;
    const { packet, moved } = held;
    held = null;
    const chart = chartNow();
    chart.place.querySelector("#ghost").setAttribute("d", "");
    if (moved && event.type === "pointerup") drop(packet, eventAt(chart, event.clientY));
  };
  place.addEventListener("pointerup", end);
  place.addEventListener("pointercancel", end);
}

// The event before which a packet arrives that is dropped at a height of the window.
function eventAt(chart, y) {
  const at = y - chart.place.getBoundingClientRect().top;
  const row = chart.rows.find(({ top, high }) => at < top + high / 2);
  return row ? row.first : chart.rows.at(-1).last + 1;
}

function showGhost(chart, held, event) {
  const packet = chart.packets[held.packet];
  const { lines, parties, rowOfEvent } = chart.layout;
  const from = parties.indexOf(packet.from);
  const start = chart.rows[rowOfEvent.get(packet.sent)];
  const box = chart.place.getBoundingClientRect();
  const next = chart.rows.find((row) => row.first === eventAt(chart, event.clientY));
  const y = next ? next.top : Math.min(event.clientY - box.top, chart.layout.high - 4);
  chart.place.querySelector("#ghost").setAttribute("d", `M${lines[from]} ${start.top + 13}L${held.x} ${y}M${held.x - 40} ${y}h80`);
}
