"use strict";
// Marks in a chart: the row of an event, the rows that led to something, the packets of an exchange.

// Marks the row of an event; the row.
function markRow(chart, number) {
  const place = chart.layout.rowOfEvent.get(number);
  chart.place.querySelector(".band.now")?.classList.remove("now");
  bandOf(chart, place)?.classList.add("now");
  return chart.rows[place] ?? null;
}

// Marks the rows of events that led to something.
function markLed(chart, events) {
  for (const band of chart.place.querySelectorAll(".band.led")) band.classList.remove("led");
  for (const event of events) bandOf(chart, chart.layout.rowOfEvent.get(event))?.classList.add("led");
}

// Lights up packets, one of which is chosen.
function light(chart, packets, chosen) {
  chart.place.classList.toggle("lights", packets.size > 0);
  for (const part of chart.place.querySelectorAll(".lit, .chosen")) part.classList.remove("lit", "chosen");
  for (const number of packets) {
    for (const part of partsOf(chart).get(number) ?? []) {
      part.classList.add("lit");
      part.classList.toggle("chosen", number === chosen);
    }
  }
}
