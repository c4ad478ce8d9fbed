"use strict";
// What came of a run, beside what came of the run before the change: its calls, and the fates of its writes.

// Shows the outcome of a run; `before` may be null. A click on a row goes to the line of the journal that says it.
function showOutcome(place, before, run, ask) {
  const parts = [
    ["Writes", (entries) => writesOf(entries).map(({ key, fate, missing, line }) => rowFor(key, fate, missing, line)), "not missing"],
    ["Calls", (entries) => callsOf(entries).map(({ key, said, open, line }) => rowFor(key, said, open || said.startsWith("lost"), line)), "answered"],
  ];
  const shown = parts.flatMap(([title, of, plain]) => tableOf({ title, plain, ask }, before && of(before.entries), of(run.entries)));
  place.replaceChildren(...shown);
}

// A row of a table. The number of a packet changes with the run, and is no change of what came of it.
const rowFor = (key, said, bad, line) => ({ key, said, bad, line, same: said.replace(/, by packet \d+$/, "") });

// A table with what was so before, and what is so now. Rows that changed stand first; many that did not are folded.
function tableOf({ title, plain: word, ask }, before, now) {
  const rows = pairs(before, now);
  const head = made("h2", "", title);
  if (rows.length === 0) return [head, made("p", "dim", "none")];
  const plain = rows.filter(({ changed, was, is }) => !changed && !(was || is).bad);
  const marked = rows.filter((row) => !plain.includes(row));
  const shown = [head];
  if (marked.length > 0) shown.push(tableWith(marked, before, ask));
  const summary = `${plain.length} ${before ? "as before" : word}`;
  if (plain.length > 12 || (plain.length > 0 && marked.length > 0)) shown.push(foldedTable(summary, plain, before, ask));
  else if (plain.length > 0) shown.push(tableWith(plain, before, ask));
  return shown;
}

// What was and what is, by what it is about.
function pairs(before, now) {
  const was = new Map((before ?? []).map((row) => [row.key, row]));
  const is = new Map(now.map((row) => [row.key, row]));
  return [...new Set([...was.keys(), ...is.keys()])].map((key) => {
    const [old, now] = [was.get(key), is.get(key)];
    return { key, was: old, is: now, changed: before !== null && before !== undefined && (old && old.same) !== (now && now.same) };
  });
}

// A table that is made when it is unfolded.
function foldedTable(summary, rows, before, ask) {
  const folded = made("details", "");
  folded.append(made("summary", "", summary));
  folded.addEventListener("toggle", () => folded.append(tableWith(rows, before, ask)), { once: true });
  return folded;
}

function tableWith(rows, before, ask) {
  const table = made("table", before ? "two" : "");
  if (before) table.insertRow().append(made("th", "", "before"), made("th", "", "after"));
  for (const { key, was, is, changed } of rows) {
    const head = table.insertRow();
    head.className = changed ? "changed key" : "key";
    head.append(Object.assign(made("th", "", key), { colSpan: before ? 2 : 1, scope: "row" }));
    const said = table.insertRow();
    if (before) said.append(cellOf(was, "not in the run", null));
    said.append(cellOf(is, "not in this run", ask));
    if (changed) said.className = "changed";
  }
  return table;
}

function cellOf(row, none, ask) {
  const cell = made("td", row ? (row.bad ? "bad" : "") : "dim", "");
  if (!row || !ask) cell.textContent = row ? row.said : none;
  else {
    const button = made("button", "word", row.said);
    button.type = "button";
    button.title = `why? line ${row.line} of the journal`;
    button.addEventListener("click", () => ask(row.line));
    cell.append(button);
  }
  return cell;
}

function made(name, look, text) {
  const part = document.createElement(name);
  if (look) part.className = look;
  if (text !== undefined) part.textContent = text;
  return part;
}
