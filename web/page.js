"use strict";
// The page: one run at one of its events.

const place = (name) => document.getElementById(name);
const shown = { chart: null, open: new Set(), chosen: null, timer: 0 };

async function begin() {
  document.body.classList.toggle("stored", !(await isThere()));
  place("wanting").hidden = !document.body.classList.contains("stored");
  offerStarts();
  hear();
  beginEditor(place("schedule"), place("behind"), typed, (line) => goToLine(line));
  hearDrags(place("chart"), () => shown.chart, (packet, event) => bendPacket({ kind: "later", packet, event }));
  await open();
}

// Lists the schedules to begin with. Without the program these are the ones whose runs are stored.
function offerStarts() {
  const stored = document.body.classList.contains("stored");
  place("schedule").readOnly = stored;
  const groups = new Map();
  for (const start of [...STARTS, ...EXAMPLES].filter(({ run }) => run || !stored)) {
    if (!groups.has(start.group)) groups.set(start.group, Object.assign(made("optgroup", ""), { label: start.group }));
    groups.get(start.group).append(new Option(start.name.replaceAll("-", " "), start.name));
  }
  place("start").replaceChildren(new Option("a schedule of your own", ""), ...groups.values());
}

function hear() {
  place("start").addEventListener("change", ({ target }) => target.value && begins(target.value));
  place("undo").addEventListener("click", () => goBack(-1) && show());
  place("redo").addEventListener("click", () => goBack(1) && show());
  place("link").addEventListener("click", copyLink);
  place("download").addEventListener("click", () => download(current().run.schedule));
  place("slider").addEventListener("input", ({ target }) => go(Number(target.value), true));
  place("back").addEventListener("click", () => go(current().event - 1, true));
  place("on").addEventListener("click", () => go(current().event + 1, true));
  place("journal").addEventListener("click", ({ target }) => target.closest(".of") && askWhy(Number(target.closest(".of").dataset.line)));
  place("journal").addEventListener("pointerover", ({ target }) => target.closest(".of") && tellPromises(target.closest(".of")));
  place("way").addEventListener("click", showWay);
  place("frame").addEventListener("scroll", drawSeen);
  place("chart").addEventListener("click", ({ target }) => pressed(target));
  place("chart").addEventListener("pointerover", ({ target }) => point(target.closest("[data-packet]")));
  document.querySelectorAll("input[name=then]").forEach((choice) => choice.addEventListener("change", thenChanged));
  window.addEventListener("hashchange", open);
}

// Opens what the address names, or the first view.
async function open() {
  if (current() && location.hash === current().address) return;
  const asked = location.hash.length > 1 ? await named(location.hash) : null;
  await beginWith(asked?.schedule ?? STARTS[0].schedule, asked?.event ?? null, asked?.name);
}

async function begins(name) {
  await beginWith(startNamed(name).schedule, null, name);
}

// Begins with a schedule, which may have a name: there is no run before it.
async function beginWith(schedule, event, name) {
  const run = await runOf(schedule);
  if (!run) return begins(STARTS[0].name);
  if (run.status !== 0 && !current() && schedule !== STARTS[0].schedule) await begins(STARTS[0].name);
  if (run.status !== 0) {
    if (run.status !== null) showSchedule(schedule);
    return refuse(run);
  }
  const exercise = EXERCISES.find((other) => other.name === name) ?? null;
  keep({ run, before: null, words: "", event: Math.min(event ?? 0, run.events.length - 1), name, exercise });
  show();
}

// Shows the entry of the history that is current.
function show() {
  const entry = current();
  const { run, before } = entry;
  if (before) entry.exercise ??= past.entries[past.now - 1]?.exercise;
  shown.open = new Set();
  shown.chosen = null;
  showSchedule(run.schedule);
  place("start").value = nameOf(entry) ?? "";
  place("undo").disabled = past.now === 0;
  place("redo").disabled = past.now === past.entries.length - 1;
  place("verdict").className = run.verdict === "yes" ? "" : "bad";
  place("verdict").textContent = run.verdict === "yes" ? "The journal is sound." : `The journal is not sound: nqnfs check says "${run.verdict}".`;
  place("slider").max = Math.max(0, run.events.length - 1);
  draw();
  showJournal(run);
  showChange(place("change"), entry);
  showOutcome(place("outcome"), before, run, askWhy);
  place("why").replaceChildren();
  showTask(entry);
  go(entry.event, true);
}

function draw() {
  const { run } = current();
  const rows = rowsOf(run.events, run.packets, shown.open);
  shown.chart = drawChart(place("chart"), place("names"), rows, run.packets, run.hosts);
  drawLater(shown.chart);
}

// Goes to an event, and scrolls to its row if that is wanted. All is written before anything is measured, so that the page is laid out once.
function go(number, scroll) {
  const entry = current();
  const { events, states, hosts, lines } = entry.run;
  const event = events[Math.min(Math.max(number, 0), events.length - 1)];
  entry.event = event ? event.number : -1;
  place("event").textContent = event ? `Event ${event.number} of ${events.length - 1}: ${sentence(event)}` : "Nothing happens in this run.";
  showParties(place("parties"), event ? states[event.number] : fresh(hosts), event ? event.who : "", cutHosts(), act);
  keepAddress(entry);
  if (!event) return;
  place("slider").value = event.number;
  const line = lines.findIndex(({ first, count }) => first <= event.number && event.number < first + count);
  markLine(line, null);
  const item = markEntries(event);
  const row = markRow(shown.chart, event.number);
  bringLine(line);
  if (item) bringItem(item);
  if (scroll && row) bring(row);
  drawSeen();
}

function goToLine(line) {
  const { first, count } = current().run.lines[line] ?? { count: 0 };
  if (count > 0) go(first, true);
}

// Draws what is seen of the chart.
function drawSeen() {
  const { scrollTop, clientHeight } = place("frame");
  if (shown.chart) drawBetween(shown.chart, scrollTop, scrollTop + clientHeight);
}

// Scrolls the chart so that a row is seen, and the party that acts in it.
function bring(row) {
  const frame = place("frame");
  const head = place("names").offsetHeight;
  if (row.top < frame.scrollTop || row.top + row.high + head + 10 > frame.scrollTop + frame.clientHeight) {
    frame.scrollTop = row.top - (frame.clientHeight - head) / 3;
  }
  const { lines, parties, wide } = shown.chart.layout;
  const x = lines[parties.indexOf(row.events[0].who)];
  const room = Math.min(170, frame.clientWidth / 2);
  const [left, right] = [Math.max(0, x - room), Math.min(wide, x + room)];
  if (left < frame.scrollLeft) frame.scrollLeft = left;
  else if (right > frame.scrollLeft + frame.clientWidth) frame.scrollLeft = right - frame.clientWidth;
}

// What a reader pressed in the chart: a packet, a fold, or a row.
function pressed(target) {
  const packet = target.closest("[data-packet]");
  const fold = target.closest("[data-fold]");
  const row = target.closest("[data-row]");
  if (packet) choose(Number(packet.dataset.packet));
  else if (fold) unfold(Number(fold.dataset.fold));
  else if (row) {
    choose(null);
    go(shown.chart.rows[Number(row.dataset.row)].first, false);
  }
}

function unfold(first) {
  if (!shown.open.delete(first)) shown.open.add(first);
  draw();
  go(current().event, false);
}

// Chooses a packet, or none.
function choose(number) {
  const { run } = current();
  shown.chosen = number;
  showPacket(place("packet"), run.packets[number], run.events.length, bendPacket);
  light(shown.chart, number === null ? new Set() : exchangeOf(run.events, run.packets, number), number);
}

// Lights up the exchange of a packet at which a reader points.
function point(part) {
  const { run } = current();
  const number = part ? Number(part.dataset.packet) : shown.chosen;
  light(shown.chart, number === null ? new Set() : exchangeOf(run.events, run.packets, number), shown.chosen);
}

// Shows the exercise, and whether it is solved; or what the first view shows.
function showTask({ exercise, run, before }) {
  const isFirst = run.schedule === STARTS[0].schedule && !before;
  place("task").hidden = !exercise && !isFirst;
  place("way").hidden = !exercise;
  if (isFirst) place("asks").textContent = FIRST_VIEW;
  if (!exercise) return;
  const solved = exercise.solved(run);
  place("task").className = solved ? "solved" : "";
  place("asks").textContent = `${exercise.task} ${solved ? "Solved." : "Not yet."}`;
}

// Shows a schedule that solves the exercise.
async function showWay() {
  const { exercise, run } = current();
  const solved = await runOf(STARTS.find(({ name }) => name === exercise.name).solved);
  if (solved?.status !== 0) return;
  keep({ run: solved, before: run, words: "A way to solve the exercise", event: 0 });
  show();
}

// Makes the last change anew, where the reader wants the run to go on, or to stop.
function thenChanged() {
  const { made, words } = current();
  if (made) bendFrom({ ...made, words });
}

// Keeps the schedule and the event in the address, a little after the last move: a browser drops changes of it that come too often.
function keepAddress(entry) {
  clearTimeout(shown.timer);
  shown.timer = setTimeout(() => writeAddress(entry), 200);
}

async function writeAddress(entry) {
  const address = await addressOf(entry);
  if (entry !== current()) return;
  entry.address = address;
  history.replaceState(null, "", address);
}

async function copyLink() {
  await navigator.clipboard?.writeText(new URL(await addressOf(current()), location.href).href);
  place("link").textContent = "Copied";
  setTimeout(() => { place("link").textContent = "Copy link"; }, 1500);
}

begin();
