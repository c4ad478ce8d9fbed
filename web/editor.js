"use strict";
// The schedule, in which a reader types: its lines are numbered and marked behind the text.

const HIGH = 18;
const editor = { field: null, behind: null, timer: 0 };

// Begins an editor; `typed` is told the text a little after the last key, and `at` the line in which the caret is set, from 0.
function beginEditor(field, behind, typed, at) {
  Object.assign(editor, { field, behind });
  field.addEventListener("scroll", follow);
  field.addEventListener("input", () => {
    number(field.value);
    clearTimeout(editor.timer);
    editor.timer = setTimeout(() => typed(field.value), 120);
  });
  field.addEventListener("click", () => at(field.value.slice(0, field.selectionStart).split("\n").length - 1));
}

// Shows a schedule, unless it is the text that stands there.
function showSchedule(schedule) {
  clearTimeout(editor.timer);
  if (editor.field.value !== schedule) editor.field.value = schedule;
  number(schedule);
}

// Numbers the lines.
function number(text) {
  const count = text.replace(/\n$/, "").split("\n").length;
  editor.behind.querySelector("pre").textContent = Array.from({ length: count }, (_, line) => line + 1).join("\n");
}

function follow() {
  editor.behind.style.transform = `translateY(${-editor.field.scrollTop}px)`;
}

// Marks the line of an event, and the line at fault, counted from 0; null for none.
function markLine(now, fault) {
  for (const [name, line] of [["now", now], ["fault", fault]]) {
    const mark = editor.behind.querySelector(`.${name}`);
    mark.hidden = line === null || line < 0;
    mark.style.top = `${4 + HIGH * line}px`;
  }
}

// Scrolls so that a line is seen, unless the reader types.
function bringLine(line) {
  if (document.activeElement === editor.field) return;
  const top = HIGH * line;
  const { scrollTop, clientHeight } = editor.field;
  if (top < scrollTop || top + 40 > scrollTop + clientHeight) editor.field.scrollTop = top - clientHeight / 2;
}
