// The text area. It has the set's text; but a long one takes the browser a while to lay out: of it
// the lines that can be seen stand there, until somebody goes to them.
import { at } from './dom.mjs';
import { state } from './state.mjs';
import { safely } from './trouble.mjs';

// Letters, and the lines of a part.
const LONG_TEXT = 20000, LINES = 100;
// The first line of the part that is shown, counted from 0; none where the whole text is.
let first_line = null;
let area_timer = 0, is_filling = false;

const is_long = () => state.text.length > LONG_TEXT;
const line_height = area => parseFloat(getComputedStyle(area).lineHeight);
const wrap_of = () => is_long() ? 'off' : 'soft';

// What somebody has typed, or null where the page itself has.
export function typed_in_area() {
  if (is_filling) return null;
  at('set').readOnly = false;
  first_line = null;
  return at('set').value;
}
// It gets the newest text after the edit, and stays where it was scrolled to.
export function show_text_soon() {
  clearTimeout(area_timer);
  area_timer = setTimeout(safely(show_text));
}
export function show_text() {
  clearTimeout(area_timer);
  if (is_long() && document.activeElement !== at('set')) show_part();
  else fill_area();
}

// From where a line of the text begins, or its end.
function line_from(line, start = 0) {
  let from = start;
  for (let left = line; left > 0; left--) {
    const end = state.text.indexOf('\n', from);
    if (end < 0) return state.text.length;
    from = end + 1;
  }
  return from;
}
function show_part() {
  const area = at('set'), height = line_height(area);
  let top = area.scrollTop;
  if (first_line === null) {
    first_line = Math.floor(top / height);
    top -= first_line * height;
  }
  if (line_from(first_line) === state.text.length) first_line = 0;
  const start = line_from(first_line), end = line_from(LINES, start);
  Object.assign(area, { wrap: wrap_of(), readOnly: true });
  area.value = state.text.slice(start, Math.min(end, start + LONG_TEXT));
  area.scrollTop = top;
}
// The whole text, where somebody goes to it.
function fill_area() {
  clearTimeout(area_timer);
  const area = at('set'), was_at = first_line;
  if (was_at === null && area.value === state.text) return;
  if (was_at === null && document.activeElement === area) return put_difference(area);
  const top = area.scrollTop + (was_at === null ? 0 : was_at * line_height(area));
  first_line = null;
  Object.assign(area, { wrap: wrap_of(), readOnly: false, value: state.text });
  if (top) area.scrollTop = top;
}
export const fill_part = () => { if (first_line !== null) fill_area(); };

// Where somebody is in it, only what differs becomes other, as by typing: the browser lays out no
// more than that.
function put_difference(area) {
  const { text } = state, was = area.value, most = Math.min(text.length, was.length);
  let from = 0, behind = 0;
  while (from < most && text[from] === was[from]) from++;
  while (behind < most - from && text.at(-1 - behind) === was.at(-1 - behind)) behind++;
  const put = text.slice(from, text.length - behind);
  is_filling = true;
  area.setSelectionRange(from, was.length - behind);
  if (put.length < LONG_TEXT) document.execCommand(put ? 'insertText' : 'delete', false, put);
  is_filling = false;
  if (area.value !== text) area.value = text;
  area.setSelectionRange(from, from);
}
