// What was written, and what is known of it: the one state of the page, and the texts before it.
import { at } from './dom.mjs';
import { History } from './history.mjs';
import { read_document } from './toml.mjs';

// What is shown as text, and at most so much of it. A longer text, or one with more tasks, has no
// table.
const SHOWN = 200000, TABLED = 300000, ROWS = 100;
// (of an answer that is longer than its text, `file` has the whole)
export function cut({ text, file }) {
  const size = file?.size ?? text.length;
  if (size <= SHOWN) return text;
  return `${text.slice(0, SHOWN)}\n(cut here: the whole has ${size} bytes)\n`;
}

export const state = {
  text: at('set').value, document: null,
  file: { name: 'robot-mended.toml', has_mark: false, has_crlf: false },
  answers: {}, admit: null, explained: null, limits: null, baseline: null, changes: null,
  // (whose worst case is drawn, none for all tasks, and what the desk says of it)
  run_of: null, worst: null,
  conflict_told: null, is_stale: false, is_waiting: true, is_growing: true, question: 0,
};
export const past = new History(state.text);
// The parts of the page that draw, and what they call: the table, the bars, the picture and so on.
export const parts = {};
// A text as the table has it; how it is read decides nothing but that.
export function followed(text) {
  const none = why => ({ ...read_document(''), text, why });
  if (text.length > TABLED) return none(`it is long, ${text.length} letters`);
  const document = read_document(text);
  return document.tasks.length > ROWS ? none(`it has ${document.tasks.length} tasks`) : document;
}
