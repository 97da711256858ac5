// What somebody writes: each edit makes another text, which the desk is asked about.
import { show_text, show_text_soon } from './area.mjs';
import { ask } from './asking.mjs';
import { at } from './dom.mjs';
import { text_of_fragment } from './files.mjs';
import { keep_set } from './keeping.mjs';
import { show_lines } from './printing.mjs';
import { draw_bars, show_document } from './showing.mjs';
import { followed, parts, past, state } from './state.mjs';
import {
  name_of, put_key, put_preference, sections_in, set_number, spliced, string_in,
} from './toml.mjs';
import { notice, safely } from './trouble.mjs';
// The text is another. `by` is what was edited: the text area keeps what is typed there.
export function change(text, { key = null, by = '' } = {}) {
  if (text === state.text) return;
  past.push(text, key, parts.bars.pulled !== null);
  become(text, by);
}
function become(text, by = '') {
  state.text = text;
  notice('');
  if (by !== 'text') show_text_soon();
  state.document = followed(text);
  ask();
  keep_set(state);
  show_document();
  draw_bars();
}
export const edit =
  safely((splices, key = null) => change(spliced(state.text, splices), { key, by: 'table' }));
export function travel(text) {
  if (text === null) return;
  become(text);
  if (document.activeElement === at('set')) show_text();
}
export function grow(name, wanted) {
  const index = state.document.tasks.findIndex(it => name_of(it) === name);
  if (index < 0) return;
  const ends = sections_in(state.document.tasks[index]).map(it => (it.at ?? 0) + (it.len ?? 0));
  const cost = Math.max(1, wanted, ...ends);
  edit(set_number(state.document, index, 'cost', cost), `grip ${name} ${parts.bars.pulls}`);
}
// A number of a task, as far as `limits` says that it has to come, with the one that goes along.
export function mend(name, limit) {
  const { document } = state, { key, section, most, along } = limit;
  const index = document.tasks.findIndex(it => name_of(it) === name);
  const task = document.tasks[index];
  if (!task) return;
  if (section !== null)
    return edit(put_key(document, task.sections[section - 1], key, String(most)));
  edit([...set_number(document, index, key, most),
    ...along ? set_number(document, index, along.key, along.most) : []]);
}
// The set says that shorter deadlines stand higher, or says so no more.
export function prefer_deadlines() {
  const is_so = string_in(state.document.root, 'prefer') === 'deadline';
  edit(put_preference(state.document, is_so ? null : 'deadline'));
}
export function take_file({ name, text, has_mark, has_crlf, is_utf8 }) {
  state.file = { name, has_mark, has_crlf };
  change(text);
  show_document();
  show_lines();
  keep_set(state);
  notice(is_utf8 ? `Opened ${name}.` :
    `${name} isn't UTF-8: what couldn't be read is shown as �.`);
}
export async function take_fragment() {
  if (!location.hash.startsWith('#set=')) return false;
  const text = await text_of_fragment(location.hash).catch(() => null);
  if (text === null) notice('The link has no set that can be read.');
  else change(text);
  return text !== null;
}
