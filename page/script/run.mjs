// Which run is drawn: that of all tasks together, or the worst case of one; of a set that no order
// passes that of the task which the desk finds late. Above it stands what the desk says of it.
import { read_worst } from './answers.mjs';
import { ask_worst, lanes } from './asking.mjs';
import { at, element, us, write } from './dom.mjs';
import { offer } from './files.mjs';
import { is_drawable } from './picture.mjs';
import { show_lines, show_printed, unprint } from './printing.mjs';
import { parts, state } from './state.mjs';
import { name_of } from './toml.mjs';
import { safely, trouble } from './trouble.mjs';

const COMES_TO = {
  bound: ({ name, response, bound }) =>
    `In its worst case ${name} takes ${us(response)}, of its bound ${us(bound)}.`,
  misses: ({ name, deadline }) => `${name} misses its deadline of ${us(deadline)} in this order.`,
  'must-outrank': ({ name, other }) =>
    `${name} meets its deadline in this order, but must stand above ${other}: no run shows that.`,
  'too-many-releases': ({ name }) =>
    `The worst case of ${name} has more than 10\u202f000 jobs: too many for a run.`,
  'below-a-miss': ({ name }) => `${name} meets its deadline in this order, but a job above it ` +
    'misses its own first: the run ends there.',
  below: ({ name, other }) =>
    `${other}, above ${name} in this order, doesn't pass: the run shows no miss of ${name}.`,
  'ends-inside-a-section': ({ name }) => `${name} doesn't pass, but its job ends inside a ` +
    'section that a task above waits for, and is done in time: no run shows a miss.',
  'within-a-tick': ({ name }) => `${name} doesn't pass, by no more than the first µs of the ` +
    'section that blocks it, which is over in a run: none shows a miss.',
  'within-interrupts': ({ name }) => `${name} doesn't pass, by no more than what timers and ` +
    'interrupts take, which a run doesn\'t have: none shows a miss.',
};
function worst_told(found) {
  const { name, fate, other } = found;
  if (name === null) return '';
  return COMES_TO[fate]?.(found) ?? [name, fate, other ?? ''].join(' ').trim();
}

// Whether what is drawn is the worst case of one task.
export const is_of_one = () => state.run_of !== null || state.admit?.kind === 'infeasible';

export function undrawn(text) {
  at('undrawn').hidden = !text;
  write(at('undrawn'), text);
}
function no_picture(why = '') {
  parts.picture.clear();
  offer(at('svg'), 'desk.svg', null);
  undrawn(why);
}
// A deadline that is missed is at the end; it is shown there once, not at each edit.
let shown_miss = null;
export function show_picture({ text, status }) {
  if (status !== 0) return;
  offer(at('svg'), is_of_one() ? 'worst.svg' : 'desk.svg', text, 'image/svg+xml');
  const miss = is_of_one() && state.worst?.fate === 'misses' ? state.worst.name : null;
  const is_new = miss !== null && miss !== shown_miss;
  shown_miss = miss;
  if (parts.picture.show(text, false, is_new)) return undrawn('');
  undrawn(is_drawable(text) ? 'The picture is long. ' : 'The picture is very long: download it.');
  const onclick = safely(() => undrawn(parts.picture.show(text, true) ? '' : 'It is no picture.'));
  if (is_drawable(text))
    at('undrawn').append(element('button.small', { type: 'button', onclick }, 'Draw it'));
}

// ---- what is chosen

const names_of = ({ document, explained }) => document.why === null ?
  document.tasks.map(name_of).filter(it => it) : (explained?.accounts ?? []).map(it => it.name);
export function show_choices() {
  const names = new Set(names_of(state)), list = at('run-of'), is_one = is_of_one();
  if (state.run_of !== null) names.add(state.run_of);
  if (is_one && state.worst?.name) names.add(state.worst.name);
  const wanted = ['', ...names];
  if ([...list.options].map(it => it.value).join('\n') !== wanted.join('\n'))
    list.replaceChildren(...wanted.map(it => element('option', { value: it },
      it ? `worst case of ${it}` : 'all together')));
  list.options[0].disabled = state.admit?.kind === 'infeasible';
  list.value = is_one ? state.run_of ?? state.worst?.name ?? '' : '';
  at('how-together').hidden = is_one;
  at('how-worst').hidden = !is_one;
  at('until').disabled = at('longer').disabled = is_one;
}
function forget() {
  delete state.answers.worst;
  state.worst = null;
  unprint('worst');
  write(at('worst'), '');
}
// The run of all tasks for none; of a set that no order passes that of the task that is late.
export function choose_run(name) {
  state.run_of = name;
  if (is_of_one()) ask_worst();
  else {
    forget();
    lanes.worst.stop();
    if (state.answers.draw) show_picture(state.answers.draw);
  }
  show_choices();
  show_lines();
}

// ---- what the desk answers

// A set has another verdict.
export function settle_run() {
  const { admit, run_of } = state;
  if (admit.kind === 'infeasible' && run_of === null) ask_worst();
  if (admit.kind === 'refused' || !is_of_one()) forget();
  if (admit.kind === 'refused') no_picture('The set is refused, so there is no run to draw.');
  else if (is_of_one()) undrawn('');
  show_choices();
}
// (of which question the picture is the answer)
let drawn_of = null;
export function heard_of_worst({ id, name, text, status, told }, asked) {
  if (asked.text !== state.text || asked.of !== state.run_of || !is_of_one()) return;
  if (name === 'draw') {
    drawn_of = id;
    return show_picture({ text, status });
  }
  if (status === 6) trouble('worst: no memory for the whole answer.');
  // (a name that the set has no more)
  if (/^refused: NoSuchTask\b/.test(text)) return choose_run(null);
  const found = read_worst({ text, status });
  if (!found) return;
  state.answers.worst = { text, status, told };
  state.worst = { ...found, id };
  show_printed('worst', state.answers.worst);
  at('worst').className = found.fate === 'bound' ? '' : 'no';
  write(at('worst'), worst_told(found));
  if (!found.has_list) no_picture();
  show_choices();
  show_lines();
}
// What is drawn is of another text, and the answer is late.
export function show_late_run() {
  if (!is_of_one() || !lanes.worst.is_busy || lanes.worst.asked?.id === drawn_of) return;
  if (state.worst?.id !== lanes.worst.asked?.id) forget();
  no_picture();
}
