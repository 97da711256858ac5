// What the page shows of each answer on the set. Every number in it is one that the desk prints.
import {
  limit_of, notes_of, read_admit, read_explain, read_judge, read_limits, sentence_of,
} from './answers.mjs';
import { show_difference } from './baseline.mjs';
import { at, element, plural, write } from './dom.mjs';
import { offer } from './files.mjs';
import { fates, judgement } from './judging.mjs';
import { lanes } from './asking.mjs';
import { lead, line_named } from './leading.mjs';
import { cell_refused, chain_refused, node_refused, span_refused } from './refusals.mjs';
import { show_lines, show_printed, unprint } from './printing.mjs';
import {
  is_of_one, settle_run, show_choices, show_late_run, show_picture, undrawn,
} from './run.mjs';
import { cut, parts, past, state } from './state.mjs';
import { name_of, number_in, string_in } from './toml.mjs';
import { safely, trouble } from './trouble.mjs';
import { conflict_told, facts_told, mends_told, verdict_told } from './words.mjs';
export const NO_ANSWER = { kind: 'refused', refusal: null, sentence: 'no answer' };
const SHOW = {
  admit: it => {
    show_verdict(read_admit(it));
    show_notes(notes_of(it));
  },
  explain: it => show_explained(read_explain(it)),
  limits: it => show_limits(read_limits(it)),
  settings: ({ text, status }) =>
    show_settings(status === 0 || text.startsWith('thread ') ? text : null),
  certify: it => show_certificate(it.status === 0 || it.status === 3 ? it : null),
  check: ({ text }) => write(at('checked'), `desk check: ${text.trim()}`),
  releases: it => {
    if (!is_of_one()) undrawn(it.status === 0 ? '' : `No picture. ${sentence_of(it, 'until')}`);
    show_lines();
  },
  simulate: () => {},
  draw: it => {
    if (!is_of_one()) show_picture(it);
  },
};
// What the new answers have no line for goes: the picture of a refused set, say.
export function heard_of_set({ id, name, text, file, status, told }) {
  const is_growth = name === 'limits';
  if (!is_growth && id !== state.question) {
    state.question = id;
    const { limits, worst, judge, observe, play } = state.answers;
    state.answers = { ...limits && { limits }, ...worst && { worst }, ...judge && { judge },
      ...observe && { observe }, ...play && { play } };
    unprint('settings', 'certify', 'check', 'releases', 'simulate', 'draw');
  }
  state.answers[name] = { text, file, status, told };
  if (status === 6) trouble(`${name}: no memory for the whole answer.`);
  SHOW[name](state.answers[name]);
  show_printed(name, state.answers[name]);
}
// The note on a conflict stands above it; of very many others the first are shown.
const NOTES = 100;
function show_notes({ notes, conflict }) {
  state.conflict_told = conflict;
  const some = notes.slice(0, NOTES), more = notes.length - some.length;
  if (more) some.push(`and ${plural(more, 'note')} more`);
  const shown = [...at('notes').children].map(it => it.textContent);
  if (shown.join('\n') === some.join('\n')) return;
  at('notes').replaceChildren(...some.map(note => element('li', note)));
  at('notes').tabIndex = some.length > 3 ? 0 : -1;
}
export function show_verdict(admit) {
  state.admit = admit;
  if (!lanes.set.waiting) state.is_waiting = false;
  write(at('verdict'), verdict_told(admit));
  const is_yes = admit.kind === 'admitted' && !admit.missed.length;
  at('strip').className = `verdict ${is_yes ? 'is-yes' : admit.kind === 'refused' ? '' : 'is-no'}`;
  state.is_stale = admit.kind === 'refused';
  const wrong = admit.refusal ? cell_refused(admit.refusal) : null;
  const of_node = admit.refusal ? node_refused(admit.refusal) : null;
  const of_chain = admit.refusal ? chain_refused(admit.refusal, state.document) : null;
  lead('set', admit.refusal ?
    span_refused(admit.sentence, wrong, of_node ?? of_chain, state.document) : null);
  parts.overhead.mark(of_node);
  parts.chains.mark(of_chain);
  parts.table.show(
    state.document, { wrong, bad: admit.kind === 'infeasible' ? admit.names : [] });
  at('answer').classList.toggle('is-stale', state.is_stale);
  at('stale').hidden = !state.is_stale || !state.explained;
  settle_run();
  if (state.is_stale) write(at('facts'), '');
}
function show_explained(explained) {
  if (!explained) return show_conflict(null);
  state.explained = explained;
  show_conflict(explained);
  draw_bars();
  show_facts();
}
function show_conflict(explained) {
  at('conflict').hidden = !explained?.conflict;
  show_mends();
  if (explained?.conflict)
    at('conflict').replaceChildren(...conflict_told(
      state.conflict_told, explained, (name, section) => parts.table.point(name, section)));
}
// The changes that mend a refused set, beside its conflict.
function show_mends() {
  at('mends').replaceChildren(...mends_told(state.is_stale ? null : state.limits, safely(mend)));
  at('mends').hidden = !at('mends').childNodes.length;
}
function show_limits(limits) {
  state.limits = limits;
  if (!lanes.growth.waiting) {
    state.is_growing = false;
    if (limits) hold_against(limits);
  }
  show_mends();
  draw_bars();
  show_facts();
}
// The table is right where it reads of each task the deadline and the cost that the desk prints.
function hold_against(limits) {
  const { document, explained, is_stale } = state;
  if (document.why !== null) return;
  const costs = parts.table.costs();
  const deadlines = new Map(document.tasks.map(it => [name_of(it), number_in(it, 'deadline')]));
  const cost_read = name => limit_of(limits, name, 'cost')?.value;
  const other = [...limits.tasks.keys()]
    .find(it => cost_read(it) !== undefined && costs.get(it) !== cost_read(it)) ??
    [...costs.keys()].find(it => limits.is_whole && !limits.tasks.has(it)) ??
      (is_stale || lanes.set.is_busy ? null :
      explained?.accounts.find(
      it => it.deadline !== undefined && deadlines.get(it.name) !== it.deadline)?.name);
  if (!other) return;
  state.document = { ...document, tasks: [],
    why: `the desk reads ${other} otherwise than the table` };
  show_document();
}
export function show_facts() {
  if (state.is_stale) return;
  const facts = facts_told(state.explained, state.limits, state.baseline);
  if (facts.map(it => it.textContent).join('') !== at('facts').textContent)
    at('facts').replaceChildren(...facts);
}
export function draw_bars() {
  const { tasks, why } = state.document;
  const { explained, limits, baseline: was } = state;
  parts.chains.show(state.document, { explained, limits, was });
  at('chain-legend').hidden = !at('chains').childNodes.length;
  if (!explained) return;
  parts.bars.show({
    explained, limits, was, can_edit: why === null,
    deadlines: new Map(why === null ?
      tasks.map(it => [name_of(it), number_in(it, 'deadline')]) : []),
    costs: why === null ? parts.table.costs() : new Map(),
  });
  parts.scale.show(limits?.all, why === null && tasks.length > 0);
  show_difference();
}
function show_settings(text) {
  write(at('settings'), text ?? '');
  at('copy').disabled = at('fill').disabled = text === null;
  offer(at('settings-file'), 'settings', text);
}
function show_certificate(answer) {
  write(at('certificate-text'), answer ? cut(answer) : '');
  at('copy-certificate').disabled = !answer;
  offer(at('certificate'), 'desk.cert', answer && (answer.file ?? answer.text));
  if (!answer) write(at('checked'), '');
  show_lines();
}
// ---- the priorities that a node has
export function heard_of_node(answer) {
  if (!answer) return show_judgement(null);
  const { text, status, told } = answer;
  state.answers.judge = { text, status, told };
  show_judgement(read_judge(answer));
}
function show_judgement(judged) {
  const { text, is_good } = judged ? judgement(judged) : { text: '' };
  lead('judged', judged?.refused ? line_named(judged.refused, at('judged').value) : null);
  at('judgement').className = is_good ? 'yes' : 'no';
  write(at('judgement'), text);
  at('fates').replaceChildren(...judged ? fates(judged.rows) : []);
  show_lines();
}
// ---- what was written
export function show_document() {
  const { why, root } = state.document;
  parts.table.show(state.document);
  parts.overhead.show(state.document);
  at('untabled').hidden = why === null;
  const only = 'so only the text is edited; the desk answers to it all the same.';
  if (why !== null) write(at('untabled'), `The table doesn't follow this text (${why}), ${only}`);
  at('add').disabled = at('add-chain').disabled = why !== null;
  at('by-deadline').disabled = why !== null;
  const is_so = string_in(root, 'prefer') === 'deadline';
  at('by-deadline').setAttribute('aria-pressed', is_so);
  at('undo').disabled = !past.can_undo;
  at('redo').disabled = !past.can_redo;
  write(at('file-name'), state.file.name);
  show_choices();
}
// What is known no more once an answer is late: the limits of the set before it are not shown for
// long beside new bounds.
export function show_late() {
  if (state.is_waiting) {
    at('strip').className = 'verdict';
    write(at('verdict'), '…');
  }
  show_late_run();
  if (!state.is_growing || !state.limits) return;
  state.limits = null;
  show_mends();
  draw_bars();
  show_facts();
}
export function show_fallen(name) {
  if (name === 'admit' || !name && state.is_waiting)
    show_verdict(NO_ANSWER);
}
