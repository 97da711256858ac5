// The baseline: a set with the desk's answers on it, beside which each later answer stands. Only
// its text is kept over a reload; the desk is asked about it again.
import { read_admit, read_diff, read_explain, read_limits } from './answers.mjs';
import { ask_baseline } from './asking.mjs';
import { difference } from './compare.mjs';
import { at, write } from './dom.mjs';
import { bytes_to_save, download } from './files.mjs';
import { keep_baseline } from './keeping.mjs';
import { followed, parts, state } from './state.mjs';
import { notice } from './trouble.mjs';
import { verdict_told } from './words.mjs';

const accounts_of = explained => new Map((explained?.accounts ?? []).map(it => [it.name, it]));

export function set_baseline({ text, name }) {
  state.baseline = {
    text, name, document: followed(text), verdict: '…', limits: null, explained: null,
    conflict: null, accounts: new Map(),
  };
  state.changes = null;
  keep_baseline(state.baseline);
  ask_baseline();
  parts.redraw();
}
export function pin_baseline() {
  set_baseline({ text: state.text, name: state.file.name });
  notice('Pinned: later answers show what has changed.');
}
export function unpin_baseline() {
  state.baseline = state.changes = null;
  keep_baseline(null);
  parts.redraw();
}
export function save_baseline() {
  const { name, text } = state.baseline, file = `baseline-${name.replace(/^baseline-/, '')}`;
  download(file, bytes_to_save(text, {}));
  notice(`Saved as ${file} among the downloads.`);
}

const HEARD = {
  admit(baseline, answer) {
    const admit = read_admit(answer);
    if (admit.kind === 'refused') {
      unpin_baseline();
      return notice(`${baseline.name} is no baseline. ${admit.sentence}`);
    }
    baseline.verdict = verdict_told(admit);
  },
  explain(baseline, answer) {
    const explained = read_explain(answer), conflict = explained?.conflict ?? null;
    Object.assign(baseline, { explained, conflict, accounts: accounts_of(explained) });
  },
  limits(baseline, answer) {
    baseline.limits = read_limits(answer);
  },
};
export function heard_of_baseline({ name, text, status, told }) {
  if (!state.baseline) return;
  HEARD[name](state.baseline, { text, status, told });
  parts.redraw();
}
export function heard_of_changes({ text, status }) {
  state.changes = read_diff({ text, status });
  show_difference();
}

// What is shown already stays; what is written since has no answer yet.
let differing = [];
const is_known = all =>
  all.length === differing.length && all.every((it, place) => it === differing[place]);
export function show_difference() {
  const { baseline, explained, limits, admit, changes, is_stale, document } = state;
  const known = [explained, limits, admit, changes, is_stale, baseline,
    ...Object.values(baseline ?? {})];
  if (is_known(known)) return;
  differing = known;
  at('compared').hidden = !baseline;
  for (const it of ['restore', 'unpin', 'save-baseline']) at(it).hidden = !baseline;
  at('pin').textContent = baseline ? 'Pin anew' : 'Pin as baseline';
  at('pin').disabled = !explained || is_stale;
  if (!baseline) return;
  const verdict = admit ? at('verdict').textContent : '';
  const now = { document, verdict, limits, accounts: accounts_of(explained) };
  const { head, summary, table } = difference(baseline, now, is_stale ? null : changes);
  at('both').replaceChildren(...head);
  write(at('changed'), summary);
  at('changes').replaceChildren(...table ? [table] : []);
  at('changes').hidden = !table;
}
