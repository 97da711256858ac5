// What has changed since a baseline, in words: all that stands in it `diff` and `limits` print, or
// it is written in one of the two texts.
import { limit_of } from './answers.mjs';
import { element, grouped, plural, thousandths } from './dom.mjs';

const KINDS = { removed: 'no longer there', added: 'new' };
const or_none = value => value === null || value === undefined ? '–' : grouped(value);

// Two numbers, and whether the second is better, where both are there.
function cell_of([before, now], more_is_better = null) {
  if (before === now) return element('td', or_none(now));
  const is_known = before !== null && now !== null && more_is_better !== null;
  const kind = !is_known ? 'td' : now > before === more_is_better ? 'td.better' : 'td.worse';
  return element(kind, `${or_none(before)} → ${or_none(now)}`);
}
// What a task's sheet says otherwise, with what was and what is.
const put = word => word === '-' ? '–' : /^\d+$/.test(word) ? grouped(Number(word)) : word;
function what_of({ kind, keys }) {
  if (!keys.length) return KINDS[kind] ?? kind;
  return keys.map(({ key, old, now }) => `${key} ${put(old)} → ${put(now)}`).join(', ');
}
function growth_of(name, was, now) {
  const limits = [was, now].map(it => limit_of(it.limits, name, 'cost'));
  return limits.map(it => it?.in_order ?? null);
}
function row_of(it, was, now) {
  const head = element('th', { scope: 'row' }, it.name), growth = growth_of(it.name, was, now);
  const what = what_of(it);
  return element('tr', head, element('td.what', what), cell_of(it.level),
    cell_of(it.bound, false), cell_of(it.left, true), cell_of(growth, true));
}
// Tasks of which `diff` has nothing to say, but whose cost may now grow further or less far.
function grown(changes, was, now) {
  const known = new Set(changes.map(it => it.name));
  const names = was.limits?.is_whole && now.limits?.is_whole ? [...now.limits.tasks.keys()] : [];
  const is_other = name => !known.has(name) && new Set(growth_of(name, was, now)).size > 1;
  return names.filter(is_other).map(name => {
    const { level, time } = now.accounts.get(name) ?? { level: null, time: null };
    const left = limit_of(now.limits, name, 'slack')?.value ?? null;
    const [levels, bounds, lefts] = [level, time, left].map(it => [it, it]);
    return { kind: '', name, keys: [], level: levels, bound: bounds, left: lefts };
  });
}
const said = ({ verdict, limits }) =>
  verdict + (limits?.all ? `, all execution × ${thousandths(limits.all)}` : '');

// Both verdicts; how many tasks and chains changed, and the table of them. `changes` is null where
// the new set is refused.
export function difference(was, now, changes) {
  const name = was.name ? ` ${was.name}` : '';
  const head = [element('p', element('b', `Baseline${name}: `), said(was)),
    element('p', element('b', 'Now: '), said(now))];
  if (!changes) return { head, summary: '', table: null };
  const all = [...changes, ...grown(changes, was, now)];
  const rows = all.map(it => row_of(it, was, now));
  const none = 'No task, level, bound or limit of a cost has changed.';
  if (!rows.length) return { head, summary: none, table: null };
  const heads = ['task', 'what', 'level', 'bound µs', 'left of the deadline', 'cost up to'];
  const cells = heads.map(it => element('th', { scope: 'col' }, it));
  const table = element('table.changes', { 'aria-label': 'changes since the baseline' },
    element('thead', element('tr', ...cells)), element('tbody', ...rows));
  const chains = changes.filter(it => it.name.startsWith('chain ')).length;
  const counts = [[rows.length - chains, 'task'], [chains, 'chain']].filter(([count]) => count);
  return { head, summary: `Changed: ${counts.map(it => plural(...it)).join(', ')}`, table };
}
