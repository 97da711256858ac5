// The verdict, the minimal conflict and the facts beside them, in words.
import { number_told } from './bars.mjs';
import { element, grouped, plural, thousandths, us } from './dom.mjs';
import { fate_told } from './judging.mjs';

export function verdict_told(admit) {
  if (admit.kind === 'admitted')
    return [`Admitted: ${plural(admit.count, 'task')}`, ...admit.missed].join('; ');
  if (admit.kind === 'infeasible') return `No order passes: ${admit.names.join(', ')}`;
  return admit.sentence;
}

// Who blocks a task, if anybody does; `point` shows a section in the table.
function blocked_told(parts, point) {
  const blocked = parts.find(it => it.kind === 'blocked');
  if (!blocked) return [];
  const title = 'Show this section in the table';
  const onclick = () => point(blocked.by, blocked.section);
  const button = element('button.small', { type: 'button', title, onclick },
    `${blocked.by}, section ${blocked.section}`);
  return [`; blocked ${grouped(blocked.time)} by `, button, ` that holds ${blocked.lock}`];
}
// What each task of a conflict needs, and who blocks it.
function need_told(account, point) {
  const { name, over, time, deadline, parts } = account, told = [element('b', name)];
  if (over) return element('li', ...told, ` must stand above ${over}.`);
  told.push(` needs ${grouped(time)} of ${us(deadline)}`);
  if (time > deadline) told.push(element('span.no', `, ${grouped(time - deadline)} too long`));
  return element('li', ...told, ...blocked_told(parts, point), '.');
}
// Each change that mends the set, as a button that makes it.
function mend_told([name, limit], mend) {
  const { value, most, along } = limit;
  const with_it = along ? `, with ${along.key} ${grouped(along.most)}` : '';
  const what = `${name}: ${number_told(limit)} ${grouped(value)} → ${grouped(most)}${with_it}`;
  return element(
    'li', element('button.small', { type: 'button', onclick: () => mend(name, limit) }, what));
}
export function mends_told(limits, mend) {
  if (!limits || limits.is_whole) return [];
  const all = [...limits.tasks].flatMap(([name, rows]) => rows.map(it => [name, it]));
  const common = limits.common.map(({ what, value, most }) =>
    element('li', `${what} ${grouped(value)} → ${grouped(most)}`));
  if (!all.length && !common.length)
    return [limits.has_none ? 'No single change of a number mends it.'
      : 'No single change of a number mends it that `limits` tries: ' +
        'it moves no period of a task with an offset.'];
  return ['Each of these changes alone mends it:',
    element('ul', ...all.map(it => mend_told(it, mend)), ...common)];
}
// What becomes of each task in an order that passes wherever one does, and who blocks it where it
// misses its deadline; the highest stands on top.
function order_told(order, point) {
  if (!order.length) return [];
  const rows = [...order].reverse().map(it =>
    element('li', element('b', it.name), `, level ${it.level}: ${fate_told(it)}`,
      ...blocked_told(it.parts, point)));
  return [element('details', element('summary', 'In an order that passes wherever one does'),
    element('ul', ...rows))];
}
// The desk's word on the conflict, what each of its tasks needs, and one order of all.
export function conflict_told(word, { accounts, order }, point) {
  const needs = element('ul', ...accounts.map(it => need_told(it, point)));
  return [...word ? [`${word}:`] : [], needs, ...order_told(order, point)];
}

export function facts_told(explained, limits, was) {
  const facts = [];
  if (typeof explained?.load === 'number')
    facts.push(element('span', 'load ', element('b', `${(explained.load / 10000).toFixed(1)} %`)));
  const all = limits?.all;
  if (all === null) facts.push(element('span', 'no faster processor helps'));
  if (typeof all === 'number') {
    const before = was?.limits?.all, is_other = typeof before === 'number' && before !== all;
    const was_told = is_other ? element('span.faint', ` (was ${thousandths(before)})`) : '';
    facts.push(
      element('span', 'all execution × ', element('b', thousandths(all)), was_told,
      all < 1000 ? ' would do' : ' still passes'));
  }
  return facts;
}

// The commands that print what the page shows, of a set's file.
export function lines_told(file, { admit, releases, worst }, has_settings, task) {
  const set = /^[\w.+][\w.+-]*$/.test(file) ? file : `'./${file.replaceAll("'", "'\\''")}'`;
  const lines = [`desk admit ${set}`];
  if (!admit || admit.status === 4) return lines;
  lines.push(`desk explain ${set} --all`, `desk limits ${set}`);
  if (admit.status === 0) lines.push(`desk settings ${set} > settings`);
  lines.push(`desk certify ${set} > desk.cert`, `desk check ${set} desk.cert`);
  if (releases?.status === 0)
    lines.push(
      `desk releases ${set} ${releases.text.split(/\s/)[1]} | desk draw ${set} - > desk.svg`);
  if (/^until [1-9]/m.test(worst?.text))
    lines.push(`desk worst ${set}${task === null ? '' : ` --task ${task}`} | ` +
      `desk draw ${set} - > worst.svg`);
  if (has_settings) lines.push(`desk judge ${set} node-settings`);
  return lines;
}
