// The page beside the program: each printed line, each bar, its parts and their widths.
import { digits, equal, expect, kinds, native } from './page.mjs';

// (a comma stands behind the lock where its ceiling follows)
const lock_of = words => words[7].replace(',', '');
const plural = (count, word) => `${count} ${word}${count === '1' ? '' : 's'}`;
const PARTS = { cost: it => `own cost: ${it[1]} µs`, jitter: it => `jitter: ${it[1]} µs`,
  node: it => `what the node takes of it: ${it[1]} µs`,
  timers: it => `timers of all tasks: ${it[1]} µs`,
  interrupt: it => `interrupt ${it[1]}: ${plural(it[2], 'time')}, ${it[4]} µs`,
  blocked: it => `blocked by ${it[3]}, section ${it[5]}, lock ${lock_of(it)}` +
    `${it[10] ? `, its ceiling by ${it[10]}` : ''}: ${it[1]} µs`,
  above: it => `${it[1]} above: ${plural(it[2], 'job')}, ${it[4]} µs` };
// Each bar has the account's numbers, a part for each part of it, and their widths.
function compare_bars(what, explain, { bars }) {
  const [accounted] = explain.text.split(/\nload \d+\n/);
  const is_yes = accounted.startsWith('admitted ');
  const blocks = accounted.split(/\n(?! )/).slice(1).filter(it => !it.startsWith('conflict '));
  const drawn = bars.filter(it => it.is_drawn);
  const timed = blocks.filter(it => / \d+ of \d+(\n|$)/.test(it));
  equal(drawn.length, timed.length, `${what}: bars`);
  for (const block of timed) {
    const [head, ...parts] = block.split('\n');
    const [, level, name, time, deadline] = head.match(/^(?:(\d+) )?(\S+) (\d+) of (\d+)$/);
    const bar = bars.find(it => it.name === name);
    if (!bar) return expect(false, `${what}: no bar of ${name}`);
    const late = Number(time) - Number(deadline);
    equal(digits(bar.told), `${time} of ${deadline} µs${late > 0 ? ` ${late} too long` : ''}`,
      `${what}: ${name}`);
    equal(bar.level, level ?? '', `${what}: level of ${name}`);
    equal(digits(bar.parts.join('|')).replace(/ \([\d.]+ % of the deadline\)/g, ''),
      parts.map(it => it.trim().split(' ')).map(it => PARTS[it[0]](it)).join('|'),
      `${what}: parts of ${name}`);
    const scale = Math.max(time, deadline);
    expect(Math.abs(bar.width - 100 * time / scale) < .01 &&
      Math.abs(bar.end - 100 * deadline / scale) < .01,
      `${what}: ${name} is ${bar.width} wide, ends at ${bar.end}`);
    const ends = bar.places.map(([left, width]) => left + width);
    expect(bar.places.every(([left], at) => Math.abs(left - (ends[at - 1] ?? 0)) < .02) &&
      Math.abs(ends.at(-1) - 100 * time / scale) < .2,
      `${what}: the parts of ${name} don't touch: ${bar.places}`);
    equal(bar.is_bad, !is_yes, `${what}: red of ${name}`);
  }
  if (is_yes)
    equal(bars.map(it => it.name).join(), blocks.map(it => it.split(' ')[1]).reverse().join(),
      `${what}: order of the bars`);
}
// Each chain that `explain` says has a row with its bound beside its limit, its parts and their
// widths, and what `limits` says that is left of it.
const CHAIN_PARTS = { wait: 'wait for', jitter: 'jitter of', response: 'response of',
  deadline: 'deadline of' };
const chain_part = it => `${CHAIN_PARTS[it[0]]} ${it[1]}` +
  `${it[2] === 'less' ? `, less the cost of ${it[4]}` : ''}`;
function compare_chains(what, explain, limits, { chains }) {
  const [, said] = explain.text.startsWith('admitted ') ? explain.text.split(/\nload \d+\n/) : [];
  const blocks = said ? said.trimEnd().split(/\n(?! )/) : [];
  equal(chains.filter(it => it.is_drawn).length, blocks.length, `${what}: bars of chains`);
  for (const block of blocks) {
    const [head, ...lines] = block.split('\n'), parts = lines.map(it => it.trim().split(' '));
    const [, name, time, , limit, , least] = head.split(' ');
    const row = chains.find(it => it.name === name);
    if (!row) return expect(false, `${what}: no bar of chain ${name}`);
    const late = Number(time) - Number(limit), whole = limit ?? time;
    equal(digits(row.told), limit === undefined ? `${time} µs` : `${time} of ${limit} µs` +
      `${late > 0 ? ` ${late} too long` : ''}${least ? `, at least ${least} in any order` : ''}`,
      `${what}: chain ${name}`);
    equal(row.is_bad, late > 0, `${what}: red of chain ${name}`);
    const of_whole = / \([\d.]+ % of the (limit|bound)\)/g;
    equal(digits(row.parts.join('|')).replace(of_whole, ''),
      parts.map(it => `${chain_part(it)}: ${it.at(-1)} µs`).join('|'), `${what}: parts of ${name}`);
    const scale = Math.max(time, whole);
    expect(row.widths.every((it, at) => Math.abs(it - 100 * parts[at].at(-1) / scale) < .01) &&
      (limit === undefined ? row.end === null : Math.abs(row.end - 100 * limit / scale) < .01),
      `${what}: chain ${name} is ${row.widths} wide, ends at ${row.end}`);
    const slack = limits.text.match(new RegExp(`^chain ${name} (slack \\d+)$`, 'm'))?.[1] ?? '';
    equal(digits(row.room), slack, `${what}: slack of chain ${name}`);
  }
}
// What a row of a chain shows that is opened: its parts, and how far numbers may go with it met.
export function compare_opened(what, name, { answers, chains }) {
  const { parts, opened } = chains.find(it => it.name === name);
  const reaches = [...answers.limits.text.matchAll(/^chain (\S+) (\S+) (.+) (\d+) (\d+)$/gm)]
    .filter(it => it[1] === name).map(([, , task, key, value, furthest]) => `${task}: ` +
      `${key.replace(/^section (\d+) len$/, 'length of section $1')}|${value}|${furthest}`);
  const told = parts.map(it =>
    digits(it).replace(/: (\d+) µs \((.*) of the (limit|bound)\)$/, '|$1|$2'));
  expect(reaches.length > 0, `${what}: no number may go anywhere with ${name} met`);
  equal(opened.map(digits).join('\n'), [...told, ...reaches].join('\n'),
    `${what}: what ${name} shows`);
}
// What becomes of each task in the order behind the conflict, and who blocks one that misses.
const FATES = { misses: it => `misses ${it[3]} µs, needs ${it[5]}`,
  below: it => `stands below ${it[3]}` };
const fate = it => FATES[it[2]]?.(it) ?? `${it[2]} of ${it[4]} µs`;
const blocked = parts => parts.map(it => it.trim().split(' ')).filter(it => it[0] === 'blocked')
  .map(it => `; blocked ${it[1]} by ${it[3]}, section ${it[5]} that holds ${lock_of(it)}`).join('');
function compare_order(what, explain, conflict) {
  const [, order] = explain.text.split(/\nload \d+\n/);
  const told = order.trimEnd().split(/\n(?! )/).map(block => {
    const [head, ...parts] = block.split('\n'), words = head.split(' ');
    return `${words[1]}, level ${words[0]}: ${fate(words)}${blocked(parts)}`;
  });
  expect(digits(conflict).endsWith(told.reverse().join('')), `${what}: ${conflict}`);
}
// Each change of a task's number that mends a refused set has its button.
const TASKS_OWN = /^(cost|period|deadline|jitter|section)$/;
function compare_mends(what, limits, mends) {
  const lines = limits.split('\n').slice(1).map(it => it.split(' with '))
    .map(([front, along]) => [front.split(' '), along])
    .filter(([words]) => words.length > 4 && TASKS_OWN.test(words[1]));
  const wanted = lines.map(([words, along]) => {
    const [name, key] = words, [value, , most] = words.slice(-3);
    const what = key === 'section' ? `length of section ${words[2]}` : key;
    return `${name}: ${what} ${value} → ${most}${along ? `, with ${along}` : ''}`;
  });
  equal(mends.map(digits).join('|'), wanted.join('|'), `${what}: what mends it`);
}
export function same(name, found, wanted, shown) {
  const head = it => `[${it?.status}] ${JSON.stringify(it?.text?.slice(0, 80))}`;
  expect((shown === undefined || shown === wanted.text) && found?.text === wanted.text &&
    found.status === wanted.status, `${name}: ${head(found)}, and not ${head(wanted)}`);
}
// A sentence of the program for what it reads from standard input, as the page shows it.
export const sentence = ({ told }) => `Refused: ${told.trim().replace(/^standard input: /, '')}`;
// What is told of a set: the sentence of its refusal, or the notes; that on a conflict above it.
function compare_told(what, admit, { verdict, strip, notes, conflict }) {
  const all = admit.told.split('\n').filter(it => it.startsWith('note: ')).map(it => it.slice(6));
  const why = ' desk explain says why', on_conflict = all.find(it => it.endsWith(`:${why}`));
  equal(notes.join('\n'), all.filter(it => it !== on_conflict).join('\n'), `${what}: notes`);
  if (on_conflict)
    expect(conflict.startsWith(on_conflict.replace(why, '')), `${what}: ${conflict}`);
  if (admit.status !== 4) return;
  equal(verdict, sentence(admit), `${what}: ${admit.text.trim()}`);
  expect(!/no|yes/.test(strip), `${what}: the strip is ${strip}`);
}
export function compare_set(what, set, seen) {
  const { answers, shown, slices, bars } = seen;
  const wanted = Object.fromEntries(
    ['admit', 'settings', 'certify', 'limits'].map(it => [it, native(it, [set])]));
  wanted.explain = native('explain', [set], ['--all']);
  // (a chain that misses its limit is a no, too)
  const is_yes = wanted.admit.text.startsWith('admitted ');
  const is_no = wanted.admit.status === 3 && !is_yes;
  if (wanted.certify.status !== 4) wanted.check = native('check', [set, wanted.certify.text]);
  if (is_yes) {
    wanted.releases = native('releases', [set], [answers.releases.text.split(/\s/)[1]]);
    wanted.simulate = native('simulate', [set, wanted.releases.text]);
    wanted.draw = native('draw', [set, wanted.releases.text]);
  }
  if (is_no) wanted.worst = native('worst', [set]);
  for (const [name, it] of Object.entries(wanted))
    same(`${what}: ${name}`, answers[name], it, it.text.length < 200000 ? shown[`printed-${name}`] :
      undefined);
  const kind = wanted.admit.text.split(/\s/)[0];
  kinds[kind] = (kinds[kind] ?? 0) + 1;
  expect(Object.keys(answers).every(it => wanted[it] || ['play', 'judge', 'observe'].includes(it)),
    `${what}: more answers than wanted: ${Object.keys(answers)}`);
  equal(shown.settings, is_yes ? wanted.settings.text : '',
    `${what}: settings to copy`);
  equal(seen.trouble, '', `${what}: trouble`);
  if (wanted.explain.status !== 4) {
    compare_bars(what, wanted.explain, seen);
    compare_chains(what, wanted.explain, wanted.limits, seen);
  }
  if (is_yes && seen.is_tabled)
    for (const [name, , cost, in_order, most] of wanted.limits.text.split('\n').slice(1)
      .map(it => it.split(' ')).filter(it => it[1] === 'cost')) {
      const deadline =
        Number(wanted.explain.text.match(new RegExp(`^\\d+ ${name} \\d+ of (\\d+)$`, 'm'))[1]);
      const at = it => Math.min(100, 100 * it / deadline);
      const [reach, any] = bars.find(it => it.name === name)?.reach ?? [];
      expect(Math.abs(reach - at(in_order)) < .01 &&
        (most === in_order ? any === null : Math.abs(any - at(most)) < .01),
        `${what}: marks of ${name} at ${reach}, ${any}`);
      equal(digits(bars.find(it => it.name === name)?.room ?? ''),
        `cost ${cost} ≤ ${in_order}${most === in_order ? '' : ` (${most})`}`,
        `${what}: how far the cost of ${name} may go`);
    }
  if (is_no) compare_mends(what, wanted.limits.text, seen.mends);
  if (is_no) compare_order(what, wanted.explain, seen.conflict);
  if (is_no)
    expect(seen.conflict && seen.verdict ===
      `No order passes: ${wanted.admit.text.trim().split(' ').slice(1).join(', ')}`,
      `${what}: ${seen.verdict}`);
  compare_told(what, wanted.admit, seen);
  const list = (wanted.releases ?? wanted.worst)?.text;
  if (wanted.worst) compare_worst(what, wanted.worst, shown.worst);
  if (!/^until [1-9]/m.test(list ?? '')) return equal(slices.length, 0, `${what}: a picture of no run`);
  compare_run(what, set, list, slices);
}
// The slices of a picture are those of the run.
export function compare_run(what, set, list, slices) {
  const simulated = native('simulate', [set, list]);
  equal(simulated.status, 0, `${what}: simulate`);
  const run = [...simulated.text.matchAll(/^(\d+) (\d+) (\S+)$/gm)]
    .map(it => `${it[3]} ${it[1]} to ${it[2]} us`);
  const is_long = native('draw', [set, list]).text.length > 500000;
  expect(is_long || [...slices].sort().join() === run.sort().join(),
    `${what}: ${slices.length} slices of ${run.length}`);
}
// What the page says of a worst case, by the first line that the program prints of it.
const WORST = [
  [/^# (\S+) (\d+) of (\d+)$/, it =>
    `In its worst case ${it[1]} takes ${it[2]} µs, of its bound ${it[3]} µs.`],
  [/^# (\S+) misses (\d+)$/, it =>
    `${it[1]} misses its deadline of ${it[2]} µs in this order.`],
  [/^# (\S+) must-outrank (\S+)$/, it => `${it[1]} .* must stand above ${it[2]}`],
  [/^# (\S+) below (\S+)$/, it => `^${it[2]}, above ${it[1]} `],
  [/^# (\S+) below-a-miss$/, it => `^${it[1]} meets .* a job above it misses `],
  [/^# (\S+) too-many-releases$/, it => ` ${it[1]} has more than 10000 jobs`],
  [/^# (\S+) ends-inside-a-section$/, it => `^${it[1]} doesn't pass, .* inside a section`],
  [/^# (\S+) within-a-tick$/, it => `^${it[1]} doesn't pass, .* the first µs `],
  [/^# (\S+) within-interrupts$/, it => `^${it[1]} doesn't pass, .* timers and interrupts `],
];
export function compare_worst(what, { text }, shown) {
  const line = text.split('\n')[0], said = digits(shown);
  const [pattern, means] = WORST.find(it => it[0].test(line)) ?? [];
  if (!pattern) return equal(said, '', `${what}: nothing is said`);
  const wanted = means(line.match(pattern));
  expect(said === wanted || new RegExp(wanted).test(said), `${what}: ${said}, and not ${wanted}`);
}
