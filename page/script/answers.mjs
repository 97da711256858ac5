// What the printed lines of the commands say, as values. Nothing is computed here.

const lines_of = text => text.split('\n').filter(it => it);
const number = word => word === '-' || word === undefined ? null : Number(word);

function read_refusal(text) {
  const [head, name, ...fields] = text.trim().split(' ');
  return head === 'refused:' ? { name, fields } : null;
}
// What a refusal says to a person: the desk's sentence, which begins with the name of the input,
// and that is left out where it is the one that is meant; without a sentence, the line itself.
export function sentence_of({ text, told }, meant) {
  const said = (told || text.replace(/^refused: /, '')).trim();
  return `Refused: ${said.startsWith(`${meant}: `) ? said.slice(meant.length + 2) : said}`;
}
// The notes on a set, and the one on its conflict, less the command that says more.
const WHY = ': desk explain says why';
export function notes_of({ told }) {
  const all = lines_of(told).filter(it => it.startsWith('note: ')).map(it => it.slice(6));
  const conflict = all.find(it => it.endsWith(WHY))?.slice(0, -WHY.length) ?? null;
  return { notes: all.filter(it => !it.endsWith(WHY)), conflict };
}

// The chains whose bounds are past their limits, or have none.
const MISSED_CHAIN = /^chain \S+ (-|\d+) misses \d+( least \d+)?$/;
const missed_in = lines => lines.filter(it => MISSED_CHAIN.test(it));

// `admit`: how many tasks, or the names that stand in the way, or a refusal. (`explain` has the
// levels.)
export function read_admit({ text, status, told = '' }) {
  const [first = '', ...lines] = lines_of(text), words = first.split(' ');
  if (words[0] === 'admitted')
    return { kind: 'admitted', count: Number(words[1]), missed: missed_in(lines) };
  if (status === 3) return { kind: 'infeasible', names: words.slice(1) };
  return { kind: 'refused', sentence: text ? sentence_of({ text, told }, 'set') : 'no answer',
    refusal: read_refusal(text) };
}

function read_part(line) {
  const words = line.trim().split(' '), [kind] = words;
  if (kind === 'blocked')
    return { kind, time: Number(words[1]), by: words[3], section: Number(words[5]),
      lock: words[7].replace(',', ''), user: words[7].endsWith(',') ? words[10] : null };
  if (kind === 'above')
    return { kind, by: words[1], jobs: Number(words[2]), time: Number(words[4]) };
  if (kind === 'interrupt')
    return { kind, number: words[1], jobs: Number(words[2]), time: Number(words[4]) };
  return { kind, time: Number(words[1]) };
}

// A line of a chain, with its bound and its limit, or of a part of that bound.
function read_chain(chains, line) {
  const words = line.trim().split(' '), [kind, name, bound, , limit, , least] = words;
  if (!line.startsWith('  '))
    return chains.push(
      { name, time: number(bound), limit: number(limit), least: number(least), parts: [] });
  const less = words[2] === 'less' ? words[4] : null;
  chains.at(-1)?.parts.push({ kind, by: name, less, time: Number(words.at(-1)) });
}

// `explain`: the account of each task from the lowest level up, or of each of the minimal conflict;
// the load; and behind it the chains, or, of a conflict, what becomes of each task in an order that
// decides, with the parts of what it needs where it misses its deadline.
export function read_explain({ text, status }) {
  if (status !== 0 && status !== 3) return null;
  const found = { accounts: [], conflict: null, load: null, order: [], chains: [] };
  const [first, ...lines] = lines_of(text), is_admitted = first?.startsWith('admitted ');
  for (const line of lines) {
    const words = line.split(' ');
    if (is_admitted && found.load !== null) read_chain(found.chains, line);
    else if (line.startsWith('  '))
      (found.load === null ? found.accounts : found.order).at(-1)?.parts.push(read_part(line));
    else if (status === 3 && words[0] === 'conflict' && !found.conflict)
      found.conflict = words.slice(1);
    else if (words[0] === 'load' && words.length === 2) found.load = Number(words[1]);
    else if (found.load !== null) found.order.push({ ...read_fate(line), parts: [] });
    else if (words[1] === 'must')
      found.accounts.push({ name: words[0], over: words[4], parts: [] });
    else {
      const [level, name, time, , deadline] = is_admitted ? words : [null, ...words];
      found.accounts.push(
        { level: number(level ?? '-'), name, time: Number(time), deadline: Number(deadline),
        parts: [] });
    }
  }
  return found;
}

// A line of `limits`: a number of a task, its value, and the furthest in this order and in some
// order; the number that goes along with them, and what holds it where its sheet may have none
// further.
function read_limit(all) {
  const hold = all.indexOf('by', 2), words = hold < 0 ? all : all.slice(0, hold);
  const held = hold < 0 ? null : all.slice(hold + 1).join(' ');
  const section = words[1] === 'section' ? Number(words[2]) : null;
  const key = section === null ? words[1] : 'len', end = words.indexOf('with', 2);
  const [value, in_order, most] = words.slice(0, end < 0 ? undefined : end).slice(-3).map(number);
  const along = end < 0 ? null : { key: words[end + 1], most: Number(words.at(-1)),
    in_order: words.length > end + 3 ? Number(words[end + 2]) : null };
  return { key, section, value, in_order, most, along, held };
}
// A line of a chain in `limits`: what its bound leaves of its limit, or a number of a task, its
// value and the furthest with the chain met.
function read_reach(chains, [, chain, name, ...words]) {
  if (!chains.has(chain)) chains.set(chain, { slack: null, reaches: [] });
  const it = chains.get(chain), [value, furthest] = words.slice(-2).map(number);
  const is_section = words[0] === 'section', key = is_section ? 'len' : words[0];
  if (words.length === 1) it.slack = value;
  else it.reaches.push(
    { name, key, section: is_section ? Number(words[1]) : null, value, furthest });
}
// `limits`: for each task its numbers and how far each may go, for what is no task's in the words
// of its line; for each chain with a limit the same with it met; and the factor on all execution.
// Of a refused set these are changes that mend it; `has_none` where no single one does.
export function read_limits({ text, status }) {
  if (status !== 0 && status !== 3) return null;
  const found =
    { tasks: new Map(), common: [], chains: new Map(), all: undefined, first: null,
    is_whole: status === 0, has_none: lines_of(text).includes('no single change') };
  for (const words of lines_of(text).slice(1).map(it => it.split(' '))) {
    const [name, word] = words;
    if (name === 'chain' && /^[A-Za-z]/.test(words[2] ?? '')) read_reach(found.chains, words);
    else if (name === 'all' && (words.length === 4 || word === '-'))
      Object.assign(found, { all: number(words[2]), in_order: number(word), first: words[3] });
    else if (words[2] === 'len') found.common.push(read_common(words)); // (of a lock)
    else if (/^(cost|period|deadline|jitter|section)$/.test(word) && words.length > 4)
      found.tasks.set(name, [...found.tasks.get(name) ?? [], read_limit(words)]);
    else if (words.length > 4) found.common.push(read_common(words));
  }
  return found;
}
// A line of a number that is no task's: what it is, its value, and the furthest with some order.
function read_common(all) {
  const hold = all.indexOf('by', 2), words = hold < 0 ? all : all.slice(0, hold);
  const [value, , most] = words.slice(-3).map(number);
  return { what: words.slice(0, -3).join(' '), value, most };
}
export const limit_of = (limits, name, key) =>
  limits?.tasks.get(name)?.find(it => it.key === key && it.section === null) ?? null;

// `judge` and `explain`: each task from the lowest level up, and what becomes of it.
function read_fate(line) {
  const [level, name, word, last, next, needs] = line.split(' ');
  const row = { level: Number(level), name };
  if (word === 'misses')
    return { ...row, fate: word, deadline: Number(last), needs: Number(needs) };
  if (word === 'below') return { ...row, fate: word, other: last };
  return { ...row, fate: 'meets', response: Number(word), deadline: Number(next) };
}
export function read_judge({ text, status, told }) {
  if (status !== 0 && status !== 3)
    return { refused: sentence_of({ text, told }, 'settings'), misses: [], missed: [], rows: [] };
  const [first = '', ...lines] = lines_of(text), misses = first.startsWith('misses ');
  return { refused: null, misses: misses ? first.split(' ').slice(1) : [],
    missed: missed_in(lines), rows: lines.filter(it => /^\d/.test(it)).map(read_fate) };
}

// `diff`: each task of which there is something to say, with its level, its bound and what that
// leaves of the deadline, before and after; and the keys that differ, with what was and what is. In
// front of them stands what no task has: the preference, the node, the interrupts; behind them each
// chain, with its bound and what that leaves of its limit.
function read_differences(words) {
  const found = [], rest = [...words];
  while (rest.length > 2) {
    const key = rest[0] === 'section' ? rest.splice(0, 2).join(' ') : rest.shift();
    const [old, now] = rest.splice(0, 2);
    found.push({ key, old, now });
  }
  return found;
}
function read_change(line) {
  const [kind, name, , ...words] = line.split(' ');
  const keys = words[8] === 'keys' ? read_differences(words.slice(9)) : [];
  const two = from => words.slice(from, from + 2).map(number);
  return { kind, name, level: two(0), bound: two(3), left: two(6), keys };
}
function read_chain_change([kind, , name, , ...words]) {
  const keys = words[5] === 'keys' ? read_differences(words.slice(6)) : [];
  const two = from => words.slice(from, from + 2).map(number);
  return { kind, name: `chain ${name}`, level: [null, null], bound: two(0), left: two(3), keys };
}
export function read_diff({ text, status }) {
  if (status !== 0 && status !== 3) return null;
  const lines = lines_of(text).slice(2), is_chain = it => it.split(' ')[3] === 'bound';
  const of_tasks = lines.filter(it => it.split(' ')[2] === 'level' && !is_chain(it));
  const of_chains = lines.filter(is_chain).map(it => it.split(' '));
  return [...of_tasks.map(read_change), ...of_chains.map(read_chain_change)];
}

// `play`: a reply for each line that isn't skipped, then the node's state.
export function read_play({ text, status, told }) {
  const lines = lines_of(text), at = lines.findLastIndex(it => /^version \d+$/.test(it));
  if (status !== 0 || at < 0) {
    const refused = sentence_of({ text: lines.at(-1) ?? '', told }, 'script');
    return { refused, replies: [], version: null, levels: [] };
  }
  const levels = lines.slice(at + 1).map(it => it.split(' ')).map(([, level, name, team, bound]) =>
    ({ level: Number(level), name, team: Number(team), bound: Number(bound) }));
  const version = Number(lines[at].split(' ')[1]);
  return { refused: null, replies: lines.slice(0, at), version, levels };
}

// `observe`: what a trace shows of each task beside what is promised, and each broken promise.
function read_seen([, name, jobs, ...words]) {
  const [executed, cost, gap, period, response, bound] = words.map(number);
  return { name, jobs: Number(jobs), executed, cost, gap, period, response, bound };
}
// `KIND NAME AT`, and as the kind has them a time, what was promised, by whom, and what it follows
// from.
function read_break([kind, name, time, value, ...words]) {
  const after = word => words[words.indexOf(word) + 1];
  return { kind, name, time: Number(time), value: number(value),
    promised: words[0] === 'of' ? Number(words[1]) : null,
    by: words.includes('by') ? after('by') : null,
    after: words.includes('after') ? words.slice(words.indexOf('after') + 1) : null };
}
// `age CHAIN AGE of MOST`: of a chain, not of a job.
const read_age = ([kind, name, value, , most]) => ({ kind, name: `chain ${name}`, time: null,
  value: Number(value), promised: Number(most), by: null, after: null });
const NO_BREAKS = ['task', 'jobless', 'chain'];
export function read_observe({ text, status, told }) {
  if (status !== 0 && status !== 3)
    return { refused: sentence_of({ text, told }, 'trace'), rows: [], jobless: [], breaks: [] };
  const lines = lines_of(text).map(it => it.split(' '));
  if (lines[0]?.[0] === 'infeasible')
    return { refused: 'No order passes, so a node has nothing to keep to.', rows: [], jobless: [],
      breaks: [] };
  if (lines[0]?.[0] === 'misses')
    return { refused: 'In the order of the trace not every deadline is met, so the node has ' +
      'nothing to keep to.', rows: [], jobless: [], breaks: [] };
  return { refused: null, rows: lines.filter(it => it[0] === 'task').map(read_seen),
    jobless: lines.filter(it => it[0] === 'jobless').map(([, name]) => name),
    breaks: lines.filter(it => !NO_BREAKS.includes(it[0]))
      .map(it => it[0] === 'age' ? read_age(it) : read_break(it)) };
}

// `worst`: whose worst case it is, and what the job comes to, or why its list shows neither.
export function read_worst({ text, status }) {
  if (status !== 0 && status !== 3) return null;
  const lines = lines_of(text), has_list = lines.some(it => /^until [1-9]/.test(it));
  const [, name = null, ...words] = lines.find(it => it.startsWith('# '))?.split(' ') ?? [];
  const found = { name, has_list }, [first, second, third] = words;
  if (second === 'of')
    return { ...found, fate: 'bound', response: Number(first), bound: Number(third) };
  if (first === 'misses') return { ...found, fate: first, deadline: Number(second) };
  return { ...found, fate: first ?? null, other: second ?? null };
}
