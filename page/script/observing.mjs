// What a trace shows of a node, as `observe` prints it, and what the trace is.
import { coloured, element, grouped, plural, us } from './dom.mjs';

export function observation({ refused, jobless, breaks, rows }) {
  if (refused) return { text: refused, is_good: false };
  if (breaks.length) return { text: plural(breaks.length, 'broken promise'), is_good: false };
  if (jobless.length) return { text: `No job of ${jobless.join(', ')}`, is_good: false };
  const jobs = rows.reduce((sum, it) => sum + it.jobs, 0);
  return { text: `Each promise is kept: ${plural(jobs, 'job')}`, is_good: true };
}

// ---- what each task did, the highest on top

const shown = value => value === null ? '–' : grouped(value);
function seen_row(it, is_bad) {
  const told = `executed ${shown(it.executed)} of ${us(it.cost)} · ` +
    `apart ${shown(it.gap)}, at least ${us(it.period)} · ` +
    `response ${shown(it.response)} of ${us(it.bound)}`;
  const who = element('span.who', it.name, element('span.room', ` ${plural(it.jobs, 'job')}`));
  const row = element('div.title', who, element(is_bad ? 'span.told.beyond' : 'span.told', told));
  return coloured(
    element(is_bad ? 'li.bar.is-bad' : 'li.bar', { 'data-task': it.name }, row), it.name);
}
export function seen_rows({ rows, breaks }) {
  const bad = new Set(breaks.map(it => it.name));
  return [...rows].reverse().map(it => seen_row(it, bad.has(it.name)));
}

// ---- what is broken

const BROKEN = {
  priority: it => `runs at priority ${it.value}, and its own is ${it.promised}`,
  cost: it => `executes ${us(it.value)}, and its cost is ${us(it.promised)}`,
  period: it =>
    `arrives ${us(it.value)} after the one before, and its period is ${us(it.promised)}`,
  late: it => `is ready ${us(it.value)} after its arrival, and its jitter is ${us(it.promised)}`,
  bound: it => `takes ${us(it.value)}, and its bound is ${us(it.promised)}`,
  open: () => 'isn\'t done at the end, and its bound is past',
  blocked: it => `waits ${us(it.value)} for tasks below it, ${it.by} longest; its blocking is ` +
    us(it.promised),
  foreign: it => `waits ${us(it.value)} for ${it.by}, which the set doesn't have`,
  idle: it => `waits ${us(it.value)} while nobody executes`,
  age: it => `acts on what is ${us(it.value)} old, and may on ${us(it.promised)} at most`,
  steady: it => `arrives ${us(it.value)} after the one before, and for its chain at most ` +
    `${us(it.promised)} after it`,
};
const after_words = ([what, name, time]) => `, after ${what} of ${name} at ${us(Number(time))}`;
export const broken_words = it => BROKEN[it.kind](it) + (it.after ? after_words(it.after) : '');
const when_told = it => it.time === null ? '' : `, arrived at ${us(it.time)}`;
const broken_told = it => `${it.name}${when_told(it)}: ${broken_words(it)}`;
const MANY = 100;
export function broken_rows({ breaks }) {
  const rows = breaks.slice(0, MANY).map(it => element('li', broken_told(it)));
  if (breaks.length > MANY) rows.push(element('li', `and ${breaks.length - MANY} more`));
  return rows;
}

// ---- the trace as slices and jobs, and what a release list says of the same arrivals

const TRACE_SETTING = /^(?:thread|mutex) [^ \n]+ \d+$/gm;
const TRACE_SLICE = /^(\d+) (\d+) ([^ \n]+)(?: @\d+)?$/gm;
const TRACE_JOB = /^job ([^ \n]+) (\d+) (\d+|-)(?: \d+)?$/gm;
export function read_trace(text) {
  const settings = text.match(TRACE_SETTING) ?? [];
  const slices = [...text.matchAll(TRACE_SLICE)]
    .map(([, start, stop, name]) => ({ name, start: Number(start), stop: Number(stop) }));
  const jobs = [...text.matchAll(TRACE_JOB)].map(([, name, arrival, finish]) =>
    ({ name, arrival: Number(arrival), finish: finish === '-' ? null : Number(finish) }));
  const times = [...slices.flatMap(it => [it.start, it.stop]),
    ...jobs.flatMap(it => [it.arrival, it.finish ?? it.arrival])];
  const least = (a, b) => Math.min(a, b), most = (a, b) => Math.max(a, b);
  return { settings, slices, jobs, from: times.reduce(least, Infinity),
    until: times.reduce(most, 0) };
}
export function releases_of({ settings, jobs, until }, rows) {
  const names = new Set(rows.map(it => it.name)), own = jobs.filter(it => names.has(it.name));
  const list = [`until ${until}`, ...own.map(it => `${it.arrival} ${it.name}`), ''];
  return [...settings, ...list].join('\n');
}
