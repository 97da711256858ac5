// A trace of a node as a picture in the form that the desk's own have: the same frame, signs and
// looks (docs/FORMATS.md, `draw`), so that both can stand beside one another. Red is
// what the node breaks.
import { broken_words } from './observing.mjs';

const RIGHTMOST = 15800, NARROWEST = 9400, WIDEST_MARGIN = 2500, TOP = 1690, ROW = 480;
const INKS = [['#7fb2e5', '#3b6ea3'], ['#f3dd7c', '#8f7a1e'], ['#e98b6b', '#a3512f'],
  ['#a5e0f2', '#2f7f98'], ['#57b894', '#2a7a5a'], ['#f7b3c4', '#a3546c'], ['#b3b04a', '#6f6d1d'],
  ['#c9c2ea', '#6f63a8'], ['#b98fd0', '#7b4f94'], ['#d3dd8c', '#6d7a2c']];
const tones = of => INKS.map((two, tone) => `.f${tone}{fill:${two[of]}}`).join('');
const STYLE = 'text{font:105px sans-serif;fill:#4a4a4a}.t{font:bold 150px sans-serif;fill:#111}' +
  '.n{font:bold 130px monospace;fill:#111}.v{font-size:110px;text-anchor:end}' +
  '.s{text-anchor:middle}.u{font:110px monospace;fill:#111;text-anchor:middle;' +
  'pointer-events:none}.p{fill:#fff}.g{stroke:#e3e3e3;stroke-width:8;fill:none}' +
  '.l{stroke:#9a9a9a;stroke-width:8;fill:none}.w{fill:#eef1f5}' +
  '.a{stroke:#333;stroke-width:12;fill:none}.b{stroke:#a34700;stroke-width:14;fill:none}' +
  '.o{stroke:#fff;stroke-width:6}.x{stroke:#c40000;stroke-width:160;stroke-linecap:round}' +
  '.y{stroke:#fff;stroke-width:26;fill:none}.z{fill:url(#m);stroke:#c40000;stroke-width:14}' +
  `.i{stroke:#c40000;stroke-width:22;fill:none}.q{fill:#c40000;font-weight:bold}${tones(0)}` +
  '@media(prefers-color-scheme:dark){text{fill:#b9bec6}.t,.n{fill:#f2f4f7}.u{fill:#fff}' +
  '.p{fill:#14181d}.g{stroke:#2c333c}.l{stroke:#6d7682}.w{fill:#20272f}.a{stroke:#d5dae0}' +
  '.b{stroke:#ffb066}.o{stroke:#14181d}.x{stroke:#ff5c5c}.y{stroke:#14181d}.z{stroke:#ff5c5c}' +
  `.i{stroke:#ff5c5c}.q{fill:#ff7b7b}${tones(1)}}`;
const HATCHING = '<defs><pattern id="m" width="70" height="70" patternUnits="userSpaceOnUse">' +
  '<path class="i" d="M-15 15L15-15M0 70L70 0M55 85L85 55"/></pattern></defs>';
const SIGNS = '<path class="f0" d="M100 540h260v180h-260z"/><text x="420" y="668">executes</text>' +
  '<path class="a" d="M1100 570l60 60-60 60m60-120l60 60-60 60"/>' +
  '<text x="1300" y="668">not done</text>' +
  '<path class="w" d="M100 790h260v180h-260z"/>' +
  '<path class="b" d="M360 780h-35m35 0v40m0 120v40h-35"/>' +
  '<text x="420" y="918">arrival to bound</text>' +
  '<path class="a" d="M1560 940v-110m-35 50l35-50 35 50"/><text x="1650" y="918">arrival</text>' +
  '<path class="x" d="M2340 880h1"/><path class="y" d="M2340 880m-38-38l76 76m0-76l-76 76"/>' +
  '<text x="2460" y="918">broken promise</text>';
const MEANT = { '&': '&amp;', '<': '&lt;', '>': '&gt;' };
const escaped = text => text.replace(/[&<>]/g, it => MEANT[it]);
const badge = (x, y) => `<path class="x" d="M${x} ${y}h1"/>` +
  `<path class="y" d="M${x} ${y}m-38-38l76 76m0-76l-76 76"/>`;
const millis = time => String(time / 1000);

// Where time begins and how wide it is, as in the desk's picture of these tasks: from 0 on, or from
// the first time where nothing is for most of the time before.
function frame_of({ from, until }, rows, names) {
  const start = from > until / 2 ? from : 0, time = Math.max(1, until - start);
  const letters = Math.max(0, ...names.map(it => it.length));
  const left = Math.min(620 + Math.max(78 * letters, 1340), WIDEST_MARGIN);
  const least = Math.max(1, Math.min(10000000, ...rows.map(it => it.period)));
  const span = Math.max(Math.min(Math.floor(240 * time / least), RIGHTMOST - left),
    NARROWEST - left);
  const x = at => left + Math.floor(Math.min(Math.max(0, at - start), time) * span / time);
  return { start, until: start + time, time, left, span, x, end: left + span };
}
// The step of 1, 2 or 5 and noughts that is the first of 80 pixels.
function step_of({ time, span }) {
  for (let ten = 1; ; ten *= 10)
    for (const step of [ten, 2 * ten, 5 * ten]) if (step * span >= 800 * time) return step;
}
function unit_of(step) {
  return step % 1000000 === 0 ? [1000000, 's'] : step % 1000 === 0 ? [1000, 'ms'] : [1, 'us'];
}
// A long number ends with the picture.
function scale_of(frame, bottom) {
  const step = step_of(frame), [unit] = unit_of(step), lines = [];
  for (let time = Math.ceil(frame.start / step) * step; time <= frame.until; time += step) {
    const x = frame.x(time), number = time / unit;
    const middle = number < 1000000 ? x : Math.min(x, frame.end - 90);
    lines.push(`<path class="g" d="M${x} 1230V${bottom}"/>` +
      `<text class="s" x="${middle}" y="1200">${number}</text>`);
  }
  return lines;
}
const top_of = row => TOP + ROW * row;
function box(kind, start, stop, top, high, title) {
  const told = title === null ? '/>' : `><title>${escaped(title)}</title></path>`;
  return `<path class="${kind}" d="M${start} ${top}H${stop}v${high}H${start}z"${told}`;
}

// ---- tones

// Of names in their order each has its own, or the next that is free: those of a set by bytes.
function tones_of(names) {
  const given = new Map();
  for (const name of names) {
    const own = [...new TextEncoder().encode(name)].reduce(
      (sum, byte) => (31 * sum + byte) % 65521, 0) % 10;
    const taken = new Set(given.values());
    const free = INKS.map((_, next) => (own + next) % 10).find(it => !taken.has(it));
    given.set(name, free ?? own);
  }
  return given;
}
// Of rows none has that of the one above.
function with_tones(rows) {
  const given = tones_of([...rows.filter(it => it.bound !== null).map(it => it.name).sort(),
    ...rows.filter(it => it.bound === null).map(it => it.name)]);
  let above = null;
  return rows.map(it => {
    const own = given.get(it.name), tone = own === above ? (own + 1) % 10 : own;
    above = tone;
    return { ...it, tone };
  });
}

// ---- the margin, and the lane of the processor

function margin_row({ name, level, bound, tone }, row, count) {
  const y = top_of(row), mark = `<rect class="f${tone}" x="350" y="${y + 130}" width="100" ` +
    'height="100" rx="20"/>';
  const second = count ? `<text class="q" x="500" y="${y + 355}">broken: ${count}</text>` :
    bound === null ? `<text x="500" y="${y + 355}">not of the set</text>` :
      `<text x="500" y="${y + 355}">bound ${millis(bound)} ms</text>`;
  return `<text class="v" x="300" y="${y + 230}">${level ?? ''}</text>${mark}` +
    `<text class="${count ? 'n q' : 'n'}" x="500" y="${y + 230}">${escaped(name)}</text>${second}`;
}
function lane_slice({ name, start, stop }, { level, tone }, { x }) {
  const left = x(start), right = Math.max(x(stop), left + 1), room = right - left;
  const word = 66 * name.length + 60 <= room ? name :
    level !== null && (level < 10 ? 106 : 172) <= room ? String(level) : '';
  const middle = Math.floor((left + right) / 2);
  const said = word && `<text class="u" x="${middle}" y="1498">${escaped(word)}</text>`;
  return box(`f${tone}${room < 60 ? '' : ' o'}`, left, right, 1350, 220,
    `${name} executes ${start} to ${stop} us`) + said;
}

// ---- the rows

// Red from the bound on where it is past that, else all of the job.
function broken_job(job, { bound }, breaks, top, { x, until }) {
  const { name, arrival, finish } = job, due = arrival + bound, end = finish ?? until;
  const since = breaks.some(it => it.kind === 'bound' || it.kind === 'open') ? due : arrival;
  const done = finish === null ? 'not done' : `done ${finish}`;
  const title = `${name}: arrival ${arrival}, ${done}, bound ${bound} us: ` +
    breaks.map(broken_words).join('; ');
  return box('z', x(since), Math.max(x(end), x(since) + 20), top + 145, 220, title) +
    badge(x(since), top + 85);
}
function job_box({ name, arrival, finish }, { bound }, top, { x, end }) {
  const done = finish === null ? 'not done' : `done ${finish}, response ${finish - arrival}`;
  const on = finish === null ?
    `<path class="a" d="M${end} ${top + 195}m20 0l60 60-60 60m60-120l60 60-60 60"/>` : '';
  return box('w', x(arrival), Math.max(x(arrival + bound), x(arrival) + 5), top + 165, 180,
    `${name}: arrival ${arrival}, ${done}, bound ${bound} us`) + on;
}
function marks_of(jobs, { x, until }) {
  const arrivals = jobs.map(({ arrival, top }) =>
    `M${x(arrival)} ${top + 450}v-100m-35 50l35-50 35 50`);
  const bounds = jobs.filter(({ arrival, bound }) => arrival + bound <= until).map(
    ({ arrival, bound, top }) => `M${x(arrival + bound)} ${top + 155}h-35m35 0v40m0 120v40h-35`);
  return [`<path class="a" d="${arrivals.join(' ')}"/>`,
    `<path class="b" d="${bounds.join(' ')}"/>`];
}

// What `observe` says of the tasks and of the broken promises, and the trace's slices and jobs: a
// row for each task, the highest on top, and below them one for each other thread.
export function picture_of(trace, { rows, breaks }) {
  const { slices } = trace, strangers = new Set(slices.map(it => it.name));
  for (const it of rows) strangers.delete(it.name);
  const levels = [...rows].reverse().map((it, at) => ({ ...it, level: rows.length - at }));
  const all = with_tones([...levels,
    ...[...strangers].map(name => ({ name, level: null, bound: null }))]);
  const frame = frame_of(trace, rows, all.map(it => it.name)), { x, left, end } = frame;
  const row_of = new Map(all.map((it, row) => [it.name, row]));
  const high = top_of(all.length) + 120, bottom = top_of(all.length);
  const jobs = trace.jobs.filter(it => all[row_of.get(it.name)]?.bound !== null &&
    row_of.has(it.name)).map(it => ({ ...it, bound: all[row_of.get(it.name)].bound,
    top: top_of(row_of.get(it.name)), breaks: breaks.filter(one =>
      one.name === it.name && one.time === it.arrival) }));
  const busy = slices.reduce((sum, it) => sum + it.stop - it.start, 0);
  const thousandths = Math.floor(1000 * Math.min(busy, frame.time) / frame.time);
  const title = breaks.length ? `promises broken: ${breaks.length}` : 'no promise broken';
  const counts = `threads: ${all.length}, jobs: ${trace.jobs.length}`;
  const wide = end + 200, head = `width="${wide / 10}" height="${high / 10}"`;
  return [`<svg xmlns="http://www.w3.org/2000/svg" version="1.1" ${head} viewBox="0 0 ${wide} ` +
    `${high}"><style>${STYLE}</style>${HATCHING}<rect class="p" width="100%" height="100%"/>`,
  breaks.length ? `${badge(190, 150)}<text class="t q" x="320" y="200">${title}</text>` :
    `<text class="t" x="100" y="200">${title}</text>`,
  `<text x="100" y="390">${counts}, until ${millis(trace.until)} ms</text>`, SIGNS,
  ...scale_of(frame, bottom),
  `<path class="l" d="M${left} 1570H${end}"/>`,
  ...all.map((_, row) => `<path class="g" d="M100 ${top_of(row)}H${end}"/>` +
    `<path class="l" d="M${left} ${top_of(row) + 345}H${end}"/>`),
  `<g id="n"><text x="500" y="1200">time in ${unit_of(step_of(frame))[1]}</text>` +
    '<text class="n" x="500" y="1460">processor</text><text x="500" y="1580">busy ' +
    `${Math.floor(thousandths / 10)}.${thousandths % 10} %</text>`,
  ...all.map((it, row) => margin_row(it, row, breaks.filter(one => one.name === it.name).length)),
  '</g>',
  ...slices.map(it => lane_slice(it, all[row_of.get(it.name)], frame)),
  ...jobs.map(it => job_box(it, it, it.top, frame)), ...marks_of(jobs, frame),
  ...slices.map(({ name, start, stop }) => box(`e f${all[row_of.get(name)].tone}`, x(start),
    Math.max(x(stop), x(start) + 5), top_of(row_of.get(name)) + 165, 180,
    `${name} ${start} to ${stop} us`)),
  ...jobs.filter(it => it.breaks.length).map(it => broken_job(it, it, it.breaks, it.top, frame)),
  '</svg>'].join('\n');
}
