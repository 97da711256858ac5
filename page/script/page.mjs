// The page: who hears whom, and the start.
import { fill_part, typed_in_area } from './area.mjs';
import { ask, ask_node, ask_script, ask_trace, lanes, open_lanes } from './asking.mjs';
import { Bars } from './bars.mjs';
import { Chains } from './chains.mjs';
import {
  heard_of_baseline, heard_of_changes, pin_baseline, save_baseline, set_baseline, unpin_baseline,
} from './baseline.mjs';
import { at, element, grouped, write } from './dom.mjs';
import { bytes_to_save, copied, download, fragment_of, opened } from './files.mjs';
import { kept_baseline, kept_set } from './keeping.mjs';
import { compiled } from './lanes.mjs';
import { Overhead } from './overhead.mjs';
import { Picture } from './picture.mjs';
import { heat, tip } from './pointer.mjs';
import { choose_run, heard_of_worst } from './run.mjs';
import { Scale, execution_of, scaled } from './scale.mjs';
import {
  NO_ANSWER, draw_bars, heard_of_node, heard_of_set, show_document, show_facts, show_fallen,
  show_late, show_verdict,
} from './showing.mjs';
import { slice_told } from './slices.mjs';
import { cut, followed, parts, past, state } from './state.mjs';
import { Table } from './table.mjs';
import { show_teams } from './teams.mjs';
import { heard_of_arrivals, heard_of_trace } from './tracing.mjs';
import { notice, safely, trouble } from './trouble.mjs';
import { show_view, walk_tabs } from './views.mjs';
import {
  change, edit, grow, mend, prefer_deadlines, take_file, take_fragment, travel,
} from './writing.mjs';

// ---- the parts, and what each hears

const point = (name, section) => parts.table.point(name, section);
parts.table = new Table(at('table'), edit, key => { at('sorted').value = key; }, notice);
parts.overhead = new Overhead(at('overhead'), edit);
parts.bars = new Bars(at('bars'), { grow: safely(grow), point, tip: safely(tip),
  run: safely(name => {
    choose_run(name);
    at('run-of').focus();
  }) });
parts.chains = new Chains(at('chains'), edit, safely(tip));
parts.scale = new Scale(at('scale'), {
  execution: () => execution_of(state.document),
  apply: (base, permille) => edit(scaled(state.document, base, permille), 'scale'),
});
parts.picture = new Picture(at('picture'), {
  moved: ({ zoom }) => write(at('zoom'), `${Math.round(100 * zoom)} %`),
  pointed: text => write(at('pointed'), text),
  chosen: title => at('slice').replaceChildren(...title === null ? [] :
    slice_told(title, parts.picture.titles(), state.document, point)),
});
// The pictures of a trace and of the run beside it scroll together, and say what is under the
// pointer.
for (const [it, other] of [['traced', 'arrivals'], ['arrivals', 'traced']])
  parts[it] = new Picture(at(it), { moved: place => parts[other]?.follow(place), chosen: () => {},
    pointed: text => write(at('trace-pointed'), text) });
parts.mend = safely(mend);
parts.redraw = safely(() => {
  draw_bars();
  show_facts();
});
function heard_of_script({ name, text, status, told }, { text: script }) {
  state.answers[name] = { text, status, told };
  write(at('play'), cut({ text }));
  show_teams(script, { text, status, told });
}
open_lanes({
  set: heard_of_set, growth: heard_of_set, worst: heard_of_worst, node: heard_of_node,
  trace: heard_of_trace, arrivals: heard_of_arrivals, script: heard_of_script,
  baseline: heard_of_baseline, changes: heard_of_changes,
}, { late: show_late, fell: show_fallen });

// ---- what is pressed and typed

// Each example stands below a line with its name.
const kept_in_page = id =>
  new Map(at(id).textContent.split(/^==== /m).slice(1).map(it => it.split(/\n(.*)/s)));
const EXAMPLES = kept_in_page('example-sets'), SCRIPTS = kept_in_page('example-scripts');
for (const [id, all] of [['examples', EXAMPLES], ['scripts', SCRIPTS]])
  at(id).append(...[...all.keys()].map(it => element('option', { value: it }, it)));

function on(id, event, act) {
  at(id).addEventListener(event, safely(act));
}
// What is chosen from a list of examples; the list then shows none.
function on_example(id, all, take) {
  on(id, 'change', () => {
    const name = at(id).value;
    at(id).value = '';
    if (name) take(name, all.get(name));
  });
}
function on_file(button, input, take) {
  on(button, 'click', () => at(input).click());
  on(input, 'change', async () => {
    const file = at(input).files[0];
    if (file) take(await opened(file));
    at(input).value = '';
  });
}
on('set', 'input', () => {
  const text = typed_in_area();
  if (text === state.text) ask();
  else if (text !== null) change(text, { key: 'text', by: 'text' });
});
for (const it of ['focus', 'pointerenter', 'pointermove']) on('set', it, fill_part);
at('set').addEventListener('wheel', safely(fill_part), { passive: true });
on('until', 'input', ask);
on('run-of', 'change', () => choose_run(at('run-of').value || null));
on('judged', 'input', ask_node);
on('trace', 'input', ask_trace);
on('script', 'input', ask_script);
on_example('examples', EXAMPLES, (name, text) =>
  take_file({ name: `${name}.toml`, text, has_mark: false, has_crlf: false, is_utf8: true }));
on_example('scripts', SCRIPTS, (_, text) => {
  at('script').value = text;
  ask_script();
});
on_file('open', 'file', take_file);
on_file('open-baseline', 'baseline-file', set_baseline);
function take_trace({ text }) {
  at('trace').value = text;
  ask_trace();
}
on_file('open-trace', 'trace-file', take_trace);
on('fill-trace', 'click', () => {
  take_trace({ text: state.answers.simulate?.text ?? '' });
  at('trace').focus();
});
const save = () => {
  download(state.file.name, bytes_to_save(state.text, state.file));
  notice(`Saved as ${state.file.name} among the downloads.`);
};
on('save', 'click', save);
on('undo', 'click', () => travel(past.undo()));
on('redo', 'click', () => travel(past.redo()));
async function copy(text, what) {
  notice(await copied(text) ? `Copied ${what}.` : `${what} couldn't be copied.`);
}
on('share', 'click', async () => {
  const fragment = await fragment_of(state.text);
  history.replaceState(null, '', fragment);
  await copy(location.href, `a link of ${grouped(location.href.length)} letters`);
});
on('add', 'click', () => parts.table.add());
on('add-chain', 'click', () => parts.chains.added());
on('sorted', 'change', () => parts.table.sort(at('sorted').value));
on('by-deadline', 'click', prefer_deadlines);
on('pin', 'click', pin_baseline);
on('unpin', 'click', unpin_baseline);
on('save-baseline', 'click', save_baseline);
on('restore', 'click', () => change(state.baseline.text));
on('stop', 'click', () => {
  lanes.set.stop();
  lanes.growth.stop();
  lanes.worst.stop();
  if (state.is_waiting) show_verdict(NO_ANSWER);
  notice('Stopped. Change the text to ask again.');
});
on('copy', 'click', () => copy(at('settings').textContent, 'the settings'));
on('copy-certificate', 'click', async () => {
  const { text, file } = state.answers.certify;
  await copy(await file?.text() ?? text, 'the certificate');
});
on('copy-lines', 'click', () => copy(at('lines').textContent + '\n', 'the command lines'));
on('fill', 'click', () => {
  at('judged').value = state.answers.settings?.text ?? '';
  ask_node();
  at('judged').focus();
});
on('larger', 'click', () => parts.picture.set_zoom(parts.picture.zoom * 1.25));
on('smaller', 'click', () => parts.picture.set_zoom(parts.picture.zoom / 1.25));
on('fit', 'click', () => parts.picture.fit());
on('longer', 'click', () => {
  const now = Number(at('until').value.trim() || state.answers.releases?.text.split(/\s/)[1]);
  if (!(now > 0)) return;
  at('until').value = String(Math.min(60000000, 2 * now));
  ask();
});
for (const it of ['set', 'teams']) on(`tab-${it}`, 'click', () => show_view(it));
on('tabs', 'keydown', walk_tabs);
addEventListener('hashchange', safely(take_fragment));
addEventListener('keydown', safely(it => {
  if (it.key === 'Escape') tip(null);
  if (!(it.ctrlKey || it.metaKey) || it.altKey) return;
  const key = it.key.toLowerCase(), undo = () => travel(past.undo());
  const redo = () => travel(past.redo()), open = () => at('file').click();
  const act = { z: it.shiftKey ? redo : undo, y: redo, s: save, o: open }[key];
  const has_its_own = ['judged', 'trace', 'script', 'until'].includes(it.target.id);
  if (!act || has_its_own && 'zy'.includes(key)) return;
  it.preventDefault();
  act();
}));
addEventListener('focusin',
  safely(it => heat(it.target.closest?.('[data-task]')?.dataset.task ?? '')));
addEventListener('scroll', () => { if (!at('tip').hidden) tip(null); }, { passive: true });
for (const it of ['dragover', 'drop', 'dragleave'])
  addEventListener(it, safely(event => {
    if (!event.dataTransfer?.types.includes('Files')) return;
    event.preventDefault();
    document.body.classList.toggle('is-dropped', it === 'dragover');
    const file = it === 'drop' ? event.dataTransfer.files[0] : null;
    const is_trace = event.target.closest?.('#of-trace') || file?.name.endsWith('.trace');
    if (file) return opened(file).then(is_trace ? take_trace : take_file);
  }));

// ---- the start

async function start() {
  const before = kept_set(), baseline = kept_baseline();
  state.document = followed(state.text);
  if (before) {
    state.file = before.file;
    change(before.text);
  }
  show_document();
  await take_fragment();
  ask();
  ask_script();
  if (baseline) set_baseline(baseline);
  const module = await compiled(at('wasm').textContent);
  for (const it of Object.values(lanes)) it.start(module);
}
start().catch(error => {
  show_verdict(NO_ANSWER);
  const needs = 'The page needs WebAssembly, oklch() and DecompressionStream, as Chromium 111, ' +
    'Firefox 113 and Safari 16.4 have them.';
  trouble(`The module failed: ${error?.message ?? error}. ${needs}`);
});
// For tests.
const DRAWING = ['table', 'bars', 'picture', 'traced', 'arrivals'];
const is_drawing = () => DRAWING.some(it => parts[it].turns.is_busy);
globalThis.desk = { state, is_drawing, lanes: Object.values(lanes) };
