// What is asked of the desk: a lane for each kind of question, and what is said while one is long.
import { at, write } from './dom.mjs';
import { Lane } from './lanes.mjs';
import { state } from './state.mjs';
import { safely, trouble } from './trouble.mjs';
const SOURCE = URL.createObjectURL(
  new Blob([at('worker').textContent], { type: 'text/javascript' }));
const bytes_of = text => new TextEncoder().encode(text);
// The lanes: the set, how far its numbers go, the worst case of a task, the node's settings, its
// trace, the run of the trace's arrivals, the script of teams, the baseline, and what has changed
// since.
export const lanes = {};
let on_late = () => {};
// `heard` has who hears each lane; `late` is called where an answer is late, `fell` where one fell.
export function open_lanes(heard, { late, fell }) {
  on_late = late;
  const failed = safely(({ name, trouble: why }) => {
    fell(name);
    const where = name ? ` at ${name}` : '';
    trouble(`The module failed${where}: ${why}. It starts anew: change the text to ask again.`);
  });
  for (const [kind, hear] of Object.entries(heard))
    lanes[kind] = new Lane(SOURCE, { heard: safely(hear), failed, moved: safely(moved) });
}
let busy_since = 0, busy_timer = 0;
function moved() {
  const is_busy = lanes.set.is_busy || lanes.growth.is_busy || lanes.worst.is_busy;
  if (is_busy && !busy_since) {
    busy_since = Date.now();
    busy_timer = setInterval(safely(show_busy), 250);
  }
  if (!is_busy && busy_since) {
    busy_since = 0;
    clearInterval(busy_timer);
    show_busy();
  }
}
function show_busy() {
  const since = busy_since ? Date.now() - busy_since : 0;
  at('busy').hidden = since < 500;
  if (since < 500) return;
  const of_what = lanes.set.is_busy ? '' :
    lanes.growth.is_busy ? ' on the limits' : ' on the worst case';
  write(at('busy-text'), `working${of_what}, ${Math.floor(since / 1000)} s`);
  on_late();
}

export function ask() {
  const set = bytes_of(state.text), typed = at('until').value.trim();
  const until = /^\d{1,10}$/.test(typed) ? BigInt(typed) : null, is_wrong = typed && until === null;
  write(at('trouble'), is_wrong ? 'Until when the run goes is a whole number of µs.' : '');
  state.is_waiting = state.is_growing = true;
  lanes.set.ask({ kind: 'set', set, until });
  lanes.growth.ask({ kind: 'limits', set });
  if (state.run_of !== null) ask_worst();
  ask_node();
  ask_trace();
  ask_changes();
}
// The worst case of the task that is chosen, or of the one that the verdict is about.
export function ask_worst() {
  const { text, run_of: of } = state;
  lanes.worst.ask({ kind: 'worst', set: bytes_of(text), task: bytes_of(of ?? ''), text, of });
}
// Of a node that says nothing there is nothing to ask.
export function ask_node() {
  const settings = at('judged').value;
  if (!settings.trim()) return lanes.node.heard(null);
  lanes.node.ask({ kind: 'judge', set: bytes_of(state.text), settings: bytes_of(settings) });
}
export function ask_trace() {
  const text = at('trace').value;
  if (!text.trim()) return lanes.trace.heard(null);
  lanes.trace.ask({ kind: 'observe', set: bytes_of(state.text), trace: bytes_of(text), text });
}
// The run that the desk has of the arrivals of a trace.
export function ask_arrivals(releases) {
  const set = bytes_of(state.text);
  lanes.arrivals.ask({ kind: 'arrivals', set, releases: bytes_of(releases), text: releases });
}
export function ask_script() {
  const text = at('script').value;
  lanes.script.ask({ kind: 'play', script: bytes_of(text), text });
}
export function ask_baseline() {
  lanes.baseline.ask({ kind: 'baseline', set: bytes_of(state.baseline.text) });
  ask_changes();
}
function ask_changes() {
  const { baseline, text } = state;
  if (!baseline) return;
  lanes.changes.ask({ kind: 'diff', set: bytes_of(baseline.text), changed: bytes_of(text) });
}
