// What the page shows of a node's trace: what it breaks, the trace as a picture, and beside it the
// run that the desk has of the same arrivals.
import { read_observe, sentence_of } from './answers.mjs';
import { ask_arrivals } from './asking.mjs';
import { at, write } from './dom.mjs';
import { lead, line_named } from './leading.mjs';
import { broken_rows, observation, read_trace, releases_of, seen_rows } from './observing.mjs';
import { parts, state } from './state.mjs';
import { picture_of } from './traced.mjs';

// A longer trace isn't drawn: the browser would be busy with nothing else.
const MOST_DRAWN = 2000;
// The list of the arrivals whose run is to stand beside the trace, if any.
let wanted_run = null;
export function heard_of_trace(answer, asked) {
  if (answer) {
    const { text, status, told } = answer;
    state.answers.observe = { text, status, told };
  }
  show_trace(answer && read_observe(answer), asked?.text ?? '');
}
function show_trace(seen, text) {
  const { text: told, is_good } = seen ? observation(seen) : { text: '' };
  lead('trace', seen?.refused ? line_named(seen.refused, text) : null);
  at('observed').className = is_good ? 'yes' : 'no';
  write(at('observed'), told);
  at('broken').replaceChildren(...seen ? broken_rows(seen) : []);
  at('seen').replaceChildren(...seen ? seen_rows(seen) : []);
  if (!seen || seen.refused) return no_pictures('');
  const trace = read_trace(text), count = trace.slices.length;
  if (count > MOST_DRAWN) return no_pictures(`No picture: the trace has ${count} slices.`);
  parts.traced.show(picture_of(trace, seen), true);
  wanted_run = releases_of(trace, seen.rows);
  ask_arrivals(wanted_run);
}
function no_pictures(why) {
  parts.traced.clear();
  no_run(why);
  wanted_run = null;
}
function no_run(why) {
  parts.arrivals.clear();
  write(at('beside'), '');
  write(at('not-traced'), why);
}
// Arrivals that the desk refuses (too soon, say) have no run.
export function heard_of_arrivals(answer, asked) {
  if (asked.text !== wanted_run) return;
  if (answer.status !== 0) return no_run(`No run beside it. ${sentence_of(answer, 'releases')}`);
  write(at('not-traced'), '');
  write(at('beside'), 'The desk\'s run of the same arrivals, each job for its whole cost:');
  parts.arrivals.show(answer.text, true);
}
