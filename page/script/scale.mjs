// All execution at once, as on a slower processor: a grip for the factor on it, with how far
// `limits` lets it go. It scales in thousandths, rounded down, so that what the desk's factor
// allows passes: each cost, and the begin and the length of each section, and what timers and
// interrupts take.
import { element, thousandths } from './dom.mjs';
import { padded_execution, taken } from './padding.mjs';
import { name_of, number_in, put_key } from './toml.mjs';

// What the factor is of: the cost and the sections of each task, with what the node takes of them,
// its timers, which are in no cost, and the interrupts.
export const execution_of = document => ({
  tasks: new Map(document.tasks.map(it => [name_of(it), padded_execution(document, it)])),
  timer: taken(document, 'release'), rest: taken(document, 'job') - taken(document, 'release'),
  interrupts: document.interrupts.map(it => number_in(it, 'cost')),
});

const put_where_changed = (document, table, key, value) => value === number_in(table, key) ? [] :
  put_key(document, table, key, String(value));
export function scaled(document, base, permille) {
  const times = value => Math.floor(value * permille / 1000);
  return [...scaled_node(document, base, times), ...document.tasks.flatMap(task => {
    const was = base.tasks.get(name_of(task));
    if (!was?.cost || was.sections.length !== task.sections.length) return [];
    // (`end` is where a section ends with what the node takes, `stop` where without)
    let end = 0, stop = 0;
    const edits = was.sections.flatMap(({ at, len, pads }, place) => {
      const begin = Math.max(end, times(at)), table = task.sections[place];
      end = begin + times(len);
      const from = Math.max(stop, begin - pads.at);
      const length = Math.max(Math.min(1, len), end - begin - pads.len);
      stop = from + length;
      return [...put_where_changed(document, table, 'at', from),
        ...put_where_changed(document, table, 'len', length)];
    });
    const cost = Math.max(1, stop, Math.max(end, times(was.cost)) - was.pad);
    return [...edits, ...put_where_changed(document, task, 'cost', cost)];
  })];
}
// (what of `job` is no timer's is in the costs, and scaled there)
function scaled_node(document, { timer, rest, interrupts }, times) {
  const { node, interrupts: tables } = document;
  const edits = tables.length !== interrupts.length ? [] : tables.flatMap((it, place) =>
    interrupts[place] ? put_where_changed(document, it, 'cost', times(interrupts[place])) : []);
  if (!node || !timer) return edits;
  return [...edits, ...put_where_changed(document, node, 'job', rest + times(timer)),
    ...put_where_changed(document, node, 'release', times(timer))];
}

// The factor is of the execution that was there when somebody took the grip; when it is let go, it
// is 1 again.
export class Scale {
  constructor(host, { execution, apply }) {
    Object.assign(this, { execution, apply, base: null, most: null, known: null });
    this.grip = element('input',
      { type: 'range', min: 0, max: 2000, step: 1, value: 1000,
      'aria-label': 'all execution, in thousandths' });
    this.reach = element('i.reach.any');
    this.told = element('span.room');
    host.append(element('div.title', element('span.who', 'all execution'), this.told),
      element('div.growth', element('i.line'), this.reach, this.grip));
    this.grip.oninput = () => this.go(Number(this.grip.value));
    this.grip.onkeydown = event => this.step(event);
    for (const it of ['change', 'blur'])
      this.grip.addEventListener(it, () => { if (it === 'blur' || !this.is_keyed) this.let_go(); });
  }
  get factor() {
    return Number(this.grip.value);
  }
  go(permille) {
    if (!this.base) this.is_keyed = false;
    this.take();
    const stop = this.most !== null && Math.abs(this.most - permille) < 12 && !this.is_keyed ?
      this.most : permille;
    this.grip.value = Math.max(1, stop);
    this.apply(this.base, this.factor);
    this.tell();
  }
  take() {
    this.base ??= this.execution();
  }
  step(event) {
    const by = event.shiftKey ? 10 : 1, more = this.factor + by, less = this.factor - by;
    const to = { ArrowRight: more, ArrowUp: more, ArrowLeft: less, ArrowDown: less, Home: 1000,
      End: this.most }[event.key];
    if (to === undefined || to === null) return;
    event.preventDefault();
    this.take();
    this.is_keyed = true;
    this.go(Math.min(to, Number(this.grip.max)));
  }
  let_go() {
    this.base = null;
    this.is_keyed = false;
    this.show(this.known);
  }
  // What `limits` prints of all execution: the factor, null for none, or undefined while it isn't
  // known.
  show(all, can_edit = !this.grip.disabled) {
    this.known = all;
    this.grip.disabled = !can_edit;
    if (this.base) return;
    this.most = all ?? null;
    this.grip.max = Math.max(2000, Math.ceil((all ?? 0) * 1.1));
    this.grip.value = 1000;
    this.reach.hidden = this.most === null;
    if (this.most !== null) this.reach.style.width = `${100 * this.most / this.grip.max}%`;
    this.tell();
  }
  tell() {
    const limit = this.known === undefined ? '' : this.most === null ? '; no factor helps' :
      ` ≤ ${thousandths(this.most)}`;
    this.told.textContent = `× ${thousandths(this.factor)}${limit}`;
    const reach = this.most === null ? '' : `, up to ${thousandths(this.most)}`;
    this.grip.setAttribute('aria-valuetext', `times ${thousandths(this.factor)}${reach}`);
  }
}
