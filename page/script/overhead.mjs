// What the node itself takes, below the table: fields of what it takes of a job, of a lock and when
// a timer comes, of how late a timer's thread begins, and of each interrupt that no task asks for.
import { element } from './dom.mjs';
import { Fields, value_in } from './fields.mjs';
import { add_interrupt, put_key, remove_interrupt, set_node } from './toml.mjs';

const FIELDS = { job: ['a job', 'Its timer, the switches to and from it, its call to sleep'],
  lock: ['a lock', 'Locking and unlocking one mutex'],
  release: ['a timer', 'What of “a job” a timer takes of whoever executes'],
  late: ['late', 'How late a timer’s thread begins'] };
const OF_INTERRUPT = { period: 'each', cost: 'takes' };

export class Overhead extends Fields {
  constructor(host, edit) {
    super(host, edit);
    this.inputs = new Map(Object.entries(FIELDS).map(([key, [, title]]) => [key,
      this.field({ placeholder: '0', title, id: `node-${key}` }, `node ${key}`,
        value => set_node(this.document, key, value))]));
    this.list = element('div.interrupts');
    this.add = element('button.small', { type: 'button', onclick: () => this.added(),
      title: 'What no task asks for, as the ticks of a clock' }, 'Add an interrupt');
    host.append(element('span', 'The node itself takes, in µs:'),
      ...[...this.inputs].map(([key, it]) =>
        element('label', { for: it.id, title: it.title }, FIELDS[key][0], it)),
      this.list, this.add);
  }
  row(place) {
    const inputs = new Map(Object.keys(OF_INTERRUPT).map(key => [key, this.field(
      { 'aria-label': `${key} of interrupt ${place + 1}` }, `interrupt ${place} ${key}`,
      value => put_key(this.document, this.document.interrupts[place], key, String(value)),
      false)]));
    const drop = this.dropper(`interrupt ${place + 1}`, () => this.removed(place));
    const line = element('span.interrupt', `interrupt ${place + 1}`,
      ...[...inputs].map(([key, it]) => element('label', OF_INTERRUPT[key], it)), drop);
    this.list.append(line);
    return { line, inputs, drop };
  }
  added() {
    this.edit(add_interrupt(this.document, { period: 4000, cost: 10 }));
    const input = this.rows.at(-1)?.inputs.get('period');
    input?.focus();
    input?.select();
  }
  removed(place) {
    this.edit(remove_interrupt(this.document, place));
    (this.rows[Math.min(place, this.rows.length - 1)]?.drop ?? this.add).focus();
  }
  show(document) {
    this.host.hidden = document.why !== null;
    this.with_rows(document, document.interrupts.length);
  }
  // What of it the desk refuses: a number by its `key`, or an interrupt by its `place`; or null.
  mark(wrong) {
    this.mark_where(({ key, place }) => wrong !== null && wrong.place === place &&
      (place !== undefined || wrong.key === key));
  }
  // Each field, and what the text has there.
  fields() {
    const { document, inputs, rows } = this;
    const of_node = [...inputs].map(([key, input]) =>
      ({ input, key, value: value_in(document, document.node, key) }));
    return [...of_node, ...document.interrupts.flatMap((table, place) =>
      [...rows[place].inputs].map(([key, input]) =>
        ({ input, key, place, value: value_in(document, table, key) })))];
  }
}
