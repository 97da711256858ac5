// A row for each chain: its bound against its limit, made of the parts that `explain` prints; its
// fields; and, where somebody opens it, how far `limits` lets numbers go with the chain met.
import {
  faint_percent, fill_track, moved_told, number_told, of_limit_told, percent, piece_of, tips,
  told_table,
} from './bars.mjs';
import { at, element, grouped, us } from './dom.mjs';
import { Fields, value_in } from './fields.mjs';
import { names_typed, typed_number } from './table.mjs';
import {
  add_chain, name_of, numbers_in, put_key, quoted, remove_chain, set_limit, set_names, set_numbers,
  set_word, string_in, tasks_in,
} from './toml.mjs';

const LIMITS = ['age', 'reaction'];
const PARTS = { wait: 'wait for', jitter: 'jitter of', response: 'response of',
  deadline: 'deadline of' };
const OFFSETS = { placeholder: 'not known',
  title: 'When its tasks arrive first, on one clock, one number for each' };
const WRITES = { placeholder: 'finish',
  title: 'When its tasks write: at their finish, or at their deadline' };
const chain_part = ({ kind, by, less }) =>
  `${PARTS[kind] ?? kind} ${by}${less === null ? '' : `, less the cost of ${less}`}`;

function chain_told({ time, limit, least }) {
  if (time === null) return ['no bound'];
  if (limit === null) return [element('b', us(time))];
  const in_any = least === null ? '' : `, at least ${grouped(least)} in any order`;
  return [...of_limit_told(time, limit), in_any];
}

export class Chains extends Fields {
  // `edit` gets splices of the text, `tip` says what a pointer is on.
  constructor(host, edit, tip) {
    super(host, edit);
    tips(host, tip);
  }
  row(place) {
    const of = `chain ${place + 1}`, row = {
      pieces: [], open: () => [], who: element('button.who', { type: 'button' }),
      delta: element('span.delta'), room: element('span.room'), told: element('span.told'),
      track: element('div.track', { role: 'img' }), sum: element('div.sum', { hidden: true }),
      drop: this.dropper(of, () => this.removed(place)),
    };
    const table = () => this.document.chains[place];
    const words = (key, splices, more) => element('input.names', { 'aria-label': `${key} of ${of}`,
      autocomplete: 'off', spellcheck: false, onchange: ({ target }) => {
        const found = splices(names_typed(target.value));
        if (found) this.edit(found);
        this.fill();
      }, ...more });
    const names = (key, splices) => words(key, all => all.length ? splices(all) : null);
    row.inputs = new Map([
      ['name', names('name', ([it]) => put_key(this.document, table(), 'name', quoted(it)))],
      ['tasks', names('tasks', all => set_names(this.document, table(), 'tasks', all))],
      ...LIMITS.map(key => [key, this.field(
        { 'aria-label': `${key} of ${of}`, placeholder: 'none' }, `${of} ${key}`,
        value => set_limit(this.document, table(), key, value))]),
      ['offsets', words('offsets', all => {
        const numbers = all.map(it => typed_number(it, true));
        return numbers.includes(null) ? null :
          set_numbers(this.document, table(), 'offsets', numbers);
      }, OFFSETS)],
      ['writes', words('writes', ([it]) => set_word(this.document, table(), 'writes', it), WRITES)],
    ]);
    row.fields = element('div.overhead.faint',
      ...[...row.inputs].map(([key, it]) => element('label', key, it)), row.drop);
    row.line = element('li.bar', element('div.title', row.who, row.delta, row.room, row.told),
      row.track, row.fields, row.sum);
    const opened = is_open => {
      row.sum.hidden = !is_open;
      row.who.setAttribute('aria-expanded', is_open);
      this.draw_sum(row);
    };
    row.who.onclick = () => opened(row.sum.hidden);
    opened(false);
    this.host.append(row.line);
    return row;
  }
  draw_sum(row) {
    row.sum.replaceChildren(...row.sum.hidden ? [] : row.open());
  }
  added() {
    const { chains, tasks } = this.document, taken = new Set(chains.map(name_of));
    let name = 'chain';
    for (let number = 2; taken.has(name); number++) name = `chain-${number}`;
    this.edit(add_chain(this.document, { name, tasks: tasks.slice(0, 2).map(name_of) }));
    const input = this.rows.at(-1)?.inputs.get('tasks');
    input?.focus();
    input?.select();
  }
  removed(place) {
    this.edit(remove_chain(this.document, place));
    (this.rows[Math.min(place, this.rows.length - 1)]?.drop ?? at('add-chain')).focus();
  }

  // What a document has, and what the desk prints of it; or that alone, where the table doesn't
  // follow the document.
  show(document, { explained, limits, was }) {
    const accounts = explained?.chains ?? [], can_edit = document.why === null;
    const names = can_edit ? document.chains.map(name_of) : accounts.map(it => it.name);
    // (an answer leaves what somebody types)
    this.can_edit = can_edit;
    if (document !== this.document || names.length !== this.rows.length)
      this.with_rows(document, names.length);
    names.forEach((name, place) => {
      const named = it => it.name === name, row = this.rows[place];
      row.who.textContent = name || `chain ${place + 1}`;
      row.fields.hidden = !can_edit;
      this.draw(row, name, accounts.find(named) ?? null, limits?.chains.get(name) ?? null,
        was?.explained?.chains.find(named) ?? null);
    });
  }
  draw(row, name, account, found, before) {
    const { time = null, limit = null, parts = [] } = account ?? {};
    const by = account && before ? time - before.time : 0;
    row.line.classList.toggle('is-bad', limit !== null && !(time !== null && time <= limit));
    row.told.replaceChildren(...account ? chain_told(account) : []);
    row.room.textContent = typeof found?.slack === 'number' ? `slack ${grouped(found.slack)}` : '';
    row.delta.textContent = by ? moved_told(before, account) : '';
    row.delta.className = by > 0 ? 'delta worse' : by < 0 ? 'delta better' : 'delta';
    row.track.hidden = time === null;
    const whole = limit ?? time, scale = Math.max(limit ?? 1, time ?? 1);
    const of_whole = limit === null ? 'of the bound' : 'of the limit';
    const pieces = parts.map((part, place) => piece_of(row, place, { kind: part.kind, of: part.by,
      width: 100 * part.time / scale, text: part.by,
      tip: `${chain_part(part)}: ${us(part.time)} (${percent(part.time, whole)} ${of_whole})` }));
    const label = `${name}: ${time} ${limit === null ? '' : `of ${limit} `}microseconds: ` +
      parts.map(it => `${chain_part(it)}: ${us(it.time)}`).join('; ');
    fill_track(row, pieces, { time, limit, scale, before: before?.time, label });
    row.open = () => [
      told_table(`parts of the bound of ${name}`, ['part', 'µs', of_whole], parts.map(it =>
        [chain_part(it), grouped(it.time), faint_percent(it.time, whole)])),
      told_table(`how far numbers may go with ${name} met`, ['number', 'value', 'with it met'],
        (found?.reaches ?? []).map(it =>
          [`${it.name}: ${number_told(it)}`, grouped(it.value), grouped(it.furthest)]))];
    this.draw_sum(row);
  }
  // What of a chain the desk refuses, or null.
  mark(wrong) {
    this.mark_where(({ chain, key }) =>
      wrong !== null && wrong.chain === chain && (!wrong.key || wrong.key === key));
  }
  // Each field, and what the text has there.
  fields() {
    const { document, rows } = this;
    const listed = { tasks: tasks_in, offsets: table => numbers_in(table, 'offsets') };
    const value = (table, key) => listed[key]?.(table)?.join(', ') ?? string_in(table, key) ??
      value_in(document, table, key);
    return (this.can_edit ? document.chains : []).flatMap((table, chain) =>
      [...rows[chain].inputs].map(([key, input]) =>
        ({ input, key, chain, value: value(table, key) })));
  }
}
