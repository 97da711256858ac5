// A bar for each task: its bound against its deadline, made of the parts that `explain` prints;
// below it the cost as a grip, with how far `limits` lets it go. What bars of chains have in common
// with them.
import { limit_of } from './answers.mjs';
import { coloured, element, grouped, plural, us } from './dom.mjs';
import { arrange_children } from './ordering.mjs';
import { safely } from './trouble.mjs';
import { Turns } from './turns.mjs';

const LETTER = 7.4;
export const percent = (time, limit) => `${(100 * time / limit).toFixed(1)} %`;

function part_told(part) {
  if (part.kind === 'above')
    return `${part.by} above: ${plural(part.jobs, 'job')}, ${us(part.time)}`;
  if (part.kind === 'blocked')
    return `blocked by ${part.by}, section ${part.section}, lock ${part.lock}` +
      `${part.user ? `, its ceiling by ${part.user}` : ''}: ${us(part.time)}`;
  if (part.kind === 'interrupt')
    return `${label_of(part)}: ${plural(part.jobs, 'time')}, ${us(part.time)}`;
  return `${CALLED[part.kind] ?? part.kind}: ${us(part.time)}`;
}
const CALLED =
  { cost: 'own cost', node: 'what the node takes of it', timers: 'timers of all tasks' };
const label_of = part => part.kind === 'above' ? part.by :
  part.kind === 'blocked' ? `${part.lock} · ${part.by}` :
  part.kind === 'interrupt' ? `interrupt ${part.number}` : part.kind;

function bound_told(account, deadline) {
  if (account?.over) return [`must stand above ${account.over}`];
  if (!account) return [deadline === null ? '' : `deadline ${us(deadline)}`];
  return of_limit_told(account.time, deadline);
}
export function of_limit_told(time, limit) {
  const late = time - limit;
  return [element('b', grouped(time)), ` of ${us(limit)}`,
    late > 0 ? element('span.beyond', ` ${grouped(late)} too long`) : ''];
}
const NO_COST = 'no cost of its own would do';
function reach_told({ in_order, most }, cost) {
  if (most < cost) return `at most ${grouped(most)} would do`;
  if (in_order === null) return `up to ${grouped(most)} in some order`;
  return `up to ${grouped(in_order)} in this order` +
    (most === in_order ? '' : `, ${grouped(most)} in another`);
}
export function moved_told(before, now) {
  const by = now.time - before.time, told = [];
  if (now.level !== before.level)
    told.push(`${now.level > before.level ? '▲' : '▼'} level ${before.level} → ${now.level}`);
  if (by) told.push(`bound ${by > 0 ? '+' : '−'}${grouped(Math.abs(by))}`);
  return told.join(', ');
}
// A number of a task as it is called.
export const number_told = ({ key, section }) => section === null ? key :
  `length of section ${section}`;

// A part in a row's track, behind the one before it: what is there already is changed.
export function piece_of(row, place, { kind, width, text, tip, of }) {
  const it = row.pieces[place] ??= element('i'), known = [kind, width, text, tip, of].join();
  if (it.known === known) return it;
  Object.assign(it, { known, className: `part ${kind}` });
  it.style.width = `${width}%`;
  if (it.textContent !== text) it.textContent = text;
  Object.assign(it.dataset, { tip, of });
  return coloured(it, of);
}
// The pieces of a row's track, up to a time; with the limit, if there is one, and how long it was
// before.
export function fill_track(row, pieces, { time, limit, scale, before, label }) {
  const at = it => `${100 * it / scale}%`;
  if (limit !== null && time > limit) {
    row.past ??= element('i.past');
    Object.assign(row.past.style, { left: at(limit), width: at(time - limit), opacity: .55 });
    pieces.push(row.past);
  }
  if (limit !== null) {
    row.end ??= element('i.end');
    row.end.style.left = at(limit);
    pieces.push(row.end);
  }
  if (typeof before === 'number' && before !== time) {
    row.ghost ??= element('i.before');
    row.ghost.style.width = at(Math.min(scale, before));
    pieces.push(row.ghost);
  }
  const drawn = row.track.children;
  if (drawn.length !== pieces.length || pieces.some((it, place) => it !== drawn[place]))
    row.track.replaceChildren(...pieces);
  if (row.track.getAttribute('aria-label') !== label) row.track.setAttribute('aria-label', label);
}
// A pointer over a part says what it is.
export function tips(host, tip) {
  const hover = ({ target, clientX: x, clientY: y }) => {
    const part = target.closest('[data-tip]');
    tip(part && { text: part.dataset.tip, of: part.dataset.of ?? '', x, y });
  };
  for (const it of ['pointerover', 'pointerdown']) host.addEventListener(it, hover);
  host.addEventListener('pointerleave', () => tip(null));
}
export const faint_percent = (...of) => element('span.faint', percent(...of));
// A table with a name, its heads, and rows of what stands in them.
export function told_table(label, heads, rows) {
  const head = element('tr', ...heads.map(it => element('th', { scope: 'col' }, it)));
  const body = rows.map(it => element('tr', ...it.map(inside => element('td', inside))));
  return element('table', { 'aria-label': label }, head, ...body);
}

const PULL =
  'Pull: the cost of the task (arrows: a hundredth, with shift a tenth; ' +
  'End: as far as this order lets it)';

export class Bars {
  // `grow` sets a task's cost, `point` shows a section in the table, `tip` says what a pointer is
  // on, `run` shows a task's worst case.
  constructor(host, { grow, point, tip, run }) {
    Object.assign(this, { host, grow, point, run });
    Object.assign(this, { rows: new Map(), pulled: null, pulls: 0, given: null });
    tips(host, tip);
    this.width = host.clientWidth;
    this.turns = new Turns(safely(it => this.show_row(it)), safely(() => this.order(this.names)));
    new ResizeObserver(([{ contentRect }]) => {
      if (contentRect.width === this.width) return;
      this.width = contentRect.width;
      if (this.given) this.show(this.given);
    }).observe(host);
  }

  // What stands for a task that no line of `explain` accounts for: others than those of a conflict.
  show(given) {
    this.given = given;
    const { explained, deadlines } = given;
    const accounts = new Map(explained.accounts.map(it => [it.name, it]));
    const accounted = [...accounts.keys()];
    const others = [...deadlines.keys()].filter(it => !accounts.has(it));
    const names = explained.conflict ? [...accounted, ...others] : accounted.reverse();
    for (const [name, row] of this.rows) {
      if (names.includes(name)) continue;
      row.item.remove();
      this.rows.delete(name);
    }
    Object.assign(this, { names, accounts });
    this.turns.start(names);
  }
  show_row(name) {
    if (!this.rows.has(name)) {
      this.rows.set(name, this.row(name));
      this.host.append(this.rows.get(name).item);
    }
    const growth = limit_of(this.given.limits, name, 'cost');
    this.draw(this.rows.get(name), name, this.accounts.get(name), growth);
  }

  // Rows move only where nobody is pulling a grip, and the focus stays.
  order(names) {
    if (this.pulled) return;
    arrange_children(this.host, names.map(it => this.rows.get(it).item));
  }

  row(name) {
    const row = {
      level: element('span.level'),
      who: element('button.who', { type: 'button', 'aria-expanded': 'false' }),
      delta: element('span.delta'), room: element('span.room'), told: element('span.told'),
      track: element('div.track', { role: 'img' }), sum: element('div.sum', { hidden: true }),
      pieces: [], open: () => [],
      grip: element(
        'input', { type: 'range', min: 0, step: 1, 'aria-label': `cost of ${name}`, title: PULL }),
      reach: element('i.reach'), any: element('i.reach.any'),
    };
    row.title = element('div.title', row.who, row.delta, row.room, row.told);
    row.growth = element('div.growth', element('i.line'), row.any, row.reach, row.grip);
    row.item =
      coloured(element('li.bar', { 'data-task': name }, row.title, row.track, row.growth, row.sum),
      name);
    row.who.append(element('span', { className: 'unseen' }, 'level '), row.level, name);
    row.who.onclick = () => {
      row.sum.hidden = !row.sum.hidden;
      row.who.setAttribute('aria-expanded', !row.sum.hidden);
      this.draw_sum(row);
    };
    row.grip.oninput = () => this.pull(row, name, Number(row.grip.value));
    row.grip.onkeydown = event => this.step(row, name, event);
    row.grip.onpointerdown = () => {
      this.pulled = row;
      this.pulls++;
    };
    for (const it of ['pointerup', 'pointercancel', 'lostpointercapture'])
      row.grip.addEventListener(it, () => this.let_go(row));
    row.grip.onchange = () => this.let_go(row);
    return row;
  }
  let_go(row) {
    if (this.pulled !== row) return;
    this.pulled = null;
    if (this.given) this.show(this.given);
  }

  // A pulled grip stops at what the desk says that the cost may be; arrows go by a hundredth.
  pull(row, name, value) {
    const near = row.scale / 70;
    const stops = [row.in_order, row.most].filter(it => it !== null && it !== undefined);
    const stop = stops.find(it => Math.abs(it - value) < near);
    this.grow(name, Math.max(1, Math.round(stop ?? value)));
  }
  step(row, name, event) {
    const { key, shiftKey } = event;
    const one = Math.max(1, Math.round(row.cost / (shiftKey ? 10 : 100)));
    const more = row.cost + one, less = row.cost - one;
    const to = { ArrowRight: more, ArrowUp: more, ArrowLeft: less, ArrowDown: less,
      End: row.in_order ?? row.most, Home: 1 }[key];
    if (to === undefined || to === null) return;
    event.preventDefault();
    this.grow(name, Math.max(1, to));
  }

  draw(row, name, account, growth) {
    const { explained, limits, deadlines, costs, was, can_edit } = this.given;
    const before = was?.accounts.get(name);
    const deadline = account?.deadline ?? deadlines.get(name) ?? null;
    const time = account?.time ?? null;
    const is_refused = explained.conflict !== null;
    const scale = this.pulled === row ? row.scale : Math.max(deadline ?? 1, time ?? 0, 1);
    // What is drawn already stays.
    const drawn = JSON.stringify(
      [account, limits?.tasks.get(name), limits?.is_whole, deadline, scale, costs.get(name), before,
      was?.conflict, can_edit, is_refused, this.width]);
    if (drawn === row.drawn) {
      if (this.pulled !== row) row.grip.value = row.cost;
      return;
    }
    const cost = costs.get(name) ?? growth?.value ?? 1;
    Object.assign(
      row, { drawn, scale, cost, in_order: growth?.in_order ?? null, most: growth?.most ?? null });
    row.level.textContent = account?.level ?? '';
    row.item.classList.toggle('is-bad', is_refused && !!account);
    row.told.replaceChildren(...bound_told(account, deadline));
    this.draw_track(row, name, account, deadline, before, scale);
    this.draw_growth(row, growth, can_edit, !!account);
    this.draw_delta(row, account, before, is_refused);
    row.open = () => [this.sum(name, account, deadline), ...this.reaches(name, limits),
      element('button.small', { type: 'button', onclick: () => this.run(name) },
        'Show its worst case')];
    this.draw_sum(row);
  }
  // (only of a row that is open)
  draw_sum(row) {
    row.sum.replaceChildren(...row.sum.hidden ? [] : row.open());
  }
  draw_track(row, name, account, deadline, before, scale) {
    row.track.hidden = !account || account.time === undefined;
    if (row.track.hidden) return;
    const wide = (this.width - 12) / scale, at = time => 100 * time / scale;
    const pieces = account.parts.map((part, place) => {
      const told = label_of(part), of = part.by ?? name;
      const tip = `${part_told(part)} (${percent(part.time, deadline)} of the deadline)`;
      const text = told.length * LETTER < part.time * wide - 4 ? told : '';
      return piece_of(row, place, { kind: part.kind, width: at(part.time), text, tip, of });
    });
    const told = account.parts.map(part_told).join('; ');
    fill_track(row, pieces, { time: account.time, limit: deadline, scale, before: before?.time,
      label: `${name}: ${account.time} of ${deadline} microseconds: ${told}` });
  }

  draw_growth(row, growth, can_edit, is_accounted) {
    const { cost, scale, in_order, most, grip } = row;
    grip.max = scale;
    grip.value = cost;
    grip.disabled = !can_edit;
    for (const [it, value] of [[row.reach, in_order], [row.any, most]]) {
      it.hidden = value === null;
      if (value !== null) it.style.width = `${Math.min(100, 100 * value / scale)}%`;
    }
    row.any.hidden ||= most === in_order;
    const reach = growth ? reach_told(growth, cost) :
      this.given.limits?.is_whole === false && is_accounted ? NO_COST : '';
    const brief = in_order === null ? reach && `; ${reach}` :
      ` ≤ ${grouped(in_order)}${most === in_order ? '' : ` (${grouped(most)})`}`;
    row.room.textContent = `cost ${grouped(cost)}${brief}`;
    row.room.title = reach;
    grip.setAttribute('aria-valuetext',
      `${cost} microseconds${reach ? `, ${reach.replaceAll('\u202f', '')}` : ''}`);
  }

  // What has changed since the baseline; of a conflict there are no levels to compare.
  draw_delta(row, account, before, is_refused) {
    const { was } = this.given, is_compared = was && !was.conflict && account && !is_refused;
    const by = is_compared && before ? account.time - before.time : 0;
    row.delta.textContent = !is_compared ? '' : before ? moved_told(before, account) : 'new';
    row.delta.className = by > 0 ? 'delta worse' : by < 0 ? 'delta better' : 'delta';
  }

  // The parts as a table, for whoever opens the row.
  sum(name, account, deadline) {
    if (account?.over)
      return element('p.faint', `It misses nothing itself: it must stand above ${account.over}.`);
    if (!account) return element('p.faint', 'The conflict does not need this task.');
    return told_table(`parts of the bound of ${name}`, ['part', 'µs', 'of the deadline'],
      account.parts.map(it =>
        [this.part_named(it), grouped(it.time), faint_percent(it.time, deadline)]));
  }
  // How far each number of the task may go.
  reaches(name, limits) {
    const rows = limits?.is_whole ? limits.tasks.get(name) ?? [] : [];
    if (!rows.length) return [];
    const head = element('tr',
      ...['number', 'value', 'this order', 'some order']
      .map(it => element('th', { scope: 'col' }, it)));
    const cells = it => [number_told(it),
      ...[it.value, it.in_order, it.most].map(value => value === null ? '–' : grouped(value))];
    const body = rows.map(it => element('tr', it.held ? { title: `held by ${it.held}` } : {},
      ...cells(it).map(text => element('td', text))));
    return [element('table', { 'aria-label': `how far the numbers of ${name} may go` },
      head, ...body)];
  }
  part_named(part) {
    if (part.kind === 'above') return `${part.by} above, ${plural(part.jobs, 'job')}`;
    if (part.kind === 'interrupt') return `${label_of(part)}, ${plural(part.jobs, 'time')}`;
    if (part.kind !== 'blocked') return CALLED[part.kind] ?? part.kind;
    const onclick = () => this.point(part.by, part.section);
    const button = element('button.small', { type: 'button', onclick },
      `${part.by}, section ${part.section}`);
    return element('span', 'blocked by ', button, ` lock ${part.lock}`);
  }
}
