// Fields of numbers of the text, and rows of such fields: each edit gives splices of the text.
import { element, icon } from './dom.mjs';
import { typed_number } from './table.mjs';
import { number_in, written } from './toml.mjs';

// What stands at a key.
export const value_in = (document, table, key) =>
  table ? String(number_in(table, key) ?? written(document, table, key)) : '';

// What has them has `fields`: each `input` with the `value` that the text has there; and `row`,
// which makes the row of a place, whose `line` is its element.
export class Fields {
  constructor(host, edit) {
    Object.assign(this, { host, edit, document: null, typing: null, rows: [] });
  }
  // `splices` are the edit for a number, or for none where the field may be empty.
  field(more, key, splices, may_be_empty = true) {
    const typed = ({ target: input }) => {
      const text = input.value.trim(), value = text ? typed_number(text, true) : null;
      const is_wrong = value === null && !(may_be_empty && text === '');
      input.classList.toggle('is-wrong', is_wrong);
      if (!is_wrong) this.typed(input, splices(value), key);
    };
    return element('input', { inputMode: 'numeric', autocomplete: 'off', oninput: typed,
      onchange: () => this.fill(), ...more });
  }
  typed(input, splices, key) {
    this.typing = input;
    this.edit(splices, key);
    this.typing = null;
  }
  dropper(what, onclick) {
    return element('button.bare', { type: 'button', title: 'Remove', 'aria-label': `remove ${what}`,
      onclick }, icon('drop'));
  }
  // So many rows of a document.
  with_rows(document, count) {
    this.document = document;
    while (this.rows.length > count) this.rows.pop().line.remove();
    while (this.rows.length < count) this.rows.push(this.row(this.rows.length));
    this.fill();
  }
  // What somebody types stays as it is typed.
  fill() {
    for (const { input, value } of this.fields()) {
      if (input === this.typing || input.value === value) continue;
      input.value = value;
      input.classList.remove('is-wrong');
    }
  }
  // Those that show what the text has are marked where they are wrong.
  mark_where(is_wrong) {
    for (const it of this.document ? this.fields() : [])
      if (it.input.value === it.value) it.input.classList.toggle('is-wrong', is_wrong(it));
  }
}
