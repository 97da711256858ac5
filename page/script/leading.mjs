// From a refusal to its place in the text that it refuses: a button beside its sentence.
import { at, element } from './dom.mjs';

// The line that a sentence begins with, as a span of the text, or null.
export function line_named(sentence, text) {
  const number = Number(sentence.match(/^Refused: line (\d+)\b/)?.[1]), lines = text.split('\n');
  if (!(number > 0 && number <= lines.length)) return null;
  const start = lines.slice(0, number - 1).reduce((sum, it) => sum + it.length + 1, 0);
  return { start, end: start + lines[number - 1].length };
}
// A field scrolls to where its selection is when it gets the focus; the first time it gets the
// whole of a long text.
function show_span(area, { start, end }) {
  area.focus();
  area.blur();
  area.setSelectionRange(start, start);
  area.focus();
  area.setSelectionRange(start, end);
}
// Beside the sentence on a text (its id) stands a button that selects a span of it; none for null.
export function lead(id, span) {
  const button = span && element('button.small',
    { type: 'button', onclick: () => show_span(at(id), span) }, 'Show in the text');
  at(`${id}-place`).replaceChildren(...button ? [button] : []);
}
