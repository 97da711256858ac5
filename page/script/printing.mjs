// What the program prints of the set, each answer below its command, and the lines that ask for it.
import { at, element, write } from './dom.mjs';
import { cut, state } from './state.mjs';
import { lines_told } from './words.mjs';

const PRINTED = ['admit', 'explain', 'settings', 'certify', 'check', 'releases', 'simulate',
  'draw', 'worst', 'limits'];
export function show_printed(name, answer) {
  const { status } = answer;
  let place = at(`printed-${name}`);
  if (!place) {
    place = element('pre', { id: `printed-${name}`, tabIndex: 0 });
    const behind = PRINTED.slice(PRINTED.indexOf(name) + 1)
      .map(it => at(`printed-${it}`)?.parentElement).find(it => it) ?? null;
    at('printed').insertBefore(
      element('div', {}, element('h3', { className: 'code' }), place), behind);
  }
  write(place.previousSibling, `desk ${name}${status ? ` [${status}]` : ''}`);
  write(place, cut(answer));
}
export function unprint(...names) {
  for (const it of names) at(`printed-${it}`)?.parentElement.remove();
}
export const show_lines = () => write(at('lines'),
  lines_told(state.file.name, state.answers, at('judged').value.trim(), state.run_of).join('\n'));
