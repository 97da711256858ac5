// The page in a browser, what is counted of it, and what it shows; the program beside it.
import { spawnSync } from 'child_process';
import { readFileSync, writeFileSync } from 'fs';
import { basename } from 'path';
import { Chromium } from './chromium.mjs';
import { Firefox } from './firefox.mjs';

const { PAGE, DESK, BROWSER } = process.env;
export const tally = { passed: 0, failed: 0 };
export const EXAMPLES = new URL('../../examples/', import.meta.url).pathname;
export const kinds = {};
export function expect(is_so, what) {
  if (is_so) tally.passed++;
  else if (++tally.failed <= 30) console.log(`failed: ${what}`);
}
const brief = value => JSON.stringify(value)?.slice(0, 300);
export const equal = (found, wanted, what) =>
  expect(found === wanted, `${what}: ${brief(found)}, and not ${brief(wanted)}`);
export const example = name => readFileSync(`${EXAMPLES}${name}.toml`, 'utf8');
// The program's answer to a command over inputs, of which the last is its standard input, and what
// it tells a person.
export function native(command, inputs, words = []) {
  const files = inputs.slice(0, -1).map((text, at) => {
    writeFileSync(`${browser.room}/${at}`, text);
    return `${browser.room}/${at}`;
  });
  const { stdout, stderr, status } =
    spawnSync(DESK, [command, ...files, '-', ...words],
    { input: inputs.at(-1), maxBuffer: 1 << 28, timeout: 300000 });
  return { text: stdout.toString('utf8'), status, told: stderr.toString('utf8') };
}
async function looked() {
  const answers = {};
  // (of a long one the whole, as it comes to a file)
  for (const [name, it] of Object.entries(desk.state.answers))
    answers[name] = it.file ? { ...it, text: await it.file.text() } : it;
  const text = it => document.getElementById(it).textContent;
  const bars = [...document.querySelectorAll('#bars > .bar')].map(it => ({
    name: it.dataset.task, level: it.querySelector('.level').textContent,
    told: it.querySelector('.told').textContent, room: it.querySelector('.room').textContent,
    delta: it.querySelector('.delta').textContent, is_bad: it.classList.contains('is-bad'),
    is_drawn: !it.querySelector('.track').hidden,
    parts: [...it.querySelectorAll('.track > .part')].map(part => part.dataset.tip),
    places: [...it.querySelectorAll('.track > .part')].map(part => {
      const [box, all] = [part, part.parentElement].map(it => it.getBoundingClientRect());
      return [box.left - all.left, box.width].map(it => 100 * it / all.width);
    }),
    reach: ['.reach:not(.any)', '.reach.any'].map(mark => it.querySelector(mark))
      .map(mark => mark.hidden ? null : parseFloat(mark.style.width)),
    width: [...it.querySelectorAll('.track > .part')]
      .reduce((sum, part) => sum + parseFloat(part.style.width), 0),
      end: parseFloat(it.querySelector('.track > .end')?.style.left),
  }));
  const chains = [...document.querySelectorAll('#chains > .bar')].map(it => ({
    name: it.querySelector('.who').textContent, told: it.querySelector('.told').textContent,
    room: it.querySelector('.room').textContent, is_bad: it.classList.contains('is-bad'),
    is_drawn: !it.querySelector('.track').hidden,
    fields: [...it.querySelectorAll('.overhead input')].map(it => it.value),
    parts: [...it.querySelectorAll('.track > .part')].map(part => part.dataset.tip),
    widths: [...it.querySelectorAll('.track > .part')].map(part => parseFloat(part.style.width)),
    end: parseFloat(it.querySelector('.track > .end')?.style.left),
    opened: [...it.querySelectorAll('.sum tr')].map(row =>
      [...row.querySelectorAll('td')].map(cell => cell.textContent).join('|')).filter(it => it),
  }));
  const rows = [...document.querySelectorAll('#table [data-row]')]
    .map(it => Object.fromEntries(
    [...it.querySelectorAll('[data-cell]')].map(cell => [cell.dataset.cell, cell.value])));
  const shown = Object.fromEntries(
    [...document.querySelectorAll('[id]')].map(it => [it.id, it.textContent]));
  const slices = [...document.getElementById('picture').shadowRoot.querySelectorAll('.e > title')]
    .map(it => it.textContent);
  return { answers, bars, chains, rows, shown, slices, verdict: text('verdict'),
    trouble: text('trouble'), conflict: document.getElementById('conflict').hidden ? '' :
    text('conflict'),
    mends: [...document.querySelectorAll('#mends button')].map(it => it.textContent),
    notes: [...document.querySelectorAll('#notes > li')].map(it => it.textContent),
    set: document.getElementById('set').value, is_tabled: !document.getElementById('table').hidden,
      strip: document.getElementById('strip').className };
}
export const look = () => browser.run(looked);
// Puts texts where they are typed, at once.
export async function put(texts) {
  await browser.run(texts => {
    for (const [id, text] of Object.entries(texts)) {
      const it = document.getElementById(id);
      it.value = text;
      it.dispatchEvent(new Event('input'));
    }
  }, texts);
  await browser.settled();
  return look();
}
export const digits = text => text.replaceAll('\u202f', '');
export const PAGE_URL = `file://${PAGE}`;
export const is_firefox = basename(BROWSER).includes('firefox');
export const browser = await (is_firefox ? Firefox : Chromium).started(BROWSER);
export const cell = (row, key) => `#table [data-row="${row}"] [data-cell="${key}"]`;
export const lines_changed = (a, b) => {
  const rest = b.split('\n');
  return a.split('\n').filter(it => {
    const at = rest.indexOf(it);
    if (at >= 0) rest.splice(at, 1);
    return at < 0;
  }).length + rest.length;
};
