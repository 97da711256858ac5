// Scenes of how long an edit holds the page up, however long the desk takes. What is judged is the
// page's own time, which other programs of the machine don't lengthen; the time by the clock is
// printed beside it. An edit is tried again where it took longer: its round may have had work of
// the browser itself in it, and a processor that others use, too, is slower.
import { writeFileSync } from 'fs';
import { soon } from './hand.mjs';
import { longest_chains, many_notes, many_sections, ordinary, too_much } from './heavy.mjs';
import { PAGE_URL, browser, cell, equal, expect, is_firefox } from './page.mjs';

// Milliseconds (what Firefox is measured by may have several tasks in it: holds.mjs); the rounds of
// an edit; and how many of all edits are no first ones.
const AIM = is_firefox ? 75 : 50, ROUNDS = 6, SPARE = 20;

const held = [];
let spare = SPARE;
// Each round begins with `before`, which isn't measured; of `act`, with what follows once the edits
// have stopped, the least of the rounds counts.
async function held_up(what, before, act) {
  let least = { own: Infinity };
  for (let round = 0; round < ROUNDS && least.own > AIM; round++) {
    if (round > 0 && spare-- <= 0) break;
    await before(round);
    await browser.settled();
    await soon(100);
    const found = await browser.longest_hold(async () => {
      await act(round);
      await browser.settled();
      await soon(450);
    });
    if (found.own < least.own) least = found;
  }
  const [own, clock] = [least.own, least.clock].map(Math.round);
  held.push(`${what} ${own} (${clock})`);
  expect(own <= AIM, `${what}: the page is held up ${own} ms, by the clock ${clock}`);
}
async function typed(...keys) {
  for (const it of keys) {
    await browser.press(it);
    await soon(30);
  }
}
const paste = set => browser.run(set => {
  if (desk.state.text === set) return;
  const it = document.getElementById('set');
  it.value = set;
  it.dispatchEvent(new Event('input'));
}, set);
const type = () => typed('1', 'Backspace');
const undo = () => browser.press('z', { ctrl: true });

async function edits(name, set) {
  const path = `${browser.room}/${name}.toml`;
  const try_it = (what, before, act) => held_up(`${name}: ${what}`, before, act);
  const in_table = async set => {
    await paste(set);
    await browser.settled();
    await browser.click(cell(1, 'cost'));
  };
  const in_text = async () => {
    await paste(set);
    await browser.run(() => {
      const it = document.getElementById('set');
      it.focus();
      it.setSelectionRange(it.value.length >> 1, it.value.length >> 1);
    });
  };
  await try_it('opened', () => paste(ordinary()), async round => {
    writeFileSync(path, `${set}# ${round}\n`);
    await browser.give('#file', path);
  });
  await try_it('typed into the table', () => in_table(set), type);
  await try_it('typed into the text', in_text, type);
  await try_it('undo', async () => {
    await in_text();
    await typed('1');
  }, undo);
  const grip = '#bars [data-task="task5"] .growth input';
  await try_it('a pulled grip', async () => {
    await paste(set);
    await browser.settled();
    await browser.hover(grip, .2);
  }, () => browser.pull(grip, .2, .4));
  await try_it('a set that no order passes', () => in_table(too_much(set)), type);
  await try_it('beside a baseline', async () => {
    await paste(set);
    await browser.settled();
    await browser.click('#pin');
    await in_table(set);
  }, type);
  await browser.click('#unpin');
}
export async function delays() {
  held.length = 0;
  spare = SPARE;
  await browser.open(PAGE_URL);
  const sets = [['sections', many_sections()], ['long chains', longest_chains()],
    ['notes', many_notes()]];
  for (const [name, set] of is_firefox ? sets.slice(0, 1) : sets) await edits(name, set);
  console.log(`held up, ms of its own (by the clock): ${held.join(', ')}`);
  // What the measure says of a page that is held up.
  const { own, clock } = await browser.longest_hold(async () => {
    await browser.run(() => new Promise(done => setTimeout(() => {
      let sum = 0;
      for (let it = 0; it < 3e8; it++) sum += it % 7;
      done(sum);
    }, 20)));
    await soon(100);
  });
  expect(own >= 80 && clock >= own, `a page that is held up: ${own} ms, by the clock ${clock}`);
  equal(await browser.evaluate('document.getElementById("trouble").textContent'), '', 'trouble');
}
