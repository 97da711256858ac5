// Scenes of a set with chains: their bars, their fields, and how far numbers go with them met.
import { compare_opened, compare_set } from './comparing.mjs';
import {
  PAGE_URL, browser, cell, digits, equal, example, expect, lines_changed, look, put,
} from './page.mjs';

const field = (key, place = 1) =>
  `#chains > li:nth-child(${place}) [aria-label="${key} of chain ${place}"]`;
const marked = () => browser.run(() => [...document.querySelectorAll('#chains input.is-wrong')]
  .map(it => it.getAttribute('aria-label')).join());
const chain_named = (seen, name) => seen.chains.find(it => it.name === name);

export async function of_chains() {
  await browser.open(PAGE_URL);
  const set = example('steer');
  let seen = await put({ set });
  compare_set('a set with a chain', set, seen);
  expect(seen.is_tabled, `has its table: ${seen.shown.untabled}`);
  equal(seen.chains.map(it => it.fields.join(' ')).join(), 'steer camera, plan, wheel  45000  ',
    'as it is written');
  await browser.click('#chains .who');
  seen = await look();
  compare_opened('a chain that is opened', 'steer', seen);
  await limited(set);
  await linked(set);
  await refused(set);
  await compared(set);
  seen = await put({ set: set.replace('deadline = 20000', 'deadline = 2000') });
  compare_set('a chain where no order passes', seen.set, seen);
  equal(seen.chains.map(it => `${it.name}${it.told}${it.room}`).join(), 'steer', 'has no bound');
  seen = await put({ set: `#% a ${set.length}\n${set}` });
  equal(seen.chains.map(it => `${it.name}: ${digits(it.told)}`).join(), 'steer: 44200 of 45000 µs',
    'a chain of a team has its bar, too');
  await put({ set: example('robot-mended') });
  equal((await look()).chains.length, 0, 'a set without chains has no bars of them');
}
// The limits, as numbers of the text.
async function limited(set) {
  await browser.write(field('reaction'), '43000');
  let seen = await look();
  equal(seen.set, set.replace('45000', '43000'), 'a field changes its number');
  equal(seen.strip, 'verdict is-no', 'a bound past the limit');
  expect(chain_named(seen, 'steer').is_bad, 'is red');
  compare_set('a missed limit', seen.set, seen);
  await browser.write(field('age'), '60 ms');
  seen = await look();
  equal(seen.set, set.replace('reaction = 45000', 'age = 60000\nreaction = 43000'),
    'an age stands above the reaction');
  compare_set('two limits', seen.set, seen);
  await browser.write(field('reaction'), '');
  seen = await look();
  equal(seen.set, set.replace('reaction = 45000', 'age = 60000'), 'an empty field goes');
  equal(seen.strip, 'verdict is-yes', 'the bound is met');
  compare_set('an age', seen.set, seen);
  await browser.write(field('age'), '');
  seen = await look();
  equal(seen.set, set.replace('reaction = 45000\n', ''), 'without a limit');
  compare_set('a chain without a limit', seen.set, seen);
  await browser.write(field('offsets'), '0 0, 0.5ms');
  seen = await look();
  equal(seen.set, set.replace('reaction = 45000', 'offsets = [0, 0, 500]'), 'on one clock');
  compare_set('a chain on one clock', seen.set, seen);
  await browser.write(field('offsets'), '0 x');
  equal((await look()).set, seen.set, 'an offset that is no number is not taken');
  await browser.write(field('offsets'), '');
  seen = await look();
  equal(seen.set, set.replace('reaction = 45000\n', ''), 'and on none again');
  await browser.write(field('writes'), 'deadline');
  seen = await look();
  equal(seen.set, set.replace('reaction = 45000', 'writes = "deadline"'), 'written at deadlines');
  compare_set('a chain at deadlines', seen.set, seen);
  await browser.write(field('writes'), '');
  seen = await look();
  equal(seen.set, set.replace('reaction = 45000\n', ''), 'and at the finish again');
  await browser.write(field('age'), 'x');
  equal((await look()).set, seen.set, 'what is no number is not taken');
}
// The tasks of a chain, and other edits of the set.
async function linked(set) {
  await put({ set });
  await browser.write(field('tasks'), 'camera wheel');
  let seen = await look();
  equal(seen.set, set.replace('"plan", ', ''), 'other tasks');
  compare_set('a chain of two tasks', seen.set, seen);
  await browser.write(cell(1, 'name'), 'lens');
  seen = await look();
  equal(seen.set.includes('tasks = ["lens", "wheel"]'), true, 'a chain follows the name of a task');
  compare_set('a task with another name', seen.set, seen);
  await browser.write(cell(1, 'cost'), '2500');
  seen = await look();
  compare_set('another cost', seen.set, seen);
  await browser.write(field('name'), 'drive');
  seen = await look();
  equal(seen.chains[0].name, 'drive', 'another name');
  compare_set('a chain with another name', seen.set, seen);
  await put({ set });
  await browser.click('#add-chain');
  seen = await look();
  const fresh = '\n[[chain]]\nname = "chain"\ntasks = ["wheel", "camera"]\n';
  equal(seen.set, `${set}${fresh}`, 'a new one stands behind all');
  compare_set('two chains', seen.set, seen);
  await browser.click('#chains > li:nth-child(2) .overhead button');
  equal((await look()).set, set, 'it goes again');
  await browser.click('#chains > li:nth-child(1) .overhead button');
  seen = await look();
  expect(!seen.set.includes('chain'), 'and the other');
  compare_set('no chain', seen.set, seen);
  await browser.click('#undo');
  equal((await look()).set, set, 'and comes again');
}
// What the desk refuses of a chain is marked, and shown in the text.
async function refused(set) {
  for (const [what, from, to, wrong, shown] of [
    ['no time', '45000', '0', 'reaction of chain 1', 'reaction = 0'],
    ['a task twice', '"plan", ', '"wheel", ', 'tasks of chain 1',
      'tasks = ["camera", "wheel", "wheel"]'],
    ['an offset too few', '45000', '45000\noffsets = [0, 0]', 'offsets of chain 1',
      'offsets = [0, 0]'],
    ['an offset past its period', '45000', '45000\noffsets = [0, 20000, 0]', 'offsets of chain 1',
      'offsets = [0, 20000, 0]'],
    ['no such word', '45000', '45000\nwrites = "end"', 'writes of chain 1', 'writes = "end"'],
    ['no such task', '"plan", ', '"pan", ', 'tasks of chain 1', 'tasks = ["camera", "pan", "wheel"]'],
  ]) {
    const seen = await put({ set: set.replace(from, to) });
    compare_set(what, seen.set, seen);
    equal(await marked(), wrong, `${what} is marked`);
    await browser.click('#set-place button');
    equal(await browser.run(() => {
      const { value, selectionStart, selectionEnd } = document.getElementById('set');
      return value.slice(selectionStart, selectionEnd);
    }), shown, `${what} is shown in the text`);
  }
  await put({ set });
  equal(await marked(), '', 'nothing is marked');
}
// Beside a baseline.
async function compared(set) {
  await put({ set });
  await browser.click('#pin');
  await browser.settled();
  await browser.write(cell(1, 'cost'), '1900');
  const seen = await look();
  expect(lines_changed(seen.set, set) === 2, 'one line is another');
  const delta = await browser.run(() => document.querySelector('#chains .delta').textContent);
  expect(/^bound −\d+$/.test(delta), `a shorter bound: ${delta}`);
  await browser.click('#unpin');
}
