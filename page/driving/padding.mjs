// Scenes of a set that says what its node takes: its fields, its interrupts, and each number
// without it.
import { compare_set } from './comparing.mjs';
import {
  PAGE_URL, browser, digits, equal, example, expect, lines_changed, look, native, put,
} from './page.mjs';
import { click_on } from './running.mjs';

const fields = () => browser.run(() => ['job', 'lock', 'release', 'late']
  .map(it => document.getElementById(`node-${it}`).value).join());
const interrupts = () => browser.run(() => [...document.querySelectorAll('#overhead .interrupt')]
  .map(it => [...it.querySelectorAll('input')].map(input => input.value).join(':')).join());
// The fields that are marked, by their keys.
const marked = () => browser.run(() => [...document.querySelectorAll('#overhead input.is-wrong')]
  .map(it => it.id || it.getAttribute('aria-label')).join());
const shown_in_the_text = async () => {
  await browser.click('#set-place button');
  return browser.run(() => {
    const { value, selectionStart, selectionEnd } = document.getElementById('set');
    return value.slice(selectionStart, selectionEnd);
  });
};
const press_on_grip = async (task, ...keys) => {
  await browser.run(task =>
    document.querySelector(`[data-task="${task}"] .growth input`).focus(), task);
  for (const it of keys) await browser.press(it);
  await browser.settled();
  return look();
};
export async function of_a_node() {
  await browser.open(PAGE_URL);
  const set = example('shared-lock-node');
  let seen = await put({ set });
  compare_set('what the node takes', set, seen);
  expect(seen.is_tabled, `has its table: ${seen.shown.untabled}`);
  equal(`${seen.rows[2].cost} ${await fields()} ${await interrupts()}`,
    '20000 20,2,5,15 4000:17', 'as it is written');
  const furthest = Number(seen.answers.limits.text.match(/^lo cost 20000 (\d+)/m)[1]);
  seen = await press_on_grip('lo', 'End');
  equal(seen.rows[2].cost, String(furthest), 'as far as the order lets it');
  equal(lines_changed(seen.set, set), 2, 'in one line');
  equal(seen.strip, 'verdict is-yes', 'which still passes');
  compare_set('a cost as far as it may go', seen.set, seen);
  equal((await press_on_grip('lo', 'ArrowRight')).strip, 'verdict is-no', 'and no further');
  await browser.click('#undo');
  await browser.click('#undo');
  await in_the_run(set);
  await edited(set);
  await interrupted(set);
  await mended(set);
}
async function in_the_run(set) {
  const seen = await put({ set, until: '9000' });
  await browser.click('#fit');
  const drawn = native('draw', [set, seen.answers.releases.text]).text;
  const title = drawn.match(/<title>(lo holds m \d+ to \d+ us)</)[1];
  expect(/, in section 1\.$/.test(await click_on(title)), `the section of ${title}`);
  await put({ until: '' });
}
async function edited(set) {
  await browser.write('#node-lock', '1');
  let seen = await look();
  equal(seen.set, set.replace('lock = 2', 'lock = 1'), 'a field changes its number');
  compare_set('another lock', seen.set, seen);
  await browser.write('#node-job', '30');
  seen = await look();
  equal(seen.strip, 'verdict is-yes', 'a longer job');
  compare_set('a longer job', seen.set, seen);
  await browser.write('#node-job', '4');
  seen = await look();
  compare_set('a timer longer than a job', seen.set, seen);
  equal(await marked(), 'node-release', 'is marked');
  equal(await shown_in_the_text(), 'release = 5', 'and shown in the text');
  await browser.write('#node-job', '');
  seen = await look();
  expect(seen.set.includes('[node]\nlock = 1\n'), 'an empty field goes');
  await browser.write('#node-release', '');
  seen = await look();
  compare_set('no time for a job', seen.set, seen);
  equal(await marked(), '', 'nothing is marked');
  await browser.write('#node-job', 'x');
  equal((await look()).set, seen.set, 'what is no number is not taken');
  await browser.click('#by-deadline');
  seen = await look();
  expect(seen.set.includes('prefer = "deadline"\n\n[node]\n'), 'the preference stands above it');
  compare_set('a node, by deadline', seen.set, seen);
  await put({ set: example('shared-lock') });
  equal(`${await fields()} ${await interrupts()}`, ',,, ', 'of a set without a node');
  await browser.write('#node-late', '9');
  seen = await look();
  equal(seen.set, example('shared-lock').replace('\n[[task]]', '\n[node]\nlate = 9\n\n[[task]]'),
    'a node comes above the first task');
  compare_set('a new node', seen.set, seen);
  await put({ set: `node = { job = 3, lock = 1 }\n${example('shared-lock')}` });
  await browser.write('#node-late', '9');
  seen = await look();
  expect(seen.set.startsWith('node = { job = 3, lock = 1, late = 9 }\n'), 'a node in one line');
  compare_set('a node in one line', seen.set, seen);
}
async function interrupted(set) {
  const cost = '#overhead .interrupt:nth-child(1) label:nth-of-type(2) input';
  await put({ set });
  await browser.write(cost, '18');
  let seen = await look();
  equal(seen.set, set.replace('cost = 17', 'cost = 18'), 'an interrupt takes another time');
  compare_set('another interrupt', seen.set, seen);
  await browser.write(cost, '4001');
  seen = await look();
  compare_set('an interrupt past its period', seen.set, seen);
  equal(await marked(), 'period of interrupt 1,cost of interrupt 1', 'is marked');
  equal(await shown_in_the_text(), '[[interrupt]]', 'and shown in the text');
  await browser.write(cost, '17');
  await browser.click('#overhead > button');
  seen = await look();
  const fresh = '\n[[interrupt]]\nperiod = 4000\ncost = 10\n';
  equal(seen.set, set.replace('cost = 17\n', `cost = 17\n${fresh}`),
    'a new one stands behind the others');
  compare_set('two interrupts', seen.set, seen);
  await browser.click('#overhead .interrupt:nth-child(1) button');
  seen = await look();
  equal(await interrupts(), '4000:10', 'one goes');
  await browser.click('#overhead .interrupt:nth-child(1) button');
  equal((await look()).set.includes('interrupt'), false, 'and the other');
}
const click_on_mend = async what => {
  const { mends } = await look(), place = mends.map(digits).indexOf(what);
  expect(place >= 0, `what mends it: ${mends}, and not ${what}`);
  await browser.click(`#mends li:nth-child(${place + 1}) button`);
  return look();
};
async function mended(set) {
  const late = set.replace('deadline = 10000\n', 'deadline = 5083\n')
    .replace('cost = 17\n', 'cost = 18\n');
  let seen = await put({ set: late });
  equal(seen.strip, 'verdict is-no', 'a tick that takes too much');
  expect(!seen.mends.some(it => it.includes('jitter')),
    'what the node takes of itself is no mending');
  seen = await click_on_mend('hi: cost 1000 → 998');
  equal(seen.set, late.replace('cost = 1000\n', 'cost = 998\n'),
    'is written without what the node takes');
  compare_set('a mended node', seen.set, seen);
  // All execution goes as far as the desk's factor does, with what the node takes of it.
  seen = await put({ set });
  const factor = Number(seen.answers.limits.text.match(/^all (\d+)/m)[1]);
  const times = it => Math.floor(it * factor / 1000);
  await browser.run(() => document.querySelector('#scale input').focus());
  await browser.press('End');
  await browser.settled();
  seen = await look();
  equal(seen.rows.map(it => it.cost).join(), [[1017, 17], [2015, 15], [20017, 17]]
    .map(([cost, pad]) => times(cost) - pad).join(), `times ${factor}`);
  equal(`${await fields()} ${await interrupts()}`,
    `${15 + times(5)},2,${times(5)},15 4000:${times(17)}`, 'timers and ticks, too');
  equal(seen.strip, 'verdict is-yes', 'still passes');
  compare_set('all execution of a node', seen.set, seen);
}
