// Scenes of the worst case of a task: of one that is chosen, and of the one that a refused set has.
import { compare_run, compare_set, compare_worst, same } from './comparing.mjs';
import {
  PAGE_URL, browser, digits, equal, example, expect, is_firefox, look, native, put,
} from './page.mjs';

async function choose(name) {
  await browser.run(name => {
    const it = document.getElementById('run-of');
    it.value = name;
    it.dispatchEvent(new Event('change'));
  }, name);
  await browser.settled();
  return look();
}
// The titles that are drawn, but the picture's own, and which task is chosen.
const drawn = () => browser.run(() => {
  const { shadowRoot: all } = document.getElementById('picture');
  return { titles: [...all.querySelectorAll(':not(svg) > title')].map(it => it.textContent).sort(),
    head: all.querySelector('.t')?.textContent ?? null,
    missed: [...all.querySelectorAll('.run > .z > title')].map(it => it.textContent),
    of: document.getElementById('run-of').value,
    choices: [...document.getElementById('run-of').options].map(it => it.value).join() };
});
const titles_in = text => [...text.matchAll(/<title>([^<]*)<\/title>/g)].map(it => it[1])
  .slice(1).sort().join('|');
async function compare_drawn(what, set, list) {
  const { text, status } = native('draw', [set, list]), { titles } = await drawn();
  equal(status, 0, `${what}: draw`);
  if (text.length > 500000)
    return equal((await look()).shown.undrawn, 'The picture is long. Draw it', `${what}: is long`);
  equal(titles.join('|'), titles_in(text), `${what}: the titles`);
}
async function compare_chosen(what, name) {
  const seen = await look(), wanted = native('worst', [seen.set], ['--task', name]);
  same(what, seen.answers.worst, wanted, seen.shown['printed-worst']);
  compare_worst(what, wanted, seen.shown.worst);
  equal((await drawn()).of, name, `${what}: who is chosen`);
  const has_list = /^until /m.test(wanted.text);
  if (!has_list) return equal((await drawn()).titles.length, 0, `${what}: no picture`);
  compare_run(what, seen.set, wanted.text, seen.slices);
  await compare_drawn(what, seen.set, wanted.text);
  expect(seen.shown.lines.includes(` --task ${name} | desk draw `), `${what}: the command`);
}
export async function worst_cases() {
  await browser.open(PAGE_URL);
  const mended = example('robot-mended'), robot = example('robot');
  await put({ set: mended });
  equal((await drawn()).choices,
    ',motor,balance,imu,camera,lidar,planner,battery,diagnostics,upload', 'whose worst case');
  for (const name of ['imu', 'camera', 'diagnostics']) {
    await choose(name);
    await compare_chosen(`the worst case of ${name}`, name);
  }
  await choose('imu');
  equal(digits((await look()).shown.worst),
    `In its worst case imu takes ${digits((await look()).shown.worst).match(/\d+/)[0]} µs, ` +
    'of its bound 800 µs.', 'in words');
  // An edit asks again; the whole run comes back.
  await put({ set: mended.replace('cost = 200\n', 'cost = 210\n') });
  await compare_chosen('an edited set', 'imu');
  await choose('');
  const seen = await look();
  compare_set('all together again', seen.set, seen);
  await compare_drawn('all together again', seen.set, seen.answers.releases.text);
  await of_a_refused_set(robot);
  await from_the_bars(mended);
}
async function of_a_refused_set(robot) {
  let seen = await put({ set: robot });
  compare_set('the robot that is refused', robot, seen);
  equal(seen.shown.worst, 'motor misses its deadline of 1000 µs in this order.', 'why, in words');
  const { of, head, missed } = await drawn();
  equal(`${of}: ${head}`, 'motor: deadlines missed: 1', 'the miss is seen at once');
  equal(missed.join(), 'motor: arrival 101, done 1150, response 1049, deadline 1000 us missed',
    'in red');
  await compare_drawn('the robot that is refused', robot, seen.answers.worst.text);
  await browser.run(() => {
    const it = document.getElementById('picture').shadowRoot.querySelector('.run > .z');
    it.dispatchEvent(new MouseEvent('click', { bubbles: true, composed: true }));
  });
  equal(digits((await look()).shown.slice), 'motor, job 1, arrived at 101 µs, done at 1150 µs: ' +
    'misses its deadline of 1000 µs.', 'a click on what is missed');
  // Another task of it, one of which nothing can be run; then a set that passes.
  for (const name of ['battery', 'imu']) {
    await choose(name);
    await compare_chosen(`${name} of the refused robot`, name);
  }
  await browser.open(PAGE_URL);
  await put({ set: robot });
  await browser.click('#mends li:nth-child(1) button');
  seen = await look();
  compare_set('a mended robot', seen.set, seen);
  equal(`${(await drawn()).of}${seen.shown.worst}`, '', 'has its run of all');
  // A faulty set has neither.
  seen = await put({ set: 'x = 1\n' });
  equal(`${(await drawn()).titles.length} ${seen.shown.undrawn}`,
    '0 The set is refused, so there is no run to draw.', 'a faulty set');
}
// Each row of the bars leads to the worst case of its task; a task that is gone leads back.
async function from_the_bars(mended) {
  await put({ set: mended });
  const row = '#bars [data-task="camera"]';
  await browser.click(`${row} .who`);
  await browser.click(`${row} .sum > button`);
  await compare_chosen('from the bars', 'camera');
  equal(await browser.evaluate('document.activeElement.id'), 'run-of', 'the list has the focus');
  const other = mended.replace('"camera"', '"lens"'), seen = await put({ set: other });
  compare_set('a task that is gone', other, seen);
  equal((await drawn()).of, '', 'all together');
  if (!is_firefox) equal(browser.complaints.join(), '', 'nothing to complain of');
}
