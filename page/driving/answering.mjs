// Scenes of the answers: grips, conflicts and what mends them, a node's priorities, teams.
import { readFileSync } from 'fs';
import { compare_set, same, sentence } from './comparing.mjs';
import {
  EXAMPLES, browser, digits, equal, example, expect, lines_changed, look, native, put,
} from './page.mjs';

export async function grips() {
  await put({ set: example('robot-mended') });
  let during = null;
  await browser.pull('[data-task="motor"] .growth input', .15, .6, async () => {
    await browser.settled();
    during = await look();
  });
  let seen = await look();
  const cost = Number(seen.rows[0].cost);
  expect(cost > 590 && cost < 610, `a pulled cost: ${cost}`);
  equal(lines_changed(seen.set, example('robot-mended')), 2, 'a pulled cost changes one line');
  equal(during.bars.map(it => it.name).join(),
    'motor,imu,balance,planner,lidar,camera,upload,battery,diagnostics',
    'rows stay while the grip is pulled');
  compare_set('a pulled cost', seen.set, seen);
  await browser.click('#undo');
  equal((await look()).set, example('robot-mended'), 'one undo takes a whole pull back');
  await browser.run(() => document.querySelector('[data-task="motor"] .growth input').focus());
  await browser.press('End');
  await browser.settled();
  seen = await look();
  equal(seen.rows[0].cost, '157', 'End goes as far as the order lets it');
  equal(seen.strip, 'verdict is-yes', 'which still passes');
  equal(await browser.evaluate(`document.activeElement.getAttribute('aria-label')`),
    'cost of motor', 'the grip keeps the focus');
  await browser.press('ArrowRight');
  await browser.settled();
  seen = await look();
  equal(`${seen.rows[0].cost} ${seen.strip}`, '159 verdict is-no', 'and an arrow goes past it');
  compare_set('past the limit', seen.set, seen);
}
export async function all_execution() {
  await put({ set: example('robot-mended') });
  await browser.run(() => document.querySelector('#scale input').focus());
  await browser.press('End');
  await browser.settled();
  let seen = await look();
  const times = it => Math.floor(it * 1007 / 1000);
  equal(seen.rows.map(it => it.cost).join(),
    [150, 900, 250, 5000, 3000, 5000, 1200, 8000, 15000].map(times).join(),
    'all costs times the factor');
  const lengths = text => [...text.matchAll(/len = (\d+)/g)].map(it => Number(it[1]));
  equal(lengths(seen.set).join(), lengths(example('robot-mended')).map(times).join(),
    'and all sections');
  equal(seen.strip, 'verdict is-yes', 'still pass');
  compare_set('all execution', seen.set, seen);
  await browser.press('ArrowRight');
  await browser.settled();
  seen = await look();
  equal(`${seen.rows[3].cost} ${seen.strip}`, '5040 verdict is-no',
    'and a thousandth more does not');
  await browser.press('Tab');
  for (let steps = 0; steps < 2 && (await look()).set !== example('robot-mended'); steps++)
    await browser.click('#undo');
  equal((await look()).set, example('robot-mended'),
    'undo takes it back, a step for what came quickly');
  await browser.pull('#scale input', .5, .3);
  seen = await look();
  expect(Number(seen.rows[8].cost) > 8500 && Number(seen.rows[8].cost) < 9500,
    `pulled to ${seen.rows[8].cost}`);
  expect(/× 1\.000/.test(seen.shown.scale), `then it is one again: ${seen.shown.scale}`);
}
export async function conflicts() {
  const seen = await put({ set: example('robot') });
  const need = 'motor needs 1050 of 1000 µs, 50 too long; ' +
    'blocked 900 by battery, section 1 that holds bus';
  expect(digits(seen.conflict).includes(need), `the conflict: ${seen.conflict}`);
  await browser.click('#conflict button');
  equal(await browser.evaluate(`document.activeElement.getAttribute('aria-label')`),
    'len of section 1 of battery', 'the blocker is shown in the table');
  const over =
    await put(
    { set: [['a', 'b'], ['b', 'a']].map(([name, other]) => `[[task]]\nname = "${name}"\n` +
      `period = 5000\ndeadline = 5000\ncost = 10\noutranks = ["${other}"]\n`).join('') });
  compare_set('each above the other', over.set, over);
  expect(/a must stand above b/.test(over.conflict), over.conflict);
}
// From a no to a yes by the page alone: one click.
export async function mending() {
  let seen = await put({ set: example('robot') });
  equal(seen.mends.map(digits).join('|'),
    'battery: length of section 1 900 → 850|motor: deadline 1000 → 1050, with period 1050',
    'what mends the robot');
  await browser.click('#mends li:nth-child(1) button');
  seen = await look();
  equal(lines_changed(seen.set, example('robot')), 2, 'a click changes one line');
  equal(seen.strip, 'verdict is-yes', 'and the set is admitted');
  compare_set('a mended set', seen.set, seen);
  await browser.click('#undo');
  await browser.click('#mends li:nth-child(2) button');
  seen = await look();
  expect(/deadline = 1050/.test(seen.set) && /period = 1050/.test(seen.set),
    'a later deadline takes the period along');
  equal(seen.strip, 'verdict is-yes', 'which mends it, too');
  // (no line moves the period of a task with an offset, which would mend it here)
  const task = (name, period, cost) =>
    `[[task]]\nname = "${name}"\nperiod = ${period}\ndeadline = ${period}\ncost = ${cost}\n`;
  const heavy = ['a', 'b', 'c'].map(name => task(name, 10000, 9500)).join('');
  const held = task('b', 10000, 9991) + 'section = [{ locks = ["m"], at = 0, len = 9991 }]\n';
  const clock = '[[chain]]\nname = "c"\ntasks = ["a", "b"]\noffsets = [0, 0]\n';
  const none = 'No single change of a number mends it';
  equal((await put({ set: heavy })).shown.mends, `${none}.`, 'three tasks, each too much');
  equal((await put({ set: task('a', 1000, 1) + held + clock })).shown.mends,
    `${none} that \`limits\` tries: it moves no period of a task with an offset.`, 'offsets');
}
export async function judging() {
  await put({ set: example('robot-mended') });
  await browser.click('#fill');
  let seen = await look();
  equal(seen.shown.judgement, 'Each deadline is met: 9 tasks', 'the desk\'s own settings');
  const settings = seen.shown.settings.replace(/^mutex.*\n/gm, '').replace('motor 9', 'motor 1')
    .replace('diagnostics 1', 'diagnostics 9');
  seen = await put({ judged: settings });
  same('judge', seen.answers.judge, native('judge', [seen.set, settings]));
  const misses = seen.answers.judge.text.split('\n')[0].split(' ').slice(1);
  equal(seen.shown.judgement, `Misses: ${misses.join(', ')}`, 'who misses');
  equal(await browser.evaluate(`[...document.querySelectorAll('#fates .is-bad')].length`),
    misses.length, 'in red');
  seen = await put({ judged: 'thread x 1\n' });
  equal(seen.shown.judgement, sentence(native('judge', [seen.set, 'thread x 1\n'])), 'a stranger');
  seen = await put({ set: 'x = 1\n' });
  expect(/^Refused: set: unknown key x/.test(seen.shown.judgement), seen.shown.judgement);
  await put({ set: example('robot-mended') });
  await put({ judged: '' });
}
// The view of teams: reached by its tab, by keys and by the pointer.
export async function teams() {
  const script = readFileSync(`${EXAMPLES}two-teams-collide.script`, 'utf8');
  await browser.click('#tab-teams');
  const is_shown = id => browser.evaluate(`document.getElementById('${id}').checkVisibility()`);
  expect(await is_shown('script') && !await is_shown('set'), 'the tab of teams shows its view');
  await browser.press('ArrowLeft');
  expect(!await is_shown('script') && await is_shown('set'), 'an arrow goes back');
  await browser.press('ArrowRight');
  let seen = await put({ script });
  const { text } = native('play', [script]), replies = text.split('\n');
  equal(seen.shown.play, text, 'what play prints');
  const cards = () => browser.run(() =>
    [...document.querySelectorAll('#drafts > .draft')].map(it => ({
      head: it.querySelector('.title').textContent,
      lines: [...it.querySelectorAll('.lines > li')].map(line =>
        [...line.children].map(part => part.title || part.textContent)),
    })));
  let found = await cards();
  equal(found.length, 2, 'two drafts');
  expect(/team 1draft 1on version 0in the node, as version 1$/.test(found[0].head), found[0].head);
  expect(/team 2draft 2on version 0no order passes: a b$/.test(found[1].head), found[1].head);
  const lines = script.split('\n'), asked = lines.map((line, at) => [line, at + 1])
    .filter(([line]) => line && !line.startsWith('#'));
  for (const [at, [line, number]] of asked.entries()) {
    const row = found.flatMap(it => it.lines).find(it => it[0] === String(number));
    if (!line.startsWith('open')) equal(row?.[2], replies[at], `the reply to line ${number}`);
  }
  equal(seen.shown['node-version'], 'Version 1: 1 task', 'the state of the node');
  equal(seen.shown['node-levels'], '1ateam 16000 µs', 'and its levels');
  // A key typed into the script.
  await browser.click('#script');
  await browser.press('a', { ctrl: true });
  for (const letter of 'open 1') await browser.press(letter);
  await browser.settled();
  found = await cards();
  equal(found.map(it => it.head).join(), 'team 1draft 1on version 0still open', 'typed lines');
  seen = await put({ script: 'open 1\nfly 1\n' });
  equal(seen.shown.played, `${sentence(native('play', ['open 1\nfly 1\n']))}. ` +
    'Nothing of the script was played.', 'a line that is none');
  await browser.run(() => {
    const list = document.getElementById('scripts');
    list.value = 'findings-in-any-order';
    list.dispatchEvent(new Event('change'));
  });
  await browser.settled();
  seen = await look();
  const other = readFileSync(`${EXAMPLES}findings-in-any-order.script`, 'utf8');
  same('an example script', seen.answers.play, native('play', [other]), seen.shown.play);
  await browser.click('#tab-set');
}
