// Scenes of the run: its time, its names, and what a slice of it is.
import { compare_set } from './comparing.mjs';
import { PAGE_URL, browser, digits, equal, example, expect, look, native, put } from './page.mjs';

const run_state = () => browser.run(() => {
  const host = document.getElementById('picture'), all = host.shadowRoot;
  const box = it => it.getBoundingClientRect(), edge = box(host);
  const letter = all.querySelector('text.s'), slice = all.querySelectorAll('.e')[1];
  return {
    width: box(all.querySelector('.run')).width, height: box(all.querySelector('.run')).height,
    left: host.scrollLeft, wide: host.clientWidth,
    names: [...all.querySelectorAll('#n .n')]
      .map(it => [it.lastChild.data, box(it).left - edge.left]),
    letter: box(letter).height, slice: box(slice).width,
    legend: box(all.querySelector('svg > g:not([id])')).left - edge.left,
    hidden: [...all.querySelectorAll('.s')].filter(it => !it.checkVisibility()).length,
  };
});
export async function the_run() {
  await browser.open(PAGE_URL);
  await put({ set: example('robot-mended') });
  await browser.click('#fit');
  const fit = await run_state();
  expect(Math.abs(fit.width - fit.wide) < 20, `fit: ${fit.width} of ${fit.wide}`);
  for (let i = 0; i < 6; i++) await browser.click('#larger');
  let large = await run_state();
  expect(large.width > 3 * fit.width && large.left > 0, `zoomed: ${JSON.stringify(large)}`);
  expect(Math.abs(large.letter - fit.letter) < .5 && Math.abs(large.height - fit.height) < .5,
    `letters and rows stay: ${fit.letter}, ${large.letter}`);
  const wider = large.slice / fit.slice;
  expect(Math.abs(wider - 1.25 ** 6) < .4, `time widens: ${wider}`);
  expect(large.names.length === 10 && large.names.every(([, at]) => at >= 0 && at < 60),
    `names stay at the edge: ${JSON.stringify(large.names)}`);
  equal(large.names.map(it => it[0]).join(' '),
    'processor motor imu balance planner lidar camera upload battery diagnostics', 'names alone');
  expect(Math.abs(large.legend - fit.legend) < 2,
    `the legend stays: ${fit.legend}, ${large.legend}`);
  await browser.pull('#picture', .3, .6);
  expect((await run_state()).left < large.left, 'pulled');
  expect((await run_state()).names.every(([, at]) => at >= 0 && at < 60), 'names stay, pulled');
  large = await run_state();
  await browser.run(() => document.getElementById('picture').focus());
  await browser.press('+');
  expect((await run_state()).width > 1.2 * large.width, 'a key zooms');
  await browser.press('-');
  expect(Math.abs((await run_state()).width - large.width) < 2, 'and back');
  const seen = await put({ until: '30000' });
  expect(seen.answers.releases.text.startsWith('until 30000\n'), 'until');
  compare_set('until', seen.set, seen);
  await browser.click('#longer');
  expect((await look()).answers.releases.text.startsWith('until 60000\n'), 'longer');
  expect((await put({ until: '99999999' })).shown.undrawn !== '',
    'a time past the horizon is refused');
  expect((await put({ until: 'soon' })).trouble !== '', 'a word for a time');
  await put({ until: '' });
  await browser.hover('[data-task="camera"] .part.blocked');
  expect(/^blocked by /.test(
    await browser.evaluate(
    `document.getElementById('tip').hidden ? '' : document.getElementById('tip').textContent`)),
    'a pointer on a part is told of it');
}
// Clicks on what has a title in the picture: what is said of it.
export async function click_on(title) {
  const place = await browser.steady(title => {
    const host = document.getElementById('picture');
    host.scrollIntoView({ block: 'center', behavior: 'instant' });
    const it = [...host.shadowRoot.querySelectorAll('path > title')]
      .find(it => it.textContent === title)?.parentElement, box = it?.getBoundingClientRect();
    return box && [box.left + box.width / 2, box.top + box.height - 2];
  }, title);
  if (!place) return `no slice ${title}`;
  for (const it of ['move', 'down', 'up']) await browser.mouse(it, place);
  return digits(await browser.evaluate(`document.getElementById('slice').textContent`));
}
// A click on a slice names its job, task and section, as `simulate` has them.
export async function slices() {
  await browser.open(PAGE_URL);
  await put({ set: example('shared-lock'), until: '30000' });
  await browser.click('#fit');
  equal(await click_on('lo holds m 3100 to 7100 us'),
    'lo, job 1, arrived at 0 µs, done at 27000 µs: holds m from 3100 to 7100 µs, in section 1.',
    'a held slice');
  equal(await browser.evaluate(`document.getElementById('picture').shadowRoot
    .querySelectorAll('.is-chosen').length`), 1, 'and it is marked');
  await browser.click('#slice button');
  equal(await browser.evaluate(`document.activeElement.getAttribute('aria-label')`),
    'len of section 1 of lo', 'its section is shown in the table');
  equal(await click_on('hi holds m 20000 to 20200 us'),
    'hi, job 3, arrived at 20000 µs, done at 21000 µs: ' +
    'holds m from 20000 to 20200 µs, in section 1.',
    'a later job');
  equal(await click_on('mid 21000 to 23000 us'),
    'mid, job 2, arrived at 20000 µs, done at 23000 µs: executes from 21000 to 23000 µs.',
    'a slice without a lock');
  equal(await click_on('mid executes 21000 to 23000 us'),
    'mid, job 2, arrived at 20000 µs, done at 23000 µs: executes from 21000 to 23000 µs.',
    'the same in the lane of the processor');
  equal(await click_on('hi: arrival 10000, done 11000, response 1000, bound 5000, ' +
    'deadline 10000 us'), 'hi, job 2, arrived at 10000 µs, done at 11000 µs: from its arrival ' +
    'to its bound.', 'a job');
  // A task with two sections of one lock, of which the second is cut off from the first.
  const { set, answers } = await put({ set: example('robot-mended'), until: '20000' });
  equal(answers.simulate.text, native('simulate', [set, answers.releases.text]).text, 'simulate');
  await browser.click('#fit');
  for (let i = 0; i < 3; i++) await browser.click('#larger');
  await browser.run(() => { document.getElementById('picture').scrollLeft = 0; });
  equal(await click_on('balance holds pose 1350 to 1500 us'),
    'balance, job 1, arrived at 100 µs, done at 1550 µs: ' +
    'holds pose from 1350 to 1500 µs, in section 2.', 'the second of two sections');
  await put({ until: '' });
}
