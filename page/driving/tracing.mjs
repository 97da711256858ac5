// Scenes of a node's trace: what it breaks, the trace as a picture, and the run beside it.
import { readFileSync } from 'fs';
import { same, sentence } from './comparing.mjs';
import { EXAMPLES, browser, digits, equal, example, expect, native, put } from './page.mjs';

const drawn = () => browser.run(() => {
  const count = (id, kind) => {
    const host = document.getElementById(id);
    return host.hidden ? null : host.shadowRoot.querySelectorAll(`.run > ${kind}`).length;
  };
  return { slices: count('traced', '.e'), broken: count('traced', '.z'),
    crosses: count('traced', '.x'), beside: count('arrivals', '.e'),
    names: [...document.getElementById('traced').shadowRoot.querySelectorAll('#n .n')]
      .map(it => it.textContent).join() };
});
// Both pictures, and how what they have in common looks.
const both = () => browser.run(() => ['traced', 'arrivals'].map(id => {
  const host = document.getElementById(id), all = host.shadowRoot;
  const looks = ['.p', '.g', '.l', '.w', '.a', '.b', '.x', '.y', '.n', '.v', '.s', '.t', '.f0',
    '.f3', '.f9'].map(it => {
    const one = all.querySelector(it);
    if (!one) return null;
    const { fill, stroke, strokeWidth, fontSize } = getComputedStyle(one);
    // (the title of what is broken is red)
    return it === '.t' ? fontSize : [fill, stroke, strokeWidth, fontSize].join(' ');
  });
  return { left: host.scrollLeft, looks,
    wide: all.querySelector('.run').getBoundingClientRect().width };
}));
async function moved_together() {
  let [trace, run] = await both();
  // (a picture without a miss has no sign of one)
  const alike = trace.looks.filter((it, k) => it && run.looks[k]);
  expect(alike.length >= 12, `${alike.length} in both`);
  equal(alike.join('|'), run.looks.filter((it, k) => it && trace.looks[k]).join('|'),
    'the trace looks as the run');
  expect(Math.abs(trace.wide - run.wide) < 2, `as wide: ${trace.wide}, ${run.wide}`);
  const before = trace.wide;
  await browser.run(() => document.getElementById('traced').focus());
  for (let i = 0; i < 3; i++) await browser.press('+');
  [trace, run] = await both();
  expect(trace.wide > 1.3 * before && Math.abs(trace.wide - run.wide) < 2,
    `zoomed together: ${before}, ${trace.wide}, ${run.wide}`);
  await browser.run(() => { document.getElementById('arrivals').scrollLeft = 90; });
  await browser.comes(`document.getElementById('traced').scrollLeft === 90`);
  [trace, run] = await both();
  equal(`${trace.left} ${run.left}`, '90 90', 'scrolled together');
}
const observes = async (set, trace, what) => {
  const seen = await put({ set, trace });
  same(what, seen.answers.observe, native('observe', [set, trace]));
  return seen;
};
const rows_of = id => browser.run(id =>
  [...document.querySelectorAll(`#${id} > li`)].map(it => it.textContent), id);
export async function tracing() {
  const set = example('shared-lock'), trace = readFileSync(`${EXAMPLES}shared-lock.trace`, 'utf8');
  let seen = await observes(set, trace, 'a mutex without a protocol');
  equal(seen.shown.observed, '2 broken promises', 'how many');
  equal((await rows_of('broken')).map(digits).join('|'),
    'hi, arrived at 200 µs: waits 5900 µs for tasks below it, lo longest; its blocking is 4000 µs|' +
    'hi, arrived at 200 µs: takes 6900 µs, and its bound is 5000 µs, after blocked of hi at 200 µs',
  'which');
  equal(JSON.stringify(await drawn()), JSON.stringify(
    { slices: 5, broken: 1, crosses: 1, beside: (await drawn()).beside,
      names: 'processor,hi,mid,lo' }),
  'the picture');
  expect((await drawn()).beside >= 4, 'and the run beside it');
  await moved_together();
  equal(seen.shown.beside, 'The desk\'s run of the same arrivals, each job for its whole cost:',
    'what it is');
  equal(await browser.evaluate(`document.querySelectorAll('#seen .is-bad').length`), 1, 'in red');
  // What the desk itself runs breaks nothing.
  await put({ set: example('robot-mended'), trace: '' });
  await browser.click('#fill-trace');
  await browser.settled();
  seen = await put({});
  same('the desk\'s own run', seen.answers.observe,
    native('observe', [seen.set, seen.answers.simulate.text]));
  expect(/^Each promise is kept: \d+ jobs$/.test(seen.shown.observed), seen.shown.observed);
  equal((await rows_of('broken')).length, 0, 'nothing is broken');
  // A thread that the set doesn't have gets a row of its own; arrivals too soon have no run.
  await observes(set, '0 400 hi\n400 430 irq\n430 1030 hi\njob hi 0 1030\n', 'a foreign thread');
  equal((await drawn()).names, 'processor,hi,mid,lo,irq', 'its row');
  seen = await observes(
    set, 'job hi 0 1000\n0 1000 hi\njob hi 9999 10999\n9999 10999 hi\n', 'an arrival too soon');
  expect(/^No run beside it\. Refused: /.test(seen.shown['not-traced']), seen.shown['not-traced']);
  // The line of a chain breaks nothing; a task of it that isn't steady does.
  await observes(example('steer'), '0 9 camera\njob camera 0 9\n90000 90009 camera\n' +
    'job camera 90000 90009\n', 'a chain');
  equal((await rows_of('broken')).map(digits).join('|'), 'camera, arrived at 90000 µs: arrives ' +
    '90000 µs after the one before, and for its chain at most 10000 µs after it', 'not steady');
  // Faults of a trace, of a set; a long trace.
  const wrong = '0 300 lo\n200 400 hi\n';
  seen = await put({ trace: wrong });
  equal(seen.shown.observed, sentence(native('observe', [set, wrong])), 'a faulty trace');
  await browser.click('#trace-place button');
  equal(await browser.evaluate(`(it => it.value.slice(it.selectionStart, it.selectionEnd))(
    document.getElementById('trace'))`), '200 400 hi', 'its line is shown');
  seen = await put({ set: example('robot'), trace });
  expect(/^No order passes/.test(seen.shown.observed), seen.shown.observed);
  const long = Array.from({ length: 3000 }, (_, i) => `${2 * i} ${2 * i + 1} irq\n`).join('');
  seen = await observes(set, long, 'a long trace');
  equal(seen.shown['not-traced'], 'No picture: the trace has 3000 slices.', 'is not drawn');
  await put({ trace: '' });
  equal((await drawn()).slices, null, 'no trace, no picture');
}
