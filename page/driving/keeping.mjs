// Scenes of what is kept: the baseline, also over a reload, files and links.
import { readFileSync, rmSync, statSync, writeFileSync } from 'fs';
import { compare_set } from './comparing.mjs';
import { soon } from './hand.mjs';
import {
  PAGE_URL, browser, cell, digits, equal, example, expect, look, native, put,
} from './page.mjs';

export async function baseline() {
  await put({ set: example('robot-mended') });
  await browser.click('#pin');
  await browser.click('#by-deadline');
  let seen = await look();
  const row = seen.bars.find(it => it.name === 'upload');
  expect(/level \d → \d/.test(row.delta), `upload: ${row.delta}`);
  const diff = native('diff', [example('robot-mended'), seen.set]);
  // (of tasks: what is preferred has a line of its own)
  const of_tasks = text => text.split('\n').filter(it => / level /.test(it)).map(it => it.split(' '));
  const changes = of_tasks(diff.text);
  const rows = () => browser.evaluate(`[...document.querySelectorAll('#changes tbody tr')].map(it =>
    [...it.children].map(cell => cell.textContent))`);
  const arrow = (a, b) => a === b ? a : `${a} → ${b}`, or_none = it => it === '-' ? '–' : it;
  const check = (what, changes, found) => {
    for (const [, name, , level, level_now, , bound, bound_now, , left, left_now] of changes) {
      const it = found.find(it => it[0] === name) ?? [];
      const wanted = [[level, level_now], [bound, bound_now], [left, left_now]]
        .map(two => arrow(...two.map(or_none)));
      equal(digits(it.slice(2, 5).join('|')), wanted.join('|'), `${what}: ${name}`);
    }
    expect(changes.length > 0 && found.length >= changes.length, `${what}: ${found.length} rows`);
  };
  check('changes', changes, await rows());
  await browser.click('#table [data-row="8"] .acts button:nth-child(2)');
  expect((await look()).shown.compared.includes('no longer there'), 'a removed task');
  await browser.click('#restore');
  seen = await look();
  equal(seen.set, example('robot-mended'), 'back to the baseline');
  expect(/No task, level, bound or limit of a cost has changed/.test(seen.shown.compared),
    `nothing has changed: ${seen.shown.compared}`);
  // Where one answer is a no it says what differs.
  await browser.write(cell(0, 'cost'), '400');
  seen = await look();
  equal(seen.strip, 'verdict is-no', 'a cost past what it may be');
  const refused = of_tasks(native('diff', [example('robot-mended'), seen.set]).text);
  check('changes to a no', refused, await rows());
  equal((await rows()).find(it => it[0] === 'motor')?.[1], 'cost 150 → 400', 'what differs');
  await browser.click('#restore');
  await browser.click('#unpin');
  expect(await browser.evaluate(`document.getElementById('compared').hidden`), 'unpinned');
}
async function saved(path) {
  const size = () => statSync(path, { throwIfNoEntry: false })?.size ?? 0;
  for (let tries = 0; tries < 400 && size() === 0; tries++) await soon(50);
  return readFileSync(path, 'utf8');
}
// A baseline is there after a reload, goes to a file, and comes from one.
export async function kept_baselines() {
  await put({ set: example('robot-mended') });
  await browser.click('#pin');
  await browser.write(cell(0, 'cost'), '140');
  await browser.open(PAGE_URL);
  let seen = await look();
  expect(seen.set.includes('cost = 140\n'), 'a reload keeps the set');
  expect(!await browser.evaluate(`document.getElementById('compared').hidden`) &&
    seen.shown.both.includes('Admitted: 9 tasks'), `and the baseline: ${seen.shown.both}`);
  equal(await browser.evaluate(`document.querySelector('#changes tbody td.what').textContent`),
    'cost 150 → 140', 'and what has changed since');
  await browser.click('#save-baseline');
  equal(await saved(`${browser.room}/baseline-robot-mended.toml`), example('robot-mended'),
    'a baseline as a file');
  const path = `${browser.room}/before.toml`;
  writeFileSync(path, example('robot'));
  await browser.give('#baseline-file', path);
  seen = await look();
  expect(/Baseline before.toml: No order passes: motor/.test(seen.shown.both),
    `a baseline from a file: ${seen.shown.both}`);
  expect(seen.shown.changes.includes('battery') && seen.set.includes('cost = 140\n'),
    `a no as the baseline: ${seen.shown.changes}`);
  writeFileSync(path, 'x = 1\n');
  await browser.give('#baseline-file', path);
  seen = await look();
  expect(/before.toml is no baseline/.test(seen.shown.notice) &&
    await browser.evaluate(`document.getElementById('compared').hidden`),
    `a faulty file is no baseline: ${seen.shown.notice}`);
  await browser.open(PAGE_URL);
  expect(await browser.evaluate(`document.getElementById('compared').hidden`), 'and none is kept');
  await put({ set: example('robot-mended') });
}
export async function files() {
  const crlf = '\ufeff' + example('shared-lock').replaceAll('\n', '\r\n');
  const path = `${browser.room}/node-7.toml`;
  writeFileSync(path, crlf);
  await browser.give('#file', path);
  let seen = await look();
  equal(seen.set, example('shared-lock'), 'an opened file');
  expect(seen.shown.lines.includes('desk admit node-7.toml\n'), 'its name in the command lines');
  await browser.write(cell(2, 'cost'), '19999');
  rmSync(path);
  await browser.press('s', { ctrl: true });
  equal(await saved(path), crlf.replace('cost = 20000', 'cost = 19999'),
    'a saved file keeps its mark and its line ends');
  // A link.
  await browser.click('#share');
  await browser.comes(`location.hash !== ''`);
  const link = await browser.evaluate('location.href'), text = (await look()).set;
  expect(link.includes('#set='), `a link: ${link.slice(0, 80)}`);
  await browser.evaluate('sessionStorage.clear()');
  await browser.open(link);
  seen = await look();
  equal(seen.set, text, 'the link opens the set');
  compare_set('a link', text, seen);
  await browser.evaluate(`location.hash = '#set=%%%'`);
  await browser.open(PAGE_URL + '#set=AAAA');
  seen = await look();
  expect(/no set that can be read/.test(seen.shown.notice) && seen.verdict.startsWith('Admitted'),
    `a broken link: ${seen.shown.notice}`);
}
