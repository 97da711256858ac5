// Drives the page in a browser without a window with keys and a pointer, and compares what it shows
// with what the program prints: node drive.mjs [COUNT [SEED]], with PAGE, DESK and BROWSER
// (Chromium or Firefox) in the environment (page/test). SHOTS names a folder for pictures of the
// page, SCENES some scenes, by commas, that alone are driven.
import { readFileSync, readdirSync, statSync } from 'fs';
import { join } from 'path';
import { compare_set, same } from './driving/comparing.mjs';
import {
  EXAMPLES, PAGE_URL, browser, equal, expect, is_firefox, kinds, look, native, put, tally,
} from './driving/page.mjs';
import { random_script, random_set, seed as sow } from './driving/random.mjs';
import { all_execution, conflicts, grips, judging, mending, teams } from './driving/answering.mjs';
import {
  long_texts, moving, other_forms, preference, sections, sorting, the_table,
} from './driving/editing.mjs';
import { of_chains } from './driving/chains.mjs';
import { delays } from './driving/delays.mjs';
import { baseline, files, kept_baselines } from './driving/keeping.mjs';
import { keys, looks, names } from './driving/looking.mjs';
import { of_a_node } from './driving/padding.mjs';
import { slices, the_run } from './driving/running.mjs';
import { tracing } from './driving/tracing.mjs';
import { skipping, troubles } from './driving/troubles.mjs';
import { worst_cases } from './driving/worst.mjs';

const [count = '100', seed = String(Date.now() % 1000000)] = process.argv.slice(2);
const { PAGE, SCENES } = process.env;
// Milliseconds. What isn't begun by then fails: the page hangs, or the machine has no time for it.
const END = Date.now() + 1200000;
const is_in_time = what => {
  const is_so = Date.now() < END;
  if (!is_so) expect(false, `no time is left for ${what}`);
  return is_so;
};

try {
  sow(seed);
  expect(statSync(PAGE).size < 600000, `the page has ${statSync(PAGE).size} bytes`);
  await browser.looks(1400, 1000, 'light');
  await browser.open(PAGE_URL);
  const first = await look();
  compare_set('the page as it opens', first.set, first);
  same('the script as it opens', first.answers.play,
    native('play', [await browser.evaluate(`document.getElementById('script').value`)]),
    first.shown.play);
  // Firefox shows nobody its tree of names and roles.
  const in_chromium = is_firefox ? [] : [names, skipping];
  const scenes = [the_table, moving, preference, sorting, sections, other_forms, long_texts,
    grips, all_execution, conflicts, mending, of_a_node, of_chains, baseline, kept_baselines,
    judging, teams, files, the_run, slices, worst_cases, tracing, keys, looks, delays, ...in_chromium];
  for (const scene of scenes.filter(it => !SCENES || SCENES.split(',').includes(it.name))) {
    const before = tally.failed, begun = Date.now();
    try {
      if (is_in_time(scene.name)) await scene();
    } catch (error) {
      expect(false, `${scene.name}: ${error.stack}`);
    }
    const fate = tally.failed > before ? 'failed' : 'passed';
    console.log(`${scene.name}: ${fate}, ${((Date.now() - begun) / 1000).toFixed(1)} s`);
  }
  const files_of_examples = SCENES ? [] : readdirSync(EXAMPLES);
  for (const file of files_of_examples.filter(it => /\.(toml|script)$/.test(it))) {
    const text = readFileSync(join(EXAMPLES, file), 'utf8');
    if (file.endsWith('.toml')) compare_set(file, text, await put({ set: text }));
    else {
      const { answers, shown } = await put({ script: text });
      same(file, answers.play, native('play', [text]), shown.play);
    }
  }
  for (let i = 0; i < count && is_in_time(`set ${i} of ${count}`); i++) {
    const set = random_set(), script = random_script(), found = await put({ set, script });
    compare_set(`seed ${seed}, set ${i}`, set, found);
    same(`seed ${seed}, script ${i}`, found.answers.play, native('play', [script]),
      found.shown.play);
  }
  equal(browser.complaints.join(' | '), '', 'complaints of the page');
  if (!SCENES || SCENES.split(',').includes('troubles')) await troubles();
  equal(browser.complaints.join(' | '), '', 'complaints of the page');
} catch (error) {
  expect(false, error.stack);
} finally {
  await browser.ended();
}
console.log('sets: ' + Object.entries(kinds).map(it => it.join(' ')).join(', '));
console.log(`${tally.passed} passed, ${tally.failed} failed`);
process.exit(tally.failed ? 1 : 0);
