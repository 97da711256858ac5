// Scenes of how the page is reached and looks: keys, names, contrast, both widths.
import { PAGE_URL, browser, equal, example, expect, is_firefox, put } from './page.mjs';

const { SHOTS } = process.env;
const shot_of = name => `${SHOTS}/${is_firefox ? 'firefox-' : ''}${name}.png`;

// By keys alone each field is reached, and parts are shown.
export async function keys() {
  await browser.open(PAGE_URL);
  const reached = new Set();
  await browser.evaluate('document.activeElement.blur()');
  let opened = false;
  for (let i = 0; i < 240; i++) {
    await browser.press('Tab');
    const [id, name] = await browser.evaluate(
      '[document.activeElement.id, document.activeElement.className]');
    if (name === 'who' && !opened) {
      await browser.press('Enter');
      opened = await browser.evaluate(
        `document.activeElement.getAttribute('aria-expanded') === 'true'`);
    }
    reached.add(id);
  }
  for (const id of ['open', 'save', 'share', 'examples', 'add', 'set', 'pin', 'until', 'larger',
    'picture', 'copy', 'settings', 'certificate', 'lines', 'judged', 'fill', 'trace', 'fill-trace'])
    expect(reached.has(id), `Tab reaches ${id}`);
  expect(opened, 'Enter opens the parts of a bound');
}
// Each control has a name, and roles are as they should be.
export async function names() {
  await browser.open(PAGE_URL);
  await put({ set: example('robot-mended') });
  await browser.send('Accessibility.enable');
  const { nodes } = await browser.send('Accessibility.getFullAXTree');
  // (it costs each later scene time)
  await browser.send('Accessibility.disable');
  const found = nodes.filter(
    it => !it.ignored &&
    ['button', 'textbox', 'slider', 'combobox', 'link', 'spinbutton', 'image', 'columnheader',
    'table'].includes(it.role?.value));
  const nameless = found.filter(it => !it.name?.value);
  expect(found.length > 100, `controls: ${found.length}`);
  equal(nameless.map(it => it.role.value).join(), '', 'controls without a name');
  equal(nodes.filter(it => !it.ignored && it.role?.value === 'slider').length, 10, 'sliders');
  equal(nodes.filter(it => !it.ignored && it.role?.value === 'row').length, 10,
    'rows of the table');
}
// The contrast of each text with what is behind it, as WCAG counts it; colours that lie on one
// another are mixed.
function contrasts() {
  const canvas = Object.assign(
    document.createElement('canvas'),
    { width: 1, height: 1 }).getContext('2d', { willReadFrequently: true });
  const mix = colours => {
    canvas.clearRect(0, 0, 1, 1);
    for (const it of colours) { canvas.fillStyle = it; canvas.fillRect(0, 0, 1, 1); }
    return [...canvas.getImageData(0, 0, 1, 1).data].slice(0, 3);
  };
  const light = rgb => rgb.map(it => it / 255)
    .map(it => it <= .04045 ? it / 12.92 : ((it + .055) / 1.055) ** 2.4)
    .reduce((sum, it, at) => sum + it * [.2126, .7152, .0722][at], 0);
  const faults = new Map();
  let seen = 0;
  const walk = document.createTreeWalker(document.body, NodeFilter.SHOW_TEXT);
  while (walk.nextNode()) {
    const it = walk.currentNode.parentElement;
    if (!walk.currentNode.data.trim() ||
      !it.checkVisibility({ opacityProperty: true, visibilityProperty: true }) ||
      it.closest(':disabled, .unseen, a:not([href])'))
      continue;
    const behind = [];
    for (let at = it; at; at = at.parentElement)
      behind.unshift(getComputedStyle(at).backgroundColor);
    const ink = getComputedStyle(it).color;
    const [a, b] = [light(mix(['#fff', ...behind])), light(mix(['#fff', ...behind, ink]))];
    const ratio = (Math.max(a, b) + .05) / (Math.min(a, b) + .05);
    seen++;
    if (ratio < 4.5)
      faults.set(`${it.className || it.id || it.tagName}: ${ratio.toFixed(2)}`,
        walk.currentNode.data.trim().slice(0, 20));
  }
  return { seen, faults: [...faults].map(it => it.join(' ')) };
}
// Both widths, light and dark; an admitted set, one that no order passes, and a faulty one.
export async function looks() {
  const sets = { 'robot-mended': example('robot-mended'), robot: example('robot'),
    faulty: example('robot-mended').replace('deadline = 4000', 'deadline = 6000') };
  const pages = [[420, 900], [1400, 1000]].flatMap(it => [[...it, 'light'], [...it, 'dark']]);
  for (const [width, height, scheme] of pages) {
    await browser.looks(width, height, scheme);
    for (const [name, set] of Object.entries(sets)) await look_at(name, set, width, scheme);
    await browser.click('#tab-teams');
    await fits(`teams ${width} ${scheme}`, width);
    if (SHOTS) await browser.picture(shot_of(`teams-${width}-${scheme}`), true);
  }
  await browser.looks(1400, 1000, 'light');
  await browser.open(PAGE_URL);
}
async function look_at(name, set, width, scheme) {
  await browser.open(PAGE_URL);
  await put({ set: example('robot-mended') });
  await put({ set });
  await fits(`${name} ${width} ${scheme}`, width);
  const [ink, paper] = await browser.evaluate(`['color', 'backgroundColor']
    .map(it => Number(getComputedStyle(document.body)[it].match(/\\d+/)[0]))`);
  expect(scheme === 'dark' ? ink > 200 && paper < 60 : ink < 60 && paper > 200,
    `${scheme}: ink ${ink} on ${paper}`);
  if (!SHOTS) return;
  await browser.picture(shot_of(`${name}-${width}-${scheme}`));
  await browser.picture(shot_of(`${name}-${width}-${scheme}-whole`), true);
}
async function fits(what, width) {
  expect(await browser.evaluate('document.documentElement.scrollWidth') <= width,
    `${what}: nothing is wider than the page`);
  const { seen, faults } = await browser.run(contrasts);
  expect(seen > 40 && !faults.length, `${what}: contrast of ${seen} texts: ${faults.join(', ')}`);
}
