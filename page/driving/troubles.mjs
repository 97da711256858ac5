// Scenes of what goes wrong: no browser, heavy texts, a broken module, want of memory.
import { spawnSync } from 'child_process';
import { readFileSync, writeFileSync } from 'fs';
import { gunzipSync, gzipSync } from 'zlib';
import { compare_set, same } from './comparing.mjs';
import { soon } from './hand.mjs';
import { browser, equal, expect, is_firefox, native, put } from './page.mjs';

const { PAGE } = process.env;
const A_BINARY = process.execPath;

// Where no browser is there, page/test says that it is skipped.
export async function skipping() {
  const none = { CHROMIUM: '/nowhere/chromium', FIREFOX: '/nowhere/firefox' };
  const { stdout, status } = spawnSync(new URL('../test', import.meta.url).pathname,
    { env: { ...process.env, ...none }, timeout: 60000 });
  equal(`${status} ${stdout.toString().split('\n').slice(-2).join('|')}`,
    "0 page/test: skipped: /nowhere/chromium isn't here: 0 passed, 0 failed|",
    'a test without a browser');
}
// A page of the same script over another module: its bytes as the function leaves them.
function variant(name, change) {
  const [before, base64, after] =
    readFileSync(PAGE, 'latin1').split(/(?<=<script type="text\/plain" id="wasm">)([^<]*)/);
  writeFileSync(`${browser.room}/${name}.html`,
    before + gzipSync(change(gunzipSync(Buffer.from(base64, 'base64')))).toString('base64') +
    after, 'latin1');
  return `file://${browser.room}/${name}.html`;
}
// The greatest memory of a module, as so many pages of 64 KiB above its least.
function with_memory(bytes, more) {
  const number_at = at => {
    let value = 0, shift = 0;
    for (; bytes[at] & 128; at++, shift += 7) value |= (bytes[at] & 127) << shift;
    return [value | bytes[at] << shift, at + 1];
  };
  for (let at = 8; at < bytes.length;) {
    const id = bytes[at], [length, start] = number_at(at + 1);
    if (id === 5) {
      const [least, most] = number_at(start + 2), pages = least + more, end = number_at(most)[1];
      for (let byte = most; byte < end; byte++)
        bytes[byte] = pages >> 7 * (byte - most) & 127 | (byte < end - 1 ? 128 : 0);
      return bytes;
    }
    at = start + length;
  }
  throw Error('the module has no memory');
}
const SMALL = '[[task]]\nname = "a"\nperiod = 5000\ndeadline = 5000\ncost = 1000\n';
async function goes_on(what) {
  compare_set(`after ${what}`, SMALL, await put({ set: SMALL }));
}
export async function troubles() {
  const LONG = 1 << 24;
  const binary = readFileSync(A_BINARY).subarray(0, 100000).toString('utf8')
    .replace(/\r\n?/g, '\n');
  for (const [what, set] of [
    ['16 MB of text', '#'.padEnd(LONG - 1, 'x') + '\n'],
    ['a byte more', '#'.padEnd(LONG, 'x') + '\n'], ['16 MB of brackets', '['.repeat(LONG)],
    ['deep brackets', `x = ${'['.repeat(200000)}`], ['a binary', binary],
      ['half a character', 'name = "\ud800"']]) {
    const { answers, trouble, verdict } = await put({ set });
    const wanted = native('admit', [Buffer.from(set.toWellFormed?.() ?? set)]);
    if (trouble)
      expect(verdict === 'no answer' || /failed/.test(trouble),
        `${what}: ${trouble}, and ${verdict}`);
    else same(what, answers.admit, wanted);
    await goes_on(what);
  }
  await browser.run(() => {
    for (let i = 0; i < 50; i++) {
      const it = document.getElementById('set');
      it.value += '#';
      it.dispatchEvent(new Event('input'));
    }
  });
  await goes_on('fast typing');
  // An error of the script.
  browser.complaints.length = 0;
  await browser.run(() => {
    const script = document.createElement('script');
    script.textContent = "setTimeout(() => { throw Error('a planted fault'); })";
    document.body.append(script);
  });
  expect(await browser.comes(
    `/a planted fault.*The text is kept/.test(document.getElementById('trouble').textContent)`),
    'an error of the script is shown');
  expect(is_firefox || browser.complaints.length > 0, 'and stands in the console');
  browser.complaints.length = 0;
  await goes_on('an error of the script');
  // A trap that leaves the instance broken, and a call that never ends: by words in the set, in
  // workers made here.
  await browser.run(() => {
    const faulty =
      `const { id, kind } = data, set = new TextDecoder().decode(data.set ?? new Uint8Array());
      if (set.includes('# trap'))
        desk = { page_room() { throw new WebAssembly.RuntimeError('unreachable'); } };
      while (set.includes('# forever'));`;
    const source = document.getElementById('worker').textContent
      .replace('const { id, kind } = data;', faulty);
    for (const it of desk.lanes) it.source = URL.createObjectURL(new Blob([source]));
  });
  await browser.run(() => { for (const it of desk.lanes) it.break_off(); });
  await goes_on('new workers');
  expect(/The module failed at (admit|limits)/.test((await put({ set: '# trap\n' })).trouble),
    'a module that fails is told of');
  await goes_on('a module that failed');
  await browser.run(() => {
    const it = document.getElementById('set');
    it.value = '# forever\n';
    it.dispatchEvent(new Event('input'));
  });
  expect(await browser.comes(
    `!document.getElementById('busy').hidden &&
      document.getElementById('verdict').textContent === '…'`), 'what takes long is told of');
  await browser.evaluate(`document.getElementById('stop').click()`);
  expect(await browser.comes(`/Stopped/.test(document.getElementById('notice').textContent)`),
    'and can be stopped');
  await goes_on('a stop');
  await browser.run(() => {
    const it = document.getElementById('set');
    it.value = '# forever\n';
    it.dispatchEvent(new Event('input'));
  });
  await soon(100);
  await goes_on('a text while another took long');
  browser.complaints.length = 0;

  await browser.open(variant('small', it => with_memory(it, 60)));
  await goes_on('the start with small memory');
  const { trouble, verdict } = await put({ set: '#'.padEnd(3000000) + '\n' });
  expect(/memory/.test(trouble) && verdict === 'no answer', `small memory: ${trouble}, ${verdict}`);
  await goes_on('want of memory');
  await browser.navigate(variant('broken', it => it.subarray(0, it.length >> 1)));
  expect(await browser.comes(
    `/The module failed/.test(document.getElementById('trouble')?.textContent)`), 'half a module');
  browser.complaints.length = 0;
}
