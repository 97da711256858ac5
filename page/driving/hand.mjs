// What a user does with a page, over what each browser has for it: a hand that scrolls to what it
// touches, and that waits until each question is answered.
//
// A browser gives `start`, `evaluate` (an expression of the page), `navigate`, `mouse`, `finger`,
// `press`, `give_file`, `looks` and `picture`; `room` is a folder of its own, `complaints` what the
// page complained of.
import { Browser } from './browser.mjs';

// Milliseconds that a page has to come to what is waited for, and frames to stand still.
const PATIENCE = 60000, FRAMES = 600;
export const soon = milliseconds => new Promise(it => setTimeout(it, milliseconds));

export class Hand extends Browser {
  // A function of the page, on these values.
  run(act, ...values) {
    return this.evaluate(`(${act})(${values.map(it => JSON.stringify(it)).join(', ')})`);
  }
  // Whether an expression of the page comes to be true.
  async comes(expression) {
    for (const end = Date.now() + PATIENCE; Date.now() < end; await soon(15))
      if (await this.evaluate(expression)) return true;
    return false;
  }
  async open(url) {
    await this.navigate('about:blank');
    await this.navigate(url);
    if (!await this.comes(`document.readyState === 'complete' && !!window.desk`))
      throw Error('the page does not open');
    await this.settled();
  }
  async settled() {
    if (!await this.comes(
      `!desk.lanes.some(it => it.is_busy) && !desk.is_drawing() && (!!desk.state.answers.admit ||
        document.getElementById('trouble').textContent !== '')`))
      throw Error('the page answers no more');
  }
  // What a function of the page says once two frames in turn have the same: what is scrolled to may
  // be laid out anew.
  async steady(act, ...values) {
    for (let before, frame = 0; frame < FRAMES; frame++) {
      const place = await this.run(act, ...values);
      if (frame && `${place}` === `${before}`) return place;
      before = place;
      await this.evaluate('new Promise(it => requestAnimationFrame(() => it(0)))');
    }
    throw Error('the page does not stand still');
  }
  async place(selector, across = .5) {
    const found = await this.steady((selector, across) => {
      const it = document.querySelector(selector);
      it?.scrollIntoView({ block: 'center', inline: 'nearest', behavior: 'instant' });
      const box = it?.getBoundingClientRect();
      return box && [box.left + box.width * across, box.top + box.height / 2];
    }, selector, across);
    if (!found) throw Error(`the page has no ${selector}`);
    return found;
  }
  // The last line of an element, at a part of its width.
  end_of(selector, across) {
    return this.run((selector, across) => {
      const box = document.querySelector(selector).getBoundingClientRect();
      return [box.left + box.width * across, box.bottom - 1];
    }, selector, across);
  }
  async click(selector) {
    const at = await this.place(selector);
    for (const it of ['move', 'down', 'up']) await this.mouse(it, at);
    await this.settled();
  }
  async hover(selector, across) {
    await this.place(selector, across);
    await soon(100);
    await this.mouse('move', await this.place(selector, across));
  }
  async pull(selector, from, to, seen = async () => {}) {
    const start = await this.place(selector, from), [x, y] = await this.place(selector, to);
    await this.mouse('move', start);
    await this.mouse('down', start);
    for (let step = 1; step <= 8; step++) {
      await this.mouse('drag', [start[0] + (x - start[0]) * step / 8, y]);
      await soon(20);
    }
    await seen();
    await this.mouse('up', [x, y]);
    await this.settled();
  }
  // Carries what a handle moves to another element.
  async carry(selector, to, seen = async () => {}) {
    const start = await this.place(selector), [, y] = await this.end_of(to, 0);
    await this.mouse('move', start);
    await this.mouse('down', start);
    for (let step = 1; step <= 5; step++)
      await this.mouse('drag', [start[0], start[1] + (y - start[1]) * step / 5]);
    await seen();
    await this.mouse('up', [start[0], y]);
    await this.settled();
  }
  // A finger, from one part of an element's width to another, or down to another element.
  async touch(selector, from = .5, to = from, other = selector) {
    const [x, y] = await this.place(selector, from), [across, down] = await this.end_of(other, to);
    const by = [across - x, other === selector ? 0 : down - y], is_tap = !by[0] && !by[1];
    if (is_tap) await this.evaluate(`addEventListener('click', () => { desk.was_tapped = true; },
      { capture: true, once: true }) ?? (desk.was_tapped = false)`);
    await this.finger('down', [x, y]);
    for (let step = 1; step <= 8 && !is_tap; step++) {
      await this.finger('drag', [x + by[0] * step / 8, y + by[1] * step / 8]);
      await soon(20);
    }
    // (one that is lifted while it moves throws: in Chromium the next tap only stops that)
    if (!is_tap) await soon(200);
    await this.finger('up', [x + by[0], y + by[1]]);
    // (the click of a tap comes behind it)
    if (is_tap) await this.comes('desk.was_tapped');
    await this.settled();
  }
  // A file, by the input that takes one: the page empties that again.
  async give(selector, path) {
    await this.give_file(selector, path);
    await this.comes(`!document.querySelector('${selector}').files.length`);
    await this.settled();
  }
  // Types over what a field has, key by key, and leaves it.
  async write(selector, text) {
    await this.click(selector);
    await this.press('a', { ctrl: true });
    if (!text) await this.press('Backspace');
    for (const letter of text) await this.press(letter);
    await this.press('Tab');
    await this.settled();
  }
}
