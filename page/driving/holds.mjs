// How long a page is held up, in a browser that doesn't tell of its tasks: the times between two
// messages that the page sends itself, one behind the other, and for how much of them a processor
// was at the page's thread, as Linux counts that. Such a time may have several tasks in it, and
// what paints them, and is counted from the last look at that thread before it to the first one
// behind it: where these are late, on a busy machine, it comes out longer, never shorter.
import { readFileSync } from 'fs';

// Milliseconds.
const LOOK = 1, LONG = 10;

const worked = thread =>
  Number(readFileSync(`/proc/${thread}/schedstat`, 'utf8').split(' ')[0]) / 1e6;
const worked_between = (looks, from, to) =>
  (looks.find(it => it.time >= to) ?? looks.at(-1)).worked -
  (looks.findLast(it => it.time <= from) ?? looks[0]).worked;
// The longest of these times while something is done: by the processor, and by the clock.
export async function longest_hold(browser, process, act) {
  const looks = [], look = () =>
    looks.push({ time: Date.now(), worked: worked(`${process}/task/${process}`) });
  const looking = setInterval(look, LOOK);
  let gaps;
  try {
    gaps = await gaps_while(browser, act);
  } finally {
    clearInterval(looking);
  }
  look();
  const own = gaps.map(([from, to]) => Math.min(to - from, worked_between(looks, from, to)));
  return { own: Math.max(0, ...own), clock: Math.max(0, ...gaps.map(([from, to]) => to - from)) };
}
// From when to when the page had no message.
async function gaps_while(browser, act) {
  await browser.run(long => {
    const it = window.watched = { gaps: [], last: Date.now() };
    const { port1, port2 } = new MessageChannel();
    port1.onmessage = () => {
      const now = Date.now();
      if (now - it.last > long) it.gaps.push([it.last, now]);
      it.last = now;
      if (!it.is_over) port2.postMessage(null);
    };
    port2.postMessage(null);
  }, LONG);
  await act();
  return browser.run(() => {
    const { gaps, last } = window.watched;
    window.watched.is_over = true;
    return [...gaps, [last, Date.now()]];
  });
}
