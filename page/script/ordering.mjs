// Children of an element come to another order, and as few of them as can be are moved: what is
// moved is laid out anew, and loses the focus.

// The places of a longest run of growing numbers in a list.
function growing(numbers) {
  // (`ends[n]` is the place of the least number that such a run of n + 1 of those so far ends with)
  const ends = [], before = [];
  numbers.forEach((it, place) => {
    let low = 0, high = ends.length;
    while (low < high) {
      const middle = (low + high) >> 1;
      if (numbers[ends[middle]] < it) low = middle + 1;
      else high = middle;
    }
    before.push(low ? ends[low - 1] : null);
    ends[low] = place;
  });
  const run = [];
  for (let place = ends.at(-1) ?? null; place !== null; place = before[place]) run.push(place);
  return run.reverse();
}

// These children stand one behind the other at the end of the host, in this order.
export function arrange_children(host, wanted) {
  const places = new Map([...host.children].map((it, place) => [it, place]));
  const stay = new Set(growing(wanted.map(it => places.get(it))).map(it => wanted[it]));
  if (stay.size === wanted.length) return;
  const { activeElement: focused } = document;
  wanted.reduceRight((next, it) => {
    if (!stay.has(it)) host.insertBefore(it, next);
    return it;
  }, null);
  if (focused !== document.activeElement && host.contains(focused))
    focused.focus({ preventScroll: true });
}
