// Rows that are moved by their handles: a row is let go where it is to stand.

// `lines` gives the rows from the top, `move` gets a row's place and the one that it gets.
export function pulled(host, { lines, move }) {
  let held = null;
  const middle = it => it.getBoundingClientRect().top + it.offsetHeight / 2;
  const others = () => lines().filter(it => it !== held);
  const place_at = y => others().filter(it => middle(it) < y).length;
  // A mark stands where the row would come.
  const mark = place => others().forEach((it, at, all) => {
    it.classList.toggle('is-before', at === place);
    it.classList.toggle('is-behind', at + 1 === place && place === all.length);
  });
  const release = () => {
    held?.classList.remove('is-held');
    mark(-1);
    held = null;
  };
  const on = (event, act) => host.addEventListener(event, act);
  on('pointerdown', event => {
    const handle = event.target.closest('.move');
    if (!handle || handle.disabled || event.button || held) return;
    held = handle.closest('[data-row]');
    held.classList.add('is-held');
    handle.setPointerCapture(event.pointerId);
  });
  on('pointermove', event => {
    if (held) mark(place_at(event.clientY));
  });
  on('pointerup', event => {
    if (!held) return;
    const from = lines().indexOf(held), to = place_at(event.clientY);
    release();
    if (to !== from) move(from, to);
  });
  for (const it of ['pointercancel', 'lostpointercapture']) on(it, () => { if (held) release(); });
  on('keydown', event => {
    if (held && event.key === 'Escape') release();
  });
}
