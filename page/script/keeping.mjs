// What a reload of the page brings back: the set of the tab, and the baseline, which each tab has.
// A page from a file may have no storage; then a reload shows the first set.
function kept_in(name, key) {
  try {
    return JSON.parse(globalThis[name].getItem(key));
  } catch {
    return null;
  }
}
function keep_in(name, key, value) {
  try {
    if (value === null) globalThis[name].removeItem(key);
    else globalThis[name].setItem(key, JSON.stringify(value));
  } catch {
    // Nothing is kept.
  }
}
// A set is kept once the edits have stopped, or the page goes.
const PAUSE = 300;
let set_timer = 0, unkept = null;
function keep_set_now() {
  clearTimeout(set_timer);
  if (unkept) keep_in('sessionStorage', 'set', unkept);
  unkept = null;
}
export function keep_set({ text, file }) {
  clearTimeout(set_timer);
  unkept = { text, file };
  set_timer = setTimeout(keep_set_now, PAUSE);
}
addEventListener('pagehide', keep_set_now);
export const kept_set = () => kept_in('sessionStorage', 'set');
export const keep_baseline = it =>
  keep_in('localStorage', 'baseline', it && { text: it.text, name: it.name });
export function kept_baseline() {
  const it = kept_in('localStorage', 'baseline');
  return typeof it?.text === 'string' && typeof it.name === 'string' ? it : null;
}
