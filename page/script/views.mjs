// The two views of the page, of which one is shown: one set, and a script of teams.
import { at } from './dom.mjs';

const VIEWS = ['set', 'teams'];
export function show_view(wanted) {
  for (const it of VIEWS) {
    const is_shown = it === wanted, tab = at(`tab-${it}`);
    at(`view-${it}`).hidden = !is_shown;
    tab.setAttribute('aria-selected', is_shown);
    tab.tabIndex = is_shown ? 0 : -1;
  }
  document.body.classList.toggle('is-teams', wanted === 'teams');
}
// Left and right go from tab to tab, as in other lists of tabs.
export function walk_tabs(event) {
  const at_tab = VIEWS.findIndex(it => event.target.id === `tab-${it}`);
  const by = { ArrowLeft: -1, ArrowRight: 1 }[event.key];
  if (at_tab < 0 || !by) return;
  event.preventDefault();
  const next = VIEWS[(at_tab + by + VIEWS.length) % VIEWS.length];
  show_view(next);
  at(`tab-${next}`).focus();
}
