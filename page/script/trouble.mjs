// What goes wrong is said, and the page goes on; what was done is noted beside it.
import { at, write } from './dom.mjs';
export function trouble(text) {
  if (!at('trouble').textContent) write(at('trouble'), text);
}
export const notice = text => write(at('notice'), text);
export function safely(act) {
  return (...given) => {
    try {
      const it = act(...given);
      if (it instanceof Promise) it.catch(fallen);
      return it;
    } catch (error) {
      fallen(error);
    }
  };
}
function fallen(error) {
  console.error(error);
  const goes_on = 'The text is kept; change it to ask again, or save it.';
  trouble(`The page's script failed: ${error?.message ?? error}. ${goes_on}`);
}
addEventListener('error', it => fallen(it.error ?? it.message));
addEventListener('unhandledrejection', it => fallen(it.reason));
