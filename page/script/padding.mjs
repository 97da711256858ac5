// What the node takes of each task, as the set says it. The desk prints a task's own numbers, as
// they are written; what runs, and what is scaled, has with them what the node takes.
import { number_in, sections_in } from './toml.mjs';

export const taken = ({ node }, key) => node ? number_in(node, key) ?? 0 : 0;

// A task's cost and sections as the desk has them, and what the node takes of each. A section
// begins later by what the node takes of the job, but for its timer, and of the sections before it.
export function padded_execution(document, task) {
  const cost = number_in(task, 'cost'), lock = taken(document, 'lock');
  let pad = Math.max(0, taken(document, 'job') - taken(document, 'release'));
  const sections = sections_in(task).map(it => {
    const pads = { at: pad, len: lock * it.locks.length };
    pad += pads.len;
    return { ...it, pads, at: (it.at ?? 0) + pads.at, len: (it.len ?? 0) + pads.len };
  });
  return { cost: cost === null ? null : cost + pad, pad, sections };
}
