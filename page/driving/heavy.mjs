// Sets that take the desk and the page long: as many tasks as a node has, with the longest chains,
// or with as many sections.
import { example } from './page.mjs';

const task = (place, { period, deadline = period, cost }) => ({ name: `task${place}`, weight: place,
  period, deadline, cost });
const source = ({ name, weight, period, deadline, cost }) =>
  `[[task]]\nname = "${name}"\nweight = ${weight}\nperiod = ${period}\ndeadline = ${deadline}\n` +
  `cost = ${cost}\n`;
// The least window that covers the demand of all these tasks and one microsecond more.
function busy(tasks) {
  for (let time = 1; ;) {
    const next =
      tasks.reduce((sum, it) => sum + Math.ceil(time / it.period) * it.cost, 1);
    if (next === time || next > 10000000) return Math.min(next, 10000000);
    time = next;
  }
}
// Three quick tasks leave a thousandth of the processor to 29 slow ones: a chain to the deadline of
// each of these is long, and at each level the last that is asked alone passes.
export function longest_chains() {
  const quick = [[1000, 600], [2000, 600], [4000, 399]];
  const tasks = quick.map(([period, cost], place) => task(place, { period, cost }));
  for (let place = 3; place < 32; place++)
    tasks.push(task(place, { period: 10000000, cost: place === 3 ? 2100 : 8 + place % 2 }));
  for (let place = 31; place > 2; place--) tasks[place].deadline = busy(tasks.slice(0, place + 1));
  return tasks.map(source).join('\n');
}
// 100 KB: 32 tasks with eight sections of four locks each, and a line about each section.
export function many_sections() {
  const lock = number => `lock-of-the-bus-number-${number % 10}`;
  const about = (place, number) => `# ${`section ${number} of ${place}, a word `.repeat(10)}\n`;
  const section = (place, number) => `${about(place, number)}[[task.section]]
locks = [${[1, 2, 3, 4].map(it => `"${lock(place + number + it)}"`).join(', ')}]
at = ${10 * number}\nlen = 5\n`;
  const tasks = Array.from({ length: 32 }, (_, place) => source(task(place,
    { period: 100000 + 1000 * place, cost: 1000 })) +
    Array.from({ length: 8 }, (_, number) => section(place, number)).join(''));
  return tasks.join('\n');
}
// As many locks as there can be, each with one user: each has its note.
export const many_notes = () => many_sections().replace(/lock-of-the-bus-number-\d/g,
  (_, at) => `lock-of-the-bus-${at}`);
// The same with a cost that no order bears: a task's whole deadline.
export const too_much = set =>
  set.replace(/(name = "task5"[^[]*\ndeadline = (\d+)\ncost = )\d+/, '$1$2');
// (page.mjs has the examples)
export const ordinary = () => example('robot-mended');
