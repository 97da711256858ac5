// What a slice of the run is: its task, its job and its section, by the titles of the picture.
import { element, grouped, us } from './dom.mjs';
import { padded_execution } from './padding.mjs';
import { name_of } from './toml.mjs';

const JOB = /^(\S+): arrival (\d+), (?:done (\d+), response \d+|not done), bound (\d+|-)/;
const MISS =
  /^(\S+): arrival (\d+), (?:done (\d+), response \d+|not done), deadline (\d+) us missed$/;
const SLICE = /^(\S+) (?:holds (.+) )?(\d+) to (\d+) us$/;
// (the processor's lane has each slice whole)
const WHOLE = /^(\S+) executes() (\d+) to (\d+) us$/;

const read_job = ([, name, arrival, done]) =>
  ({ name, arrival: Number(arrival), done: done === undefined ? null : Number(done) });
const read_slice = ([, name, locks, start, stop]) =>
  ({ name, locks: locks || null, start: Number(start), stop: Number(stop) });
const read_all = (titles, pattern, read) =>
  titles.map(it => it.match(pattern)).filter(it => it).map(read);

// A job of a task, with its number and since when the one before it is done.
function job_of(name, jobs, is_it) {
  const own = jobs.filter(it => it.name === name).sort((a, b) => a.arrival - b.arrival);
  const index = own.findIndex(is_it);
  return index < 0 ? null : { ...own[index], number: index + 1, since: own[index - 1]?.done ?? 0 };
}
// A section stands where so much of the job's execution lies before it.
function section_of(slice, job, slices, sections) {
  const own = slices.filter(it => it.name === slice.name && it.locks === null &&
    it.start >= job.since && it.start < slice.start);
  const before = own.reduce((sum, it) => sum + Math.min(it.stop, slice.start) - it.start, 0);
  const index = sections.findIndex(({ at, len }) => at <= before && before < at + len);
  return index < 0 ? null : index + 1;
}
const span_told = ({ start, stop }) => `from ${grouped(start)} to ${us(stop)}`;
function job_told({ name, number, arrival, done }) {
  const end = done === null ? 'not done' : `done at ${us(done)}`;
  return [element('b', name), `, job ${number}, arrived at ${us(arrival)}, ${end}`];
}

// The title of a job's box, or of what is hatched of it, in words.
function box_told(title, jobs) {
  const missed = title.match(MISS), box = missed ?? title.match(JOB);
  const { name, arrival } = box ? read_job(box) : {};
  const job = box && job_of(name, jobs, it => it.arrival === arrival);
  if (!job) return [title];
  const what = missed ? `misses its deadline of ${us(Number(missed[4]))}` :
    `from its arrival to its ${box[4] === '-' ? 'deadline' : 'bound'}`;
  return [...job_told(job), `: ${what}.`];
}
// The title of what was clicked, in words; `point` shows a section in the table.
export function slice_told(title, titles, document, point) {
  const jobs = read_all(titles, JOB, read_job), slices = read_all(titles, SLICE, read_slice);
  const found = title.match(SLICE) ?? title.match(WHOLE);
  if (!found) return box_told(title, jobs);
  // The jobs of a task end one after another: a slice is of the first that ends no earlier.
  const slice = read_slice(found);
  const job = job_of(slice.name, jobs, it => it.done === null || it.done >= slice.stop);
  const head = job ? job_told(job) : [element('b', slice.name)];
  if (!slice.locks) return [...head, `: executes ${span_told(slice)}.`];
  const task = document.tasks.find(it => name_of(it) === slice.name);
  const sections = task ? padded_execution(document, task).sections : [];
  const section = job ? section_of(slice, job, slices, sections) : null;
  const holds = `: holds ${slice.locks} ${span_told(slice)}`;
  if (section === null) return [...head, `${holds}.`];
  const onclick = () => point(slice.name, section);
  const button = element('button.small', { type: 'button', onclick }, `section ${section}`);
  return [...head, `${holds}, in `, button, '.'];
}
