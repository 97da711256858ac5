// Scenes of the table and its text: cells, rows, sections, preferences, other forms of a set.
import { compare_set } from './comparing.mjs';
import { soon } from './hand.mjs';
import {
  browser, cell, equal, example, expect, lines_changed, look, native, put,
} from './page.mjs';

export async function the_table() {
  const set = example('robot').replace('cost = 150\n', 'cost = 150 # measured\n');
  await put({ set });
  await browser.write(cell(0, 'cost'), '90');
  let seen = await look();
  equal(seen.set, set.replace('cost = 150 #', 'cost = 90 #'),
    'a cost typed into the table is the one change of the text');
  compare_set('a typed cost', seen.set, seen);
  await browser.write(cell(6, 'deadline'), '90ms');
  seen = await look();
  equal(seen.rows[6].deadline, '90000', 'a time in ms');
  await browser.write(cell(3, 'jitter'), '250');
  expect((await look()).set.includes('cost = 5000\njitter = 250\n'),
    'a new jitter stands behind the cost');
  await browser.write(cell(3, 'jitter'), '');
  expect(!(await look()).set.includes('jitter = 250'), 'an empty jitter goes');
  await browser.write(cell(0, 'name'), 'engine');
  await browser.write(cell(1, 'period'), 'x12');
  seen = await look();
  equal(seen.rows.map(it => it.name)[0], 'engine', 'a name');
  equal(seen.rows[1].period, '5000', 'what is no number is not taken');
  const before = seen.set;
  await browser.click('#add');
  seen = await look();
  equal(seen.set,
    `${before}\n[[task]]\nname = "task-2"\nperiod = 100000\ndeadline = 100000\ncost = 1000\n`,
    'a task comes at the end');
  equal(await browser.evaluate('document.activeElement.dataset.cell'), 'name',
    'and its name has the focus');
  await browser.click('#table [data-row="0"] .acts button:nth-child(1)');
  seen = await look();
  equal(seen.rows.map(it => it.name).slice(0, 3).join(), 'engine,engine-2,balance', 'a task twice');
  compare_set('a task twice', seen.set, seen);
  await browser.click('#table [data-row="1"] .acts button:nth-child(2)');
  await browser.click('#table [data-row="9"] .acts button:nth-child(2)');
  seen = await look();
  equal(seen.set, before, 'removed tasks leave the text as it was');
  for (let i = 0; i < 4; i++) await browser.press('z', { ctrl: true });
  await browser.settled();
  equal((await look()).set, before, 'undo goes back over four steps');
  await browser.press('z', { ctrl: true });
  await browser.settled();
  equal((await look()).rows[0].name, 'motor', 'and over the name');
  await browser.press('z', { ctrl: true, shift: true });
  await browser.settled();
  equal((await look()).rows[0].name, 'engine', 'redo');
  await browser.click('#undo');
  equal((await look()).rows[0].name, 'motor', 'undo by its button');
  await browser.click(cell(0, 'period'));
  await browser.press('ArrowDown');
  equal(await browser.evaluate(`document.activeElement.getAttribute('aria-label')`),
    'period of balance', 'arrows walk through a column');
}
// The set's own preference, by its button.
export async function preference() {
  await put({ set: example('robot-mended') });
  await browser.click('#by-deadline');
  let seen = await look();
  const preferring = '\nprefer = "deadline"\n\n[[task]]';
  equal(seen.set, example('robot-mended').replace('\n[[task]]', preferring),
    'the preference stands above the tasks');
  expect(seen.is_tabled, 'a set that prefers something has its table');
  const preferred = native('admit', [example('robot-mended')], ['--prefer', 'deadline']);
  if (preferred.status === 0)
    equal(seen.answers.admit.text, preferred.text, 'the preference is --prefer deadline');
  compare_set('by deadline', seen.set, seen);
  equal(await browser.run(() =>
    document.getElementById('by-deadline').getAttribute('aria-pressed')), 'true',
    'the button is down');
  await browser.write(cell(0, 'cost'), '151');
  expect((await look()).set.includes('cost = 151\n'), 'and the table edits it');
  await browser.write(cell(0, 'cost'), '150');
  await browser.click('#by-deadline');
  equal((await look()).set, example('robot-mended'), 'once more takes it out');
  seen = await put({ set: '#% cam 4\n#ok\n' });
  expect(!seen.is_tabled && seen.shown.untabled.includes('documents of several teams'),
    `documents of teams: ${seen.shown.untabled}`);
}
// Rows by name, period or deadline, by the list and by the heads; the text stays.
export async function sorting() {
  const shown_rows = () => browser.evaluate(
    `[...document.querySelectorAll('#table [data-row]')].map(it => it.dataset.task).join()`);
  const values = key => browser.evaluate(
    `[...document.querySelectorAll('#table [data-cell="${key}"]')].map(it => it.value)`);
  const sort_of = key => browser.evaluate(
    `[...document.querySelectorAll('#table [role=columnheader]')].find(it =>
      it.textContent === '${key}').getAttribute('aria-sort')`);
  await put({ set: example('robot-mended') });
  const as_text = await shown_rows();
  await browser.click('#table .row.names [title="Sort by name"]');
  equal(await shown_rows(), as_text.split(',').sort().join(), 'rows by name');
  equal(await sort_of('name'), 'ascending', 'the head says so');
  equal(await browser.evaluate(`document.getElementById('sorted').value`), 'name', 'the list, too');
  equal((await look()).set, example('robot-mended'), 'the text stays');
  // By keys: the list of sorts.
  await browser.run(() => document.getElementById('sorted').focus());
  await browser.press('ArrowDown');
  await browser.settled();
  let periods = (await values('period')).map(Number);
  expect(periods.every((it, at) => at === 0 || periods[at - 1] <= it), `by period: ${periods}`);
  await browser.press('ArrowDown');
  await browser.settled();
  const deadlines = (await values('deadline')).map(Number);
  expect(deadlines.every((it, at) => at === 0 || deadlines[at - 1] <= it),
    `by deadline: ${deadlines}`);
  // An edit in a sorted table goes to its own task, and the row moves once the field is left.
  const row = '#table [data-task="motor"] [data-cell="deadline"]';
  await browser.click(row);
  await browser.press('ArrowDown');
  equal(await browser.evaluate(`document.activeElement.getAttribute('aria-label')`),
    `deadline of ${(await shown_rows()).split(',')[1]}`, 'arrows walk as the rows stand');
  await browser.run(() => {
    window.moved = 0;
    new MutationObserver(all => all.forEach(it => { window.moved += it.addedNodes.length; }))
      .observe(document.getElementById('table'), { childList: true });
  });
  await browser.write('#table [data-task="upload"] [data-cell="deadline"]', '2000');
  await soon(50);
  equal(await browser.evaluate('window.moved'), 2, 'no row but that one, with its editor');
  expect((await look()).set.includes('deadline = 2000\n'), 'an edit in a sorted table');
  equal((await shown_rows()).split(',')[1], 'upload', 'and its row moves');
  await browser.click('#undo');
  await browser.click('#table .row.names [title="Sort by deadline"]');
  equal(await shown_rows(), as_text, 'once more, and the rows are as in the text');
}
// Rows by keys, a pointer and a finger; the text's tasks come to other places, and nothing else.
export async function moving() {
  const set = example('robot-mended'), handle = row => `#table [data-row="${row}"] .move`;
  const names = async () => (await look()).rows.map(it => it.name).slice(0, 4).join();
  const focused = () => browser.evaluate(`document.activeElement.getAttribute('aria-label')`);
  await put({ set });
  equal(await names(), 'motor,balance,imu,camera', 'the rows');
  await browser.click(cell(0, 'cost'));
  await browser.press('ArrowDown', { alt: true });
  await browser.settled();
  let seen = await look();
  equal(await names(), 'balance,motor,imu,camera', 'Alt and an arrow move a row');
  equal(await focused(), 'cost of motor', 'and the focus stays in it');
  equal(lines_changed(seen.set, set), 0, 'no line is another');
  expect(seen.set.startsWith(set.split('\n')[0]), 'the comment at the top stays there');
  expect(/motor: place 2 of 9/.test(seen.shown.notice), `which is said: ${seen.shown.notice}`);
  compare_set('a moved row', seen.set, seen);
  await browser.press('ArrowUp', { alt: true });
  await browser.press('ArrowUp', { alt: true });
  await browser.settled();
  equal((await look()).set, set, 'and back, and no further');
  await browser.run(handle => document.querySelector(handle).focus(), handle(1));
  await browser.press('ArrowDown');
  await browser.settled();
  equal(await names(), 'motor,imu,balance,camera', 'an arrow on a handle');
  equal(await focused(), 'move balance', 'which keeps the focus');
  await browser.click('#undo');
  equal((await look()).set, set, 'undo');
  await browser.carry(handle(0), '#table [data-row="2"]', async () =>
    equal(await browser.evaluate(`[document.querySelector('.row.is-held').dataset.task,
      document.querySelector('.row.is-before').dataset.task].join()`), 'motor,camera',
      'a mark shows where it comes'));
  equal(await names(), 'balance,imu,motor,camera', 'a pulled row');
  expect(await browser.evaluate(`!document.querySelector('.is-held, .is-before, .is-behind')`),
    'and no mark is left');
  await browser.has_fingers(true);
  await browser.touch(handle(2), .5, .5, '#table [data-row="3"]');
  equal((await look()).rows[3].name, 'motor', 'by a finger');
  await browser.touch('[data-task="motor"] .growth input', .15, .6);
  seen = await look();
  expect(Number(seen.rows[3].cost) > 500, `a grip by a finger: ${seen.rows[3].cost}`);
  compare_set('moved and pulled', seen.set, seen);
  await browser.touch('#undo');
  expect((await look()).rows[3].cost === '150', 'a button by a finger');
  await browser.has_fingers(false);
  await browser.click('#table .row.names [title="Sort by name"]');
  expect(await browser.evaluate(`document.querySelector('${handle(0)}').disabled`),
    'sorted rows stay');
  await browser.click('#table .row.names [title="Sort by name"]');
  // A comment that stands apart is no task's.
  const apart = set.replace('\n[[task]]\nname = "imu"', '\n# ---- sensors\n\n$&').replace(
    '[[task]]\nname = "balance"', '# holds it up\n$&');
  await put({ set: apart });
  await browser.click('#table [data-row="1"] .acts button:nth-child(2)');
  seen = await look();
  expect(seen.set.includes('\n\n# ---- sensors\n\n') && !seen.set.includes('# holds it up'),
    'a removed task takes its own comment alone');
  compare_set('a removed task', seen.set, seen);
}
export async function sections() {
  await put({ set: example('robot') });
  await browser.click('#table [data-row="6"] .strip');
  await browser.write('#editor-6 .line[role=group] input:nth-of-type(3)', '300');
  let seen = await look();
  equal(lines_changed(seen.set, example('robot')), 2, 'a length changes one line');
  compare_set('a shorter section', seen.set, seen);
  equal(seen.strip, 'verdict is-yes', 'which mends the robot');
  await browser.evaluate(
    `[...document.querySelectorAll('#editor-6 button')]
      .find(it => it.textContent === 'Add a section').click()`);
  await browser.settled();
  equal(await browser.evaluate(`document.activeElement.getAttribute('aria-label')`),
    'locks of section 2 of battery', 'the new section has the focus');
  await browser.write('#editor-6 .line[aria-label="section 2"] input', 'bus log');
  seen = await look();
  expect(seen.set.includes(
    'section = [{ locks = ["bus"], at = 100, len = 300 }, ' +
    '{ locks = ["bus", "log"], at = 400, len = 100 }]'), 'two sections in one line');
  await browser.write('#over-6', 'upload');
  seen = await look();
  expect(seen.set.includes('outranks = ["upload"]'), 'outranks');
  compare_set('two sections', seen.set, seen);
  await browser.write('#over-6', '*');
  seen = await look();
  expect(seen.set.includes('outranks = "all"'), 'outranks all others');
  compare_set('above all others', seen.set, seen);
  await browser.write('#editor-6 .line[aria-label="section 2"] input:nth-of-type(2)', '350');
  seen = await look();
  const why = 'section 2: it begins before the end of the one before it: at 350, ';
  expect(RegExp(`^Refused: (line \\d+, )?task 7 \\(battery\\): ${why}`).test(seen.verdict),
    seen.verdict);
  compare_set('a section over another', seen.set, seen);
  expect(await browser.evaluate(
    `document.querySelector('#editor-6 .line[aria-label="section 2"] input:nth-of-type(2)')
      .getAttribute('aria-invalid') === 'true'`), 'is marked in the table');
  await browser.click('#editor-6 .line[aria-label="section 2"] button');
  seen = await look();
  expect(seen.set.includes('section = [{ locks = ["bus"], at = 100, len = 300 }]\n'),
    'a removed section');
}
// Of a long text the lines that can be seen stand in the text area, until somebody goes to it.
export async function long_texts() {
  const about = '# a line of a comment, as long as such a line may well be in a set\n';
  const set = `${about.repeat(400)}${example('robot-mended')}`;
  const area = () => browser.run(() => {
    const { value, readOnly, scrollTop } = document.getElementById('set');
    const first = Math.round(scrollTop / 18.85), seen = value.split('\n').slice(first, first + 12);
    return { value, is_part: readOnly, lines: seen.join('\n') };
  });
  await put({ set });
  equal((await area()).value, set, 'a long text that is typed stays');
  await browser.run(() => { document.getElementById('set').scrollTop = 18.85 * 398; });
  const before = await area();
  await browser.write(cell(0, 'cost'), '151');
  const is_part = () => browser.comes(`document.getElementById('set').readOnly`);
  await is_part();
  let seen = await area();
  expect(seen.is_part && seen.value.length < set.length / 2, `a part: ${seen.value.length}`);
  const edited = it => it.replace('cost = 150\n', 'cost = 151\n');
  equal(seen.lines, edited(before.lines), 'which is where it was scrolled to');
  await browser.hover('#set', .5);
  seen = await area();
  equal(`${seen.is_part} ${seen.value === edited(set)}`, 'false true', 'a pointer gets the whole');
  equal(seen.lines, edited(before.lines), 'at the same lines');
  // Undo in the text area leaves the rest of it alone.
  await browser.run(() => document.getElementById('set').focus());
  await browser.press('z', { ctrl: true });
  await browser.settled();
  equal((await area()).value === set, true, 'undo in the text');
  equal((await look()).rows[0].cost, '150', 'and in the table');
  await browser.press('z', { ctrl: true, shift: true });
  await browser.settled();
  equal((await area()).value === edited(set), true, 'redo');
  compare_set('a long text', edited(set), await look());
  // What is refused is led to, in the part that isn't there.
  await browser.write(cell(8, 'deadline'), '9999999');
  expect(await is_part(), 'a part again');
  await browser.click('#set-place button');
  const chosen = await browser.run(() => {
    const { value, selectionStart, selectionEnd } = document.getElementById('set');
    return value.slice(selectionStart, selectionEnd);
  });
  equal(chosen, 'deadline = 9999999', 'the place of a refusal in a long text');
}
export async function other_forms() {
  const section = '[{ locks = ["m"], at = 0, len = 10 }]';
  const inline = `task = [ # all
  { name = "a", period = 5000, deadline = 5000, cost = 1000 }, # first
  { name = "b", period = 9000, deadline = 9000, cost = 2000, section = ${section} },
]
`;
  await put({ set: inline });
  await browser.write(cell(0, 'cost'), '1500');
  let seen = await look();
  equal(seen.set, inline.replace('cost = 1000', 'cost = 1500'), 'tasks in one array');
  for (const [what, set, why] of [
    ['a dotted key', '[[task]]\nname = "a"\nx.y = 1\n', 'line 3'],
    ['another table', '[x]\n', 'line 1'], ['no TOML', '[[task]\n', 'line 1']]) {
    seen = await put({ set });
    expect(!seen.is_tabled && seen.shown.untabled.includes(why), `${what}: ${seen.shown.untabled}`);
  }
  seen = await put(
    { set: '[[task]]\nname = "a"\nperiod = 5000\ndeadline = """5"""\ncost = "x"\n' });
  expect(seen.is_tabled &&
    /^Refused: (line \d+, )?task 1 \(a\): deadline has to be a whole number/.test(seen.verdict),
    seen.verdict);
  for (const set of ['prefer = "cost"\n', '#% cam 4\n#ok\n#% arm 9\ntask=[{}]', '#% cam 3\nx=',
    '#% cam 16\nprefer="weight"\n#% arm 18\nprefer="deadline"\n', 'x = ', 'x = 1\n', '\xff'])
    compare_set(`a refusal: ${set}`, set, await put({ set }));
  seen = await put({ set: '# nothing\n' });
  equal(seen.verdict, 'Admitted: 0 tasks', 'no tasks');
  await browser.click('#add');
  compare_set('the first task', (await look()).set, await look());
}
