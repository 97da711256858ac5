// A script of teams as a view: the reply beside each line, what became of each team's drafts, and
// the node's state after all. It only puts lines that `play` prints beside those of the script.
import { read_play } from './answers.mjs';
import { at, coloured, element, grouped, plural, write } from './dom.mjs';
import { lead, line_named } from './leading.mjs';

const is_skipped = line => !line || line.startsWith('#');
// Each line with its number and its reply; a skipped one has none.
function lines_of_script(text, replies) {
  let next = 0;
  const lines = text.split('\n').map((line, index) => {
    return { number: index + 1, line, reply: is_skipped(line) ? null : replies[next++] ?? '' };
  });
  if (lines.at(-1).line === '') lines.pop();
  return lines;
}
// The drafts in the order in which they were opened, each with the lines that name it.
function drafts_of(lines) {
  const drafts = [];
  for (const it of lines.filter(it => it.reply !== null)) {
    const [word, number] = it.line.split(' ');
    if (word === 'open') drafts.push({ team: number, opened: it, lines: [] });
    else drafts[Number(number) - 1]?.lines.push(it);
  }
  return drafts;
}

// What a reply means to a person, and whether it is good (or bad, or neither).
const MEANINGS = [
  [/^admitted (\d+)$/, ([, version]) => [`in the node, as version ${version}`, 'yes']],
  [/^tested admitted$/, () => ['would be admitted', 'yes']],
  [/^stale (\d+)$/, ([, version]) => [`stale: the node is at version ${version} since`, '']],
  [/^(?:tested )?infeasible (.*)$/, ([, names]) => [`no order passes: ${names}`, 'no']],
  [/^refused NotYours (.*)$/, ([, name]) => [`refused: ${name} is another team's`, 'no']],
  [/^refused NoSuchTask (.*)$/, ([, name]) => [`refused: the node has no ${name}`, 'no']],
  [/^refused (.*)$/, ([, why]) => [`refused: ${why}`, 'no']],
];
function meaning_of(reply) {
  for (const [pattern, means] of MEANINGS) {
    const found = reply.match(pattern);
    if (found) return means(found);
  }
  return [reply, ''];
}
const meant = reply => {
  const [text, kind] = meaning_of(reply);
  return element(kind ? `span.${kind}` : 'span.faint', { title: reply }, text);
};

// How a draft ended: by its last commit, or given up; else it is still open.
function end_of({ lines }) {
  const last = lines.findLast(it => /^(commit|abandon) /.test(it.line));
  if (!last) return element('span.faint', 'still open');
  return last.line.startsWith('abandon') ? element('span.faint', 'given up') : meant(last.reply);
}
const team_named = team => element('span.team', `team ${team}`);
function draft_card(draft, index) {
  const { team, opened, lines } = draft, version = opened.reply.match(/ version (\d+)$/)?.[1];
  const head = element('div.title', team_named(team), element('b', `draft ${index + 1}`),
    element('span.faint', version ? `on version ${version}` : opened.reply),
    element('span.told', end_of(draft)));
  const rows = lines.map(({ number, line, reply }) => element('li',
    element('span.faint', String(number)), element('code', line.replace(/^(\w+) \d+ ?/, '$1 ')),
    meant(reply)));
  return coloured(element('li.draft', head, element('ol.lines', ...rows)), `team ${team}`);
}
function level_row({ level, name, team, bound }) {
  const who = element('span.who', element('span.level', String(level)), name);
  const told = element('span.told', element('b', grouped(bound)), ' µs');
  const title = element('div.title', who, team_named(team), told);
  return coloured(element('li.bar', { 'data-task': name }, title), `team ${team}`);
}

// Shows what was answered to a script.
export function show_teams(script, answer) {
  const { refused, replies, version, levels } = read_play(answer);
  const lines = lines_of_script(script, replies), drafts = refused ? [] : drafts_of(lines);
  const teams = new Set(drafts.map(it => it.team)).size, several = plural(drafts.length, 'draft');
  const nothing = `${refused}. Nothing of the script was played.`;
  write(at('played'), refused ? nothing : `${plural(teams, 'team')}, ${several}`);
  at('played').className = refused ? 'no' : 'faint';
  lead('script', refused ? line_named(refused, script) : null);
  at('drafts').replaceChildren(...drafts.map(draft_card));
  const tasks = levels.length ? plural(levels.length, 'task') : 'no tasks';
  write(at('node-version'), version === null ? '' : `Version ${version}: ${tasks}`);
  at('node-levels').replaceChildren(...[...levels].reverse().map(level_row));
}
