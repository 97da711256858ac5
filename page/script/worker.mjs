// Runs in a worker: the module, and all that is asked of it. A question is { id, kind, .. }; its
// answers are { id, name, text, status, told }, or { id, name, trouble }, and at the end
// { id, done }. `told` is what the program tells a person, for a refusal or of a set. Of a long
// certificate, of which nobody reads more, `text` is the beginning, and `file` has all of it.

// Room for an answer at first; a longer one is asked for again. A module with more memory than this
// is let go after use.
const ROOM = (1 << 20) - 1, KEPT = 1 << 26;
// So much of a long certificate is text.
const BEGINNING = 200000;
// The exports and their inputs, in the order of include/desk.h; a number among them is passed as it
// is.
const INPUTS = {
  admit: ['set'], explain: ['set'], settings: ['set'], certify: ['set'], limits: ['set'],
  check: ['set', 'certificate'], diff: ['set', 'changed'],
  judge: ['set', 'settings'], releases: ['set', 'until'], simulate: ['set', 'releases'],
  draw: ['set', 'releases'], play: ['script'], observe: ['set', 'trace'], worst: ['set', 'task'],
  tell: ['command', 'first', 'second', 'until'],
};
// The commands by the numbers that include/desk.h gives them, from 1.
const NUMBERED = ['admit', 'certify', 'check', 'limits', 'settings', 'explain', 'judge', 'diff',
  'releases', 'simulate', 'draw', 'play', 'observe', 'worst'];
let module = null, desk = null;

function room_of(length) {
  const at = desk.page_room(BigInt(length));
  if (!at) throw Error('no memory for the text');
  return at;
}
function fill(bytes) {
  const at = room_of(bytes.length);
  new Uint8Array(desk.memory.buffer).set(bytes, Number(at));
  return at;
}

// The one place where an export is called: its answer as bytes, and its status.
function call(name, given) {
  desk ??= new WebAssembly.Instance(module, {}).exports;
  const taken = [];
  const words = INPUTS[name].flatMap(input => {
    const value = given[input];
    if (typeof value !== 'object') return [value];
    taken.push(fill(value));
    return [taken.at(-1), BigInt(value.length)];
  });
  for (let length = ROOM; ;) {
    const room = room_of(length + 1);
    const count = desk['desk_' + name](...words, room, BigInt(length), room + BigInt(length));
    const memory = new Uint8Array(desk.memory.buffer), start = Number(room);
    const status = memory[start + length];
    const bytes = count <= BigInt(length) ? memory.slice(start, start + Number(count)) : null;
    desk.page_free(room);
    if (bytes) {
      taken.forEach(it => desk.page_free(it));
      if (memory.length > KEPT) desk = null;
      return { bytes, status };
    }
    length = Number(count);
  }
}

const text_of = bytes => new TextDecoder().decode(bytes);
// What is told beside an answer; notes on a set are told once, beside the first.
function told(name, given, status) {
  if (status !== 4 && status !== 5 && name !== 'admit') return '';
  const [first, second] = INPUTS[name].map(it => given[it]), none = new Uint8Array();
  const is_number = typeof second === 'bigint';
  const inputs =
    { first, second: is_number ? none : second ?? none, until: is_number ? second : 0n };
  try {
    return text_of(call('tell', { command: 1 + NUMBERED.indexOf(name), ...inputs }).bytes);
  } catch {
    desk = null;
    return '';
  }
}

// Nothing is left of a call that failed: the next one has a module of its own.
function answer(name, given) {
  try {
    const { bytes, status } = call(name, given);
    const is_cut = name === 'certify' && bytes.length > BEGINNING;
    const said = is_cut ? { text: text_of(bytes.subarray(0, BEGINNING)), file: new Blob([bytes]) } :
      { text: text_of(bytes) };
    return { bytes, ...said, status, told: told(name, given, status) };
  } catch (error) {
    desk = null;
    return { trouble: String(error), status: null };
  }
}

// Asks one call after another, each of which may take what the ones before it answered.
const SAY = {
  set({ set, until }, ask) {
    ask('admit', { set });
    const explained = ask('explain', { set });
    ask('settings', { set });
    const certificate = ask('certify', { set });
    if (certificate.bytes && certificate.status !== 4)
      ask('check', { set, certificate: certificate.bytes });
    if (explained.text?.startsWith('admitted ')) {
      // With no word of the user, until the first job of each task is done: by its bound, from when
      // it may arrive.
      const most = pattern => Math.max(
        0, ...[...explained.text.matchAll(pattern)].map(it => Number(it[1])));
      const done = 1000 + most(/^\d+ \S+ (\d+) of \d+$/gm) + most(/^  jitter (\d+)$/gm);
      const releases = ask('releases', { set, until: until ?? BigInt(done) });
      if (releases.status === 0) {
        ask('simulate', { set, releases: releases.bytes });
        ask('draw', { set, releases: releases.bytes });
      }
    }
  },
  limits({ set }, ask) {
    ask('limits', { set });
  },
  worst({ set, task }, ask) {
    const list = ask('worst', { set, task });
    if (list.bytes && /^until [1-9]/m.test(list.text)) ask('draw', { set, releases: list.bytes });
  },
  baseline({ set }, ask) {
    ask('admit', { set });
    ask('explain', { set });
    ask('limits', { set });
  },
  diff({ set, changed }, ask) {
    ask('diff', { set, changed });
  },
  judge({ set, settings }, ask) {
    ask('judge', { set, settings });
  },
  observe({ set, trace }, ask) {
    ask('observe', { set, trace });
  },
  arrivals({ set, releases }, ask) {
    ask('draw', { set, releases });
  },
  play({ script }, ask) {
    ask('play', { script });
  },
};

onmessage = ({ data }) => {
  const { id, kind } = data;
  try {
    module ??= data.module;
    SAY[kind]?.(data, (name, given) => {
      const { bytes, ...said } = answer(name, given);
      postMessage({ id, name, ...said });
      return { bytes, ...said };
    });
  } catch (error) {
    postMessage({ id, trouble: String(error) });
  }
  postMessage({ id, done: true });
};
