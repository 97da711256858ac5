// Work on lists in turns, each a task of its own for the browser, so that none holds the page up.
// What a turn has made is on the screen before the next one begins, whoever's that is: else the
// browser would have the more to lay out and to paint at once.
const TURN = 5, UNSEEN = 100;

// Who waits for a turn: the first gets the next one. (Where the page isn't seen, nothing comes to a
// screen, and a timer goes on.)
const in_wait = new Set();
let turn_timer = 0, turn_frame = 0;
function next_turn() {
  turn_timer = 0;
  const [first] = in_wait;
  if (!first) return;
  in_wait.delete(first);
  first.go_on(performance.now() + TURN);
  if (in_wait.size) turn_later();
}
function turn_soon() {
  clearTimeout(turn_timer);
  cancelAnimationFrame(turn_frame);
  turn_timer = setTimeout(next_turn);
}
function turn_later() {
  clearTimeout(turn_timer);
  turn_timer = setTimeout(turn_soon, UNSEEN);
  turn_frame = requestAnimationFrame(turn_soon);
}

export class Turns {
  // `act` gets each item, `done` is called behind the last one.
  constructor(act, done) {
    Object.assign(this, { act, done, left: null });
  }
  get is_busy() {
    return this.left !== null;
  }
  // Another list takes the place of what is left of the one before it.
  start(items) {
    this.left = [...items].reverse();
    this.wait();
  }
  // Nothing that is left is done.
  stop() {
    in_wait.delete(this);
    this.left = null;
  }
  // All that is left, at once.
  finish() {
    in_wait.delete(this);
    this.go_on(Infinity);
  }
  wait() {
    in_wait.add(this);
    if (!turn_timer) turn_soon();
  }
  go_on(until) {
    while (this.left?.length && performance.now() < until) this.act(this.left.pop());
    if (this.left?.length) return this.wait();
    if (!this.left) return;
    this.left = null;
    this.done();
  }
}
