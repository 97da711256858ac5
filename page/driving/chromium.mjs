// Chromium without a window, over the DevTools protocol.
import { writeFileSync } from 'fs';
import { Hand, soon } from './hand.mjs';

const WORDS = ['--headless=new', '--no-sandbox', '--disable-gpu', '--remote-debugging-pipe'];
// (a key's number is its letter's own, but not a sign's: 46 is Delete)
const CODES = { Tab: 9, Enter: 13, Escape: 27, End: 35, Home: 36, ArrowLeft: 37, ArrowUp: 38,
  ArrowRight: 39, ArrowDown: 40, Backspace: 8, ' ': 32, ',': 188, '.': 190, '-': 189, '_': 189 };
const EVENTS = { move: 'mouseMoved', drag: 'mouseMoved', down: 'mousePressed',
  up: 'mouseReleased' };
const TASKS = 'disabled-by-default-devtools.timeline';
const TOUCHES = { down: 'touchStart', drag: 'touchMove', up: 'touchEnd' };

export class Chromium extends Hand {
  async start(program) {
    Object.assign(this, { heard: '', trace: [] });
    this.spawn(program, [...WORDS, `--user-data-dir=${this.room}/profile`, 'about:blank'],
      { stdio: ['ignore', 'ignore', 'ignore', 'pipe', 'pipe'] });
    this.process.stdio[3].on('error', () => {});
    this.process.stdio[4].setEncoding('utf8').on('data', it => this.hear(it));
    const { targetId } = await this.send('Target.createTarget', { url: 'about:blank' });
    this.session =
      (await this.send('Target.attachToTarget', { targetId, flatten: true })).sessionId;
    for (const domain of ['Runtime', 'Page', 'DOM', 'Inspector'])
      await this.send(`${domain}.enable`);
    await this.send('Browser.setDownloadBehavior',
      { behavior: 'allow', downloadPath: this.room });
  }
  // Messages end with a byte 0, on two pipes.
  hear(data) {
    const messages = (this.heard + data).split('\0');
    this.heard = messages.pop();
    for (const it of messages) this.take(JSON.parse(it));
  }
  take({ id, result, error, method, params }) {
    if (method === 'Runtime.exceptionThrown')
      this.complaints.push(params.exceptionDetails.exception?.description ??
        params.exceptionDetails.text);
    if (method === 'Runtime.consoleAPICalled' && params.type === 'error')
      this.complaints.push(params.args.map(it => it.description ?? it.value).join(' '));
    if (method === 'Inspector.targetCrashed') this.process.kill();
    if (method === 'Tracing.dataCollected') this.trace.push(...params.value);
    this.answer(method ?? id, error?.message, result);
  }
  send(method, params = {}) {
    const id = ++this.number, answer = this.answer_to(id);
    this.process.stdio[3].write(
      JSON.stringify({ id, method, params, sessionId: this.session }) + '\0');
    return answer;
  }

  async evaluate(expression) {
    const { result, exceptionDetails } =
      await this.send('Runtime.evaluate', { expression, awaitPromise: true, returnByValue: true });
    if (exceptionDetails)
      throw Error(exceptionDetails.exception?.description ?? exceptionDetails.text);
    return result.value;
  }
  navigate(url) {
    return this.send('Page.navigate', { url });
  }
  // How long the longest task takes that the page's own thread has while something is done: the
  // milliseconds that a processor is at it, and those by the clock, which may be other programs'.
  async longest_hold(act) {
    this.trace = [];
    await this.send('Tracing.start', { transferMode: 'ReportEvents',
      traceConfig: { includedCategories: [TASKS], excludedCategories: ['*'] } });
    try {
      await act();
    } finally {
      await Promise.all([this.answer_to('Tracing.tracingComplete'), this.send('Tracing.end')]);
    }
    const { trace } = this, of = it => `${it.pid} ${it.tid}`;
    const threads = new Set(trace.filter(it => it.args?.name === 'CrRendererMain').map(of));
    const tasks = trace
      .filter(it => it.name === 'RunTask' && it.ph === 'X' && threads.has(of(it)));
    const longest = key => Math.max(0, ...tasks.map(it => it[key] ?? it.dur)) / 1000;
    return { own: longest('tdur'), clock: longest('dur') };
  }
  async looks(width, height, scheme) {
    await this.send('Emulation.setEmulatedMedia',
      { features: [{ name: 'prefers-color-scheme', value: scheme }] });
    this.size = { width, height, deviceScaleFactor: 1, mobile: width < 500 };
    await this.send('Emulation.setDeviceMetricsOverride', this.size);
  }
  // The whole is drawn in a window that has room for it: what can't be seen isn't drawn.
  async picture(file, is_whole) {
    if (is_whole) {
      const height = await this.evaluate('document.documentElement.scrollHeight');
      await this.send('Emulation.setDeviceMetricsOverride', { ...this.size, height });
      await soon(500);
      await this.settled();
    }
    const { data } = await this.send('Page.captureScreenshot');
    writeFileSync(file, Buffer.from(data, 'base64'));
    if (is_whole) await this.send('Emulation.setDeviceMetricsOverride', this.size);
  }

  mouse(kind, [x, y]) {
    const is_held = kind === 'drag' || kind === 'down';
    return this.send('Input.dispatchMouseEvent',
      { type: EVENTS[kind], x, y, button: kind === 'move' ? 'none' : 'left',
      buttons: is_held ? 1 : 0, clickCount: 1 });
  }
  finger(kind, [x, y]) {
    return this.send('Input.dispatchTouchEvent',
      { type: TOUCHES[kind], touchPoints: kind === 'up' ? [] : [{ x, y }] });
  }
  has_fingers(enabled) {
    return this.send('Emulation.setTouchEmulationEnabled', { enabled });
  }
  async give_file(selector, path) {
    const { root } = await this.send('DOM.getDocument');
    const { nodeId } = await this.send('DOM.querySelector', { nodeId: root.nodeId, selector });
    await this.send('DOM.setFileInputFiles', { nodeId, files: [path] });
  }
  async press(key, { ctrl = false, shift = false, alt = false } = {}) {
    const modifiers = (alt ? 1 : 0) + (ctrl ? 2 : 0) + (shift ? 8 : 0);
    const letter = key.length === 1 && !ctrl;
    const code = CODES[key] ?? key.toUpperCase().charCodeAt(0);
    const text = key === 'Enter' ? '\r' : letter ? key : undefined;
    const commands = ctrl && key === 'a' ? ['selectAll'] : [];
    await this.send('Input.dispatchKeyEvent',
      { type: text ? 'keyDown' : 'rawKeyDown', key,
      code: key.length === 1 ? `Key${key.toUpperCase()}` : key, text, modifiers,
      windowsVirtualKeyCode: code, commands });
    await this.send('Input.dispatchKeyEvent',
      { type: 'keyUp', key, modifiers, windowsVirtualKeyCode: code });
  }
}
