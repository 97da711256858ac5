// Firefox without a window, over Marionette: messages with their length before them, on a socket.
import { existsSync, mkdirSync, readFileSync, writeFileSync } from 'fs';
import { connect } from 'net';
import { join } from 'path';
import { Hand, soon } from './hand.mjs';
import { longest_hold } from './holds.mjs';

const WORDS = ['--headless', '--no-remote', '--marionette', '--remote-allow-system-access'];
// (a file of its own says which port it took)
const SETTINGS = {
  'marionette.port': 0, 'browser.shell.checkDefaultBrowser': false,
  'browser.startup.homepage_override.mstone': 'ignore', 'app.normandy.enabled': false,
  'datareporting.policy.dataSubmissionEnabled': false,
  'network.captive-portal-service.enabled': false, 'network.connectivity-service.enabled': false,
  'browser.download.folderList': 2, 'browser.download.useDownloadDir': true,
  'browser.download.alwaysOpenPanel': false, 'dom.w3c_touch_events.enabled': 1,
};
// The keys that are no letters, as WebDriver has them.
const KEYS = { Backspace: '\ue003', Tab: '\ue004', Enter: '\ue007', Escape: '\ue00c',
  End: '\ue010', Home: '\ue011', ArrowLeft: '\ue012', ArrowUp: '\ue013', ArrowRight: '\ue014',
  ArrowDown: '\ue015' };
const HELD = { shift: '\ue008', ctrl: '\ue009', alt: '\ue00a' };
const STEPS = { move: 'pointerMove', drag: 'pointerMove', down: 'pointerDown', up: 'pointerUp' };

export class Firefox extends Hand {
  async start(program) {
    this.heard = Buffer.alloc(0);
    const profile = join(this.room, 'profile'), port = join(profile, 'MarionetteActivePort');
    mkdirSync(profile);
    const settings = { ...SETTINGS, 'browser.download.dir': this.room };
    writeFileSync(join(profile, 'user.js'), Object.entries(settings)
      .map(two => `user_pref(${two.map(it => JSON.stringify(it)).join(', ')});\n`).join(''));
    this.spawn(program, [...WORDS, '--profile', profile],
      { stdio: 'ignore', env: { ...process.env, HOME: this.room } });
    for (let tries = 0; tries < 600 && !existsSync(port); tries++) await soon(100);
    await this.connected(Number(readFileSync(port, 'utf8')));
    const capabilities = { acceptInsecureCerts: false };
    await this.send('WebDriver:NewSession', { capabilities: { alwaysMatch: capabilities } });
    await this.send('WebDriver:SetTimeouts', { script: 120000 });
  }
  connected(port) {
    this.socket = connect(port, '127.0.0.1');
    this.socket.on('data', data => this.hear(data));
    for (const it of ['error', 'close']) this.socket.on(it, () => this.process.kill());
    return this.answer_to('greeting');
  }
  // `LENGTH:[1, NUMBER, ERROR, RESULT]`; the first message greets.
  hear(data) {
    this.heard = Buffer.concat([this.heard, data]);
    for (;;) {
      const colon = this.heard.indexOf(':'), end = colon + 1 + parseInt(this.heard);
      if (colon < 0 || this.heard.length < end) return;
      const said = JSON.parse(this.heard.subarray(colon + 1, end));
      this.heard = this.heard.subarray(end);
      const [, id, error, result] = Array.isArray(said) ? said : [1, 'greeting'];
      this.answer(id, error && `${error.error}: ${error.message}`,
        result && 'value' in result ? result.value : result);
    }
  }
  send(command, parameters = {}) {
    const id = ++this.number, answer = this.answer_to(id);
    const text = JSON.stringify([0, id, command, parameters]);
    this.socket.write(`${Buffer.byteLength(text)}:${text}`);
    return answer;
  }

  evaluate(expression) {
    return this.send('WebDriver:ExecuteScript', { script: `return (${expression})`, args: [] });
  }
  navigate(url) {
    return this.send('WebDriver:Navigate', { url });
  }
  // How long the page is held up at most while something is done.
  async longest_hold(act) {
    await this.send('Marionette:SetContext', { value: 'chrome' });
    const process =
      await this.evaluate('gBrowser.selectedBrowser.frameLoader.remoteTab.osPid');
    await this.send('Marionette:SetContext', { value: 'content' });
    return longest_hold(this, process, act);
  }
  // So much room for a page, which may have less than the narrowest window, and its colours.
  async looks(width, height, scheme) {
    const [more, above] = await this.evaluate(
      '[outerWidth - innerWidth, outerHeight - innerHeight]');
    await this.send('WebDriver:SetWindowRect', { width: width + more, height: height + above });
    await this.send('Marionette:SetContext', { value: 'chrome' });
    await this.evaluate(`(gBrowser.selectedBrowser.style.maxWidth = '${width}px',
      Services.prefs.setIntPref('layout.css.prefers-color-scheme.content-override',
        ${scheme === 'dark' ? 0 : 1}))`);
    await this.send('Marionette:SetContext', { value: 'content' });
  }
  async picture(file, is_whole) {
    const data = await this.send('WebDriver:TakeScreenshot', { full: !!is_whole });
    writeFileSync(file, Buffer.from(data, 'base64'));
  }

  pointer(kind, [x, y], pointerType) {
    const step = { type: STEPS[kind], button: 0 };
    if (step.type === 'pointerMove') Object.assign(step, { x: Math.round(x), y: Math.round(y),
      duration: 0, origin: 'viewport' });
    return { type: 'pointer', id: pointerType, parameters: { pointerType }, actions: [step] };
  }
  act(actions) {
    return this.send('WebDriver:PerformActions', { actions: [actions] });
  }
  async mouse(kind, at) {
    if (kind === 'up') await this.act(this.pointer('move', at, 'mouse'));
    await this.act(this.pointer(kind, at, 'mouse'));
  }
  async finger(kind, at) {
    if (kind === 'down') await this.act(this.pointer('move', at, 'touch'));
    await this.act(this.pointer(kind, at, 'touch'));
  }
  async has_fingers() {}
  async give_file(selector, path) {
    const [found] = Object.values(await this.send('WebDriver:FindElement',
      { using: 'css selector', value: selector }));
    await this.send('WebDriver:ElementSendKeys', { id: found, text: path });
  }
  async press(key, held = {}) {
    const value = KEYS[key] ?? key, others = Object.keys(HELD).filter(it => held[it])
      .map(it => HELD[it]);
    const down = [...others, value].map(value => ({ type: 'keyDown', value }));
    const up = [value, ...others].map(value => ({ type: 'keyUp', value }));
    await this.act({ type: 'key', id: 'keys', actions: [...down, ...up] });
  }
}
