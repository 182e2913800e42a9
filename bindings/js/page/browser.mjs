// A headless Chromium, driven over a pipe, without a package.

import { spawn } from 'node:child_process';
import { mkdtempSync, rmSync, writeFileSync } from 'node:fs';
import { tmpdir } from 'node:os';
import { join } from 'node:path';
import { setTimeout } from 'node:timers/promises';

const FLAGS = ['--headless=new', '--no-sandbox', '--disable-gpu', '--disable-dev-shm-usage', '--no-first-run', '--remote-debugging-pipe'];

const KEY_CODES = { Tab: 9, Enter: 13, ' ': 32, ArrowRight: 39, ArrowDown: 40 };

export class Browser {
  #process;
  #profile = mkdtempSync(join(tmpdir(), 'chromium-'));
  #waiting = new Map();
  #received = '';
  #session;
  #last = 0;

  /** The requests for network that the page made. */
  requests = [];
  /** The errors that the page threw or that stand in its console. */
  errors = [];

  static async open(page) {
    const browser = new Browser();
    await browser.#start(page);
    return browser;
  }

  async #start(page) {
    const stdio = ['ignore', 'ignore', 'ignore', 'pipe', 'pipe'];
    this.#process = spawn('chromium', [...FLAGS, `--user-data-dir=${this.#profile}`, 'about:blank'], { stdio });
    this.#process.stdio[4].on('data', (data) => this.#receive(String(data)));
    const { targetId } = await this.#send('Target.createTarget', { url: 'about:blank' });
    const { sessionId } = await this.#send('Target.attachToTarget', { targetId, flatten: true });
    this.#session = sessionId;
    for (const domain of ['Page', 'Runtime', 'Network', 'Log']) await this.#send(`${domain}.enable`);
    await this.size(1000, 900);
    await this.visit(page);
  }

  /** Loads a page, also where only its fragment differs from the last one's. */
  async visit(page) {
    for (const url of ['about:blank', page]) {
      const loaded = new Promise((resolve) => this.#waiting.set('Page.loadEventFired', { resolve }));
      await this.#send('Page.navigate', { url });
      await loaded;
    }
  }

  #send(method, params = {}) {
    const id = ++this.#last;
    const message = { id, method, params, ...(this.#session && { sessionId: this.#session }) };
    this.#process.stdio[3].write(`${JSON.stringify(message)}\0`);
    return new Promise((resolve, reject) => this.#waiting.set(id, { resolve, reject }));
  }

  #receive(data) {
    const messages = (this.#received + data).split('\0');
    this.#received = messages.pop();
    for (const message of messages.map((it) => JSON.parse(it))) this.#handle(message);
  }

  #handle({ id, method, params, result, error }) {
    if (method === 'Network.requestWillBeSent') this.requests.push(params.request.url);
    if (method === 'Runtime.exceptionThrown') this.errors.push(params.exceptionDetails.exception?.description);
    if (method === 'Log.entryAdded') this.errors.push(params.entry.text);
    if (method === 'Runtime.consoleAPICalled' && params.type === 'error') this.errors.push(JSON.stringify(params.args));
    const waiting = this.#waiting.get(id ?? method);
    this.#waiting.delete(id ?? method);
    if (error) waiting?.reject(new Error(error.message));
    else waiting?.resolve(result);
  }

  /** The value of an expression in the page. */
  async evaluate(expression) {
    const { result, exceptionDetails } = await this.#send('Runtime.evaluate', { expression, returnByValue: true, awaitPromise: true });
    if (exceptionDetails) throw new Error(exceptionDetails.exception?.description);
    return result.value;
  }

  /** Types a text into the element that has the focus. */
  async type(text) {
    await this.#send('Input.insertText', { text });
  }

  async press(key, code = key, modifiers = 0) {
    const typed = { ' ': ' ', Enter: '\r' }[key];
    const keys = { key, code, modifiers, windowsVirtualKeyCode: KEY_CODES[key] ?? 0, text: typed };
    await this.#send('Input.dispatchKeyEvent', { type: 'keyDown', ...keys });
    await this.#send('Input.dispatchKeyEvent', { type: 'keyUp', ...keys });
  }

  async size(width, height) {
    await this.#send('Emulation.setDeviceMetricsOverride', { width, height, deviceScaleFactor: 1, mobile: false });
  }

  async colors(scheme) {
    await this.#send('Emulation.setEmulatedMedia', { features: [{ name: 'prefers-color-scheme', value: scheme }] });
  }

  /** What a screen reader is given: the role, name and description of each node. */
  async accessible() {
    const { nodes } = await this.#send('Accessibility.getFullAXTree');
    const value = (it) => it?.value ?? '';
    return nodes.filter(({ ignored }) => !ignored).map(({ role, name, description }) => [value(role), value(name), value(description)]);
  }

  async screenshot(file) {
    const { data } = await this.#send('Page.captureScreenshot', { format: 'png', captureBeyondViewport: true });
    writeFileSync(file, Buffer.from(data, 'base64'));
  }

  async close() {
    const ended = new Promise((resolve) => this.#process.once('exit', resolve));
    this.#session = undefined;
    this.#send('Browser.close');
    await ended;
    await this.#removeProfile();
  }

  /** What the browser started may write to its profile for a moment longer. */
  async #removeProfile(tries = 50) {
    for (;;) {
      try {
        rmSync(this.#profile, { recursive: true, force: true });
        return;
      } catch (error) {
        if (--tries === 0) throw error;
        await setTimeout(100);
      }
    }
  }
}
