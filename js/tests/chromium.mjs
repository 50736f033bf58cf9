// A headless Chromium that a test drives by the DevTools protocol, over a pipe.
import { spawn, spawnSync } from 'node:child_process';
import { mkdtempSync, rmSync } from 'node:fs';
import { tmpdir } from 'node:os';
import { join } from 'node:path';

const PATIENCE_MILLISECONDS = 120_000;

/** Whether there is a Chromium to run. */
export const isThere = () => !spawnSync('chromium', ['--version']).error;

/** A browser with one page. */
export class Chromium {
  #browser;
  #profile = mkdtempSync(join(tmpdir(), 'ixdtf-chromium-'));
  #waiting = new Map();
  #next = 1;
  #session;
  #rest = '';
  /** The errors that the page has thrown or logged. */
  errors = [];

  constructor() {
    this.#browser = spawn('chromium', ['--headless', '--no-sandbox', '--disable-gpu', '--disable-dev-shm-usage', '--remote-debugging-pipe', `--user-data-dir=${this.#profile}`],
      { stdio: ['ignore', 'ignore', 'ignore', 'pipe', 'pipe'] });
    this.#browser.stdio[4].setEncoding('utf8').on('data', (data) => this.#take(data));
  }

  #take(data) {
    const messages = (this.#rest + data).split('\0');
    this.#rest = messages.pop();
    for (const message of messages.map((it) => JSON.parse(it))) {
      const waiting = this.#waiting.get(message.id);
      this.#waiting.delete(message.id);
      if (waiting && message.error) waiting.reject(new Error(message.error.message));
      else if (waiting) waiting.resolve(message.result);
      else if (message.method === 'Runtime.exceptionThrown') this.errors.push(message.params.exceptionDetails.exception?.description ?? message.params.exceptionDetails.text);
      else if (message.method === 'Log.entryAdded' && message.params.entry.level === 'error') this.errors.push(`${message.params.entry.text} ${message.params.entry.url ?? ''}`);
    }
  }

  /** Sends a command of the protocol, and resolves to its result. */
  send(method, params = {}) {
    const id = this.#next++;
    const late = new Promise((_, reject) => { setTimeout(() => reject(new Error(`${method}: no answer`)), PATIENCE_MILLISECONDS).unref(); });
    const answer = new Promise((resolve, reject) => { this.#waiting.set(id, { resolve, reject }); });
    this.#browser.stdio[3].write(`${JSON.stringify({ id, method, params, sessionId: this.#session })}\0`);
    return Promise.race([answer, late]);
  }

  async open(url) {
    const { targetId } = await this.send('Target.createTarget', { url: 'about:blank' });
    this.#session = (await this.send('Target.attachToTarget', { targetId, flatten: true })).sessionId;
    for (const domain of ['Page', 'Runtime', 'Log', 'Accessibility']) await this.send(`${domain}.enable`);
    await this.go(url);
  }

  async go(url) {
    await this.send('Page.navigate', { url });
  }

  /** The value of an expression in the page. */
  async value(expression) {
    const { result, exceptionDetails } = await this.send('Runtime.evaluate', { expression, returnByValue: true, awaitPromise: true });
    if (exceptionDetails) throw new Error(exceptionDetails.exception?.description ?? exceptionDetails.text);
    return result.value;
  }

  /** Waits until an expression in the page is true. */
  async until(expression) {
    const end = Date.now() + PATIENCE_MILLISECONDS;
    while (!await this.value(expression).catch(() => false)) {
      if (Date.now() > end) throw new Error(`never true: ${expression}`);
      await new Promise((resolve) => { setTimeout(resolve, 50); });
    }
  }

  async press(key) {
    for (const type of ['keyDown', 'keyUp']) await this.send('Input.dispatchKeyEvent', { type, ...key });
  }

  async close() {
    const ended = new Promise((resolve) => { this.#browser.once('exit', resolve); });
    await this.send('Browser.close').catch(() => this.#browser.kill());
    await ended;
    rmSync(this.#profile, { recursive: true, force: true, maxRetries: 10, retryDelay: 300 });
  }
}
