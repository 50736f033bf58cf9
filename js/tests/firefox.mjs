// Opens js/page in a headless Firefox, types texts into it, and reads what the page shows.
import assert from 'node:assert/strict';
import { spawn, spawnSync } from 'node:child_process';
import { mkdtempSync, rmSync } from 'node:fs';
import { tmpdir } from 'node:os';
import { join } from 'node:path';
import { fileURLToPath } from 'node:url';
import { SHOWN, TEXTS, compare } from './page_texts.mjs';
import { serve } from './serve.mjs';

const PATIENCE_MILLISECONDS = 120_000;
const NAMES = ['firefox-esr', 'firefox'];

export async function run(check) {
  const name = NAMES.find((it) => !spawnSync(it, ['--version']).error);
  if (name === undefined) return console.log('left out: the page in Firefox, because it is not installed (Debian: firefox-esr)');
  const profile = mkdtempSync(join(tmpdir(), 'ixdtf-firefox-'));
  let answer;
  const answered = new Promise((resolve, reject) => {
    answer = resolve;
    setTimeout(() => reject(new Error('no answer of Firefox')), PATIENCE_MILLISECONDS).unref();
  });
  const server = await serve(fileURLToPath(new URL('..', import.meta.url)), (body) => answer(JSON.parse(body)));
  const hash = encodeURIComponent(JSON.stringify({ texts: TEXTS.map(([kind, text]) => [kind, text]), shown: SHOWN }));
  const url = `http://127.0.0.1:${server.address().port}/tests/driver.html#${hash}`;
  const browser = spawn(name, ['--headless', '--no-remote', '--profile', profile, url], { stdio: 'ignore' });
  const ended = new Promise((resolve) => { browser.once('exit', resolve); });
  try {
    const shown = await answered;
    check('Firefox opens the page', () => assert.equal(shown.error, undefined));
    TEXTS.forEach(([kind, text, expected], i) => check(`the page reads ${text} in Firefox`, () => compare(shown.answers[i], kind, expected)));
  } finally {
    browser.kill();
    await ended;
    server.close();
    server.closeAllConnections();
    rmSync(profile, { recursive: true, force: true, maxRetries: 10, retryDelay: 300 });
  }
}
