// Runs the examples of docs/JAVASCRIPT.md and js/README.md, and the example of a service. In an example, `EXPRESSION; // VALUE` has this value, as
// `util.inspect` writes it, and `EXPRESSION; // throws NAME: MESSAGE` throws this error.
import assert from 'node:assert/strict';
import { mkdirSync, mkdtempSync, readFileSync, rmSync, symlinkSync, copyFileSync } from 'node:fs';
import { tmpdir } from 'node:os';
import { join } from 'node:path';
import { fileURLToPath, pathToFileURL } from 'node:url';
import { inspect } from 'node:util';
import * as ixdtf from '../node.mjs';

const PAGES = ['../../docs/JAVASCRIPT.md', '../README.md'];
const shown = (it) => inspect(it, { breakLength: Infinity, depth: null, compact: true });

/** The examples of a page: the lines of each block, with the number of its first line. */
function* blocks(path) {
  const text = readFileSync(new URL(path, import.meta.url), 'utf8');
  for (const { 1: block, index } of text.matchAll(/^```js\n(.*?)^```/gms)) yield { lines: block.trimEnd().split('\n'), first: text.slice(0, index).split('\n').length + 1 };
}

/** A block as a function. It calls `expect` for each line with a value. */
function compiled(lines) {
  const body = lines.map((line, i) => {
    const found = /^(?!const )(.+); \/\/ (.+)$/.exec(line);
    return found ? `expect(${i}, () => (${found[1]}), ${JSON.stringify(found[2])});` : line.startsWith('import ') ? '' : line;
  });
  return new Function('expect', ...Object.keys(ixdtf), body.join('\n'));
}

function meets(step, expected) {
  if (!expected.startsWith('throws ')) return assert.equal(shown(step()), expected);
  try {
    step();
  } catch (error) {
    return assert.equal(`throws ${error.name}: ${error.message}`, expected);
  }
  return assert.fail(`expected: ${expected}`);
}

async function service(check) {
  const folder = mkdtempSync(join(tmpdir(), 'ixdtf-service-'));
  try {
    mkdirSync(join(folder, 'node_modules'));
    symlinkSync(fileURLToPath(new URL('..', import.meta.url)), join(folder, 'node_modules', 'ixdtf'));
    copyFileSync(new URL('../examples/service.mjs', import.meta.url), join(folder, 'service.mjs'));
    const { service: server } = await import(pathToFileURL(join(folder, 'service.mjs')));
    await new Promise((resolve) => { server.listen(0, '127.0.0.1', resolve); });
    const send = async (body) => {
      const response = await fetch(`http://127.0.0.1:${server.address().port}`, { method: 'POST', body });
      return [response.status, await response.json()];
    };
    await check('the service accepts and refuses requests', async () => {
      assert.deepEqual(await send('{ "due": "2024-03-02T08:48:00Z" }'), [200, { date: { year: 2024, month: 3, day: 2 } }]);
      const message = 'the month is 13, and has to be 01 to 12';
      assert.deepEqual(await send('{ "due": "2024-13-02T08:48:00Z" }'), [400, { field: 'due', message, report: `${message}\n2024-13-02T08:48:00Z\n     ^^` }]);
      assert.deepEqual((await send('{ "due": 5 }'))[0], 400);
      assert.deepEqual((await send('due'))[0], 400);
    });
    server.close();
    server.closeAllConnections();
  } finally {
    rmSync(folder, { recursive: true, force: true });
  }
}

export async function run(check) {
  for (const path of PAGES) {
    for (const { lines, first } of blocks(path)) {
      compiled(lines)((i, step, expected) => check(`${path.replaceAll('../', '')}:${first + i}`, () => meets(step, expected)), ...Object.values(ixdtf));
    }
  }
  await service(check);
}
