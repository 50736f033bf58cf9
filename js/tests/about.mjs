// The module is the one that js/ixdtf.wasm.json describes. Says how many of its sources have changed since the commit that this file names.
import assert from 'node:assert/strict';
import { spawnSync } from 'node:child_process';
import { createHash } from 'node:crypto';
import { existsSync, readFileSync } from 'node:fs';
import { fileURLToPath } from 'node:url';

const TOP = fileURLToPath(new URL('../..', import.meta.url));
const read = (path) => readFileSync(new URL(path, import.meta.url));

/** The folders with the sources of a crate and of the crates below it. */
function sources(crate, uses, found = new Map()) {
  if (!found.has(crate)) {
    found.set(crate, ['src', 'specs', 'proofs'].map((part) => `crates/${crate}/${part}`).filter((path) => existsSync(`${TOP}${path}`)));
    for (const other of uses.get(crate)) sources(other, uses, found);
  }
  return [...found.values()].flat();
}

function git(...words) {
  const { stdout, status, error } = spawnSync('git', words, { cwd: TOP, encoding: 'utf8' });
  return error || status !== 0 ? null : stdout.split('\n').filter(Boolean);
}

export function run(check) {
  const about = JSON.parse(read('../ixdtf.wasm.json'));
  check('the digest of the module', () => {
    const module = read('../ixdtf.wasm');
    assert.equal(createHash('sha256').update(module).digest('hex'), about.sha256);
    assert.equal(module.length, about.bytes);
  });
  const uses = new Map(read('../../crates.txt').toString().trim().split('\n').map((line) => {
    const [name, below] = line.split(':');
    return [name.split(' ')[0], below.trim().split(' ').filter(Boolean)];
  }));
  const changed = git('diff', '--name-only', about.commit, '--', ...sources('ixdtf_c', uses));
  if (changed === null) console.log(`left out: the sources that have changed, because git does not know the commit ${about.commit}`);
  else console.log(`${changed.length} sources of the module have changed since the commit ${about.commit}${changed.length > 0 ? '; js/build makes it anew' : ''}`);
}
