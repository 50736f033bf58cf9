// Checks the types of the package with tsc: tests/typed.ts compiles, and each line with `// wrong` does not.
import assert from 'node:assert/strict';
import { spawnSync } from 'node:child_process';
import { mkdirSync, mkdtempSync, readFileSync, rmSync, symlinkSync, writeFileSync } from 'node:fs';
import { tmpdir } from 'node:os';
import { join } from 'node:path';
import { fileURLToPath } from 'node:url';

const HERE = fileURLToPath(new URL('..', import.meta.url));
const TYPED = readFileSync(new URL('./typed.ts', import.meta.url), 'utf8');
const MARK = '// wrong';

/** The lines of a program in which tsc finds an error. */
function wrongLines(folder, program) {
  writeFileSync(join(folder, 'typed.mts'), program);
  const { stdout, error } = spawnSync('tsc', ['--strict', '--noEmit', '--target', 'es2020', '--lib', 'es2022,dom', '--module', 'node16', '--moduleResolution', 'node16', 'typed.mts'], { cwd: folder, encoding: 'utf8' });
  if (error) throw error;
  const found = stdout.split('\n').filter((line) => / error /.test(line));
  const lines = found.map((line) => Number(/^typed\.mts\((\d+),/.exec(line)?.[1] ?? assert.fail(line)));
  return [[...new Set(lines)], found];
}

export function run(check) {
  if (spawnSync('tsc', ['--version']).error) return void console.log('left out: the types, because tsc is not installed (Debian: node-typescript)');
  const folder = mkdtempSync(join(tmpdir(), 'ixdtf-types-'));
  try {
    mkdirSync(join(folder, 'node_modules'));
    symlinkSync(HERE, join(folder, 'node_modules', 'ixdtf'));
    const lines = TYPED.split('\n');
    const wrong = lines.flatMap((line, i) => (line.endsWith(MARK) ? [i + 1] : []));
    check('tsc accepts the right lines of typed.ts', () => {
      const [found, messages] = wrongLines(folder, lines.map((line) => (line.endsWith(MARK) ? '' : line)).join('\n'));
      assert.deepEqual(found, [], messages.join('\n'));
    });
    check('tsc refuses each wrong line of typed.ts', () => assert.deepEqual(wrongLines(folder, TYPED)[0], wrong));
  } finally {
    rmSync(folder, { recursive: true, force: true });
  }
}
