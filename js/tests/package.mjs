// npm pack, and an import of the packed files from an empty folder.
import assert from 'node:assert/strict';
import { spawnSync } from 'node:child_process';
import { mkdirSync, mkdtempSync, readdirSync, readFileSync, rmSync, writeFileSync } from 'node:fs';
import { tmpdir } from 'node:os';
import { join } from 'node:path';
import { fileURLToPath } from 'node:url';

const HERE = fileURLToPath(new URL('..', import.meta.url));
const FILES = ['LICENSE', 'README.md', 'index.d.ts', 'ixdtf.mjs', 'ixdtf.wasm', 'ixdtf.wasm.json', 'node.mjs', 'package.json', 'src/errors.mjs', 'src/handling.mjs',
  'src/kinds.mjs', 'src/library.mjs', 'src/temporal.mjs', 'src/values.mjs'];
const PROGRAM = `
import { IxdtfError, isValid, parse } from 'ixdtf';
import about from 'ixdtf/package.json' with { type: 'json' };
if (parse('2024-03-02').date.day !== 2 || isValid('2024-02-30') || about.name !== 'ixdtf') throw new Error('wrong');
console.log('read');
`;

function output(command, words, options) {
  const { stdout, stderr, status, error } = spawnSync(command, words, { encoding: 'utf8', ...options });
  if (error || status !== 0) throw error ?? new Error(`${command} ended with status ${status}: ${stderr}`);
  return stdout;
}

export function run(check) {
  const folder = mkdtempSync(join(tmpdir(), 'ixdtf-package-'));
  const env = { ...process.env, npm_config_offline: 'true', npm_config_cache: join(folder, 'cache'), npm_config_update_notifier: 'false' };
  try {
    if (spawnSync('npm', ['--version'], { env }).error) return void console.log('left out: npm pack, because npm is not installed (Debian: npm)');
    check('npm pack has the files of the package, and no other', () => {
      const [{ files }] = JSON.parse(output('npm', ['pack', '--json', '--pack-destination', folder], { cwd: HERE, env }));
      assert.deepEqual(files.map((it) => it.path).sort(), [...FILES].sort());
    });
    check('the packed files can be imported from an empty folder', () => {
      const place = join(folder, 'empty', 'node_modules', 'ixdtf');
      mkdirSync(place, { recursive: true });
      const [packed] = readdirSync(folder).filter((it) => it.endsWith('.tgz'));
      output('tar', ['-xzf', join(folder, packed), '-C', place, '--strip-components=1']);
      writeFileSync(join(folder, 'empty', 'program.mjs'), PROGRAM);
      assert.equal(output(process.execPath, ['--no-warnings', 'program.mjs'], { cwd: join(folder, 'empty') }), 'read\n');
    });
    check('npm installs the packed file without a network', () => {
      const place = join(folder, 'installed');
      mkdirSync(place);
      writeFileSync(join(place, 'package.json'), '{ "type": "module" }');
      const [packed] = readdirSync(folder).filter((it) => it.endsWith('.tgz'));
      output('npm', ['install', '--no-audit', '--no-fund', join(folder, packed)], { cwd: place, env });
      assert.equal(output(process.execPath, ['--input-type=module', '--eval', "import { canonical } from 'ixdtf'; console.log(canonical('20240302'))"], { cwd: place }), '2024-03-02\n');
    });
    check('package.json has no dependency, and names files that exist', () => {
      const about = JSON.parse(readFileSync(join(HERE, 'package.json'), 'utf8'));
      for (const name of ['dependencies', 'devDependencies', 'peerDependencies', 'scripts']) assert.equal(about[name], undefined);
      for (const path of [about.types, about.main, ...Object.values(about.exports['.'])]) readFileSync(join(HERE, path));
    });
  } finally {
    rmSync(folder, { recursive: true, force: true });
  }
}
