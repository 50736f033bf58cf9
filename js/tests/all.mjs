// Runs the parts of the tests that the arguments name, or all. js/test describes them.
import process from 'node:process';

const PARTS = ['about', 'rows', 'functions', 'pages', 'generated', 'types', 'package', 'leaks', 'page', 'firefox'];
const wanted = process.argv.slice(2);
const unknown = wanted.filter((name) => !PARTS.includes(name));
if (unknown.length > 0) {
  console.error(`js/test: no part ${unknown.join(', ')}; the parts are ${PARTS.join(', ')}`);
  process.exit(2);
}

const total = { passed: 0, failed: 0 };
for (const name of PARTS) {
  if (wanted.length > 0 && !wanted.includes(name)) continue;
  const found = { passed: 0, failed: 0 };
  const waiting = [];
  const failed = (what, error) => {
    found.failed++;
    if (found.failed <= 20) console.log(`FAILED ${name}: ${what}\n    ${String(error?.stack ?? error).replaceAll('\n', '\n    ')}`);
  };
  // A check fails if its function throws, or returns a promise that is rejected.
  const check = (what, step) => {
    try {
      const result = step();
      if (!(result instanceof Promise)) return void found.passed++;
      waiting.push(result.then(() => { found.passed++; }, (error) => failed(what, error)));
      return result.catch(() => {});
    } catch (error) {
      return failed(what, error);
    }
  };
  try {
    const { run } = await import(`./${name}.mjs`);
    await run(check);
    await Promise.all(waiting);
  } catch (error) {
    failed('the part stopped', error);
  }
  total.passed += found.passed;
  total.failed += found.failed;
  console.log(found.failed > 0 ? `${name}: ${found.failed} of ${found.passed + found.failed} checks failed` : `${name}: ${found.passed} checks`);
}
console.log(`${total.passed} passed, ${total.failed} failed`);
process.exitCode = total.failed > 0 ? 1 : 0;
