// A million calls, of accepted and of refused texts, with and without a handler that throws. The memory does not grow.
import assert from 'node:assert/strict';
import { setFlagsFromString } from 'node:v8';
import { runInNewContext } from 'node:vm';
import { canonical, explain, instant, isValid, parse, validateLines } from '../node.mjs';

const CALLS = 1_000_000;
const ALLOWED = 2 ** 20; // bytes
setFlagsFromString('--expose-gc');
const collect = runInNewContext('gc');

function refused(call) {
  try {
    call();
  } catch {
    return;
  }
  throw new Error('the call did not throw');
}

const stop = new Error('stop');
const throwing = { onAnnotation() { throw stop; } };
const dropping = { onAnnotation: () => null };
const keeping = { onAnnotation: (it) => it };
const text = '2024-03-02T08:48:00.25-05:00[America/New_York][u-ca=hebrew][!u-ca=hebrew]';
const value = parse(text);
const lines = new TextEncoder().encode('2024-03-02\n2024-13-02\n');
const STEPS = [
  () => isValid(text), () => isValid('2024-13-02'), () => isValid('2024-03-02é'), () => parse(text), () => refused(() => parse('2024-3-02')),
  () => refused(() => parse('2024-03-02é')), () => explain('2024-13-02'), () => parse(text, keeping), () => parse(text, dropping),
  () => refused(() => parse(text, throwing)), () => refused(() => parse('2024-03-02[!a=b]', keeping)), () => canonical(text), () => canonical(value),
  () => instant(text), () => parse('P1DT1.5H', 'duration'), () => validateLines(lines), () => refused(() => parse(null)), () => refused(() => canonical({})),
  () => parse(`2024-03-02${'[a=b]'.repeat(40)}`, keeping),
];

/** The bytes in use after a collection. */
function used() {
  collect();
  collect();
  const { heapUsed, external, arrayBuffers } = process.memoryUsage();
  return { heapUsed, external, arrayBuffers };
}

export function run(check) {
  const step = (calls) => { for (let i = 0; i < calls; i++) STEPS[i % STEPS.length](); };
  step(100_000);
  const before = used();
  step(CALLS);
  const after = used();
  for (const kind of Object.keys(before)) {
    check(`${CALLS} calls: ${kind}`, () => assert.ok(after[kind] - before[kind] < ALLOWED, `${before[kind]} bytes before, and ${after[kind]} after`));
  }
}
