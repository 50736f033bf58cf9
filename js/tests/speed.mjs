// node js/tests/speed.mjs [COUNT [ROUNDS]]: measures the package beside Date.parse and a regular expression. Each row is the least of the rounds, in
// nanoseconds for one text, and the ratio to Date.parse. Each round has all rows, so a busy machine is busy for all of them. The texts are made before the
// clock runs, and are flat strings, so that no row pays for their making.
import process from 'node:process';
import { isValid, parse, validateLines } from '../node.mjs';

const count = Number(process.argv[2] ?? 1_000_000);
const rounds = Number(process.argv[3] ?? 5);
const pad = (number) => String(number).padStart(2, '0');
const flat = (text) => Buffer.from(text, 'latin1').toString('latin1');
const texts = Array.from({ length: count }, (_, i) => flat(
  `2024-${pad(i % 12 + 1)}-${pad(i % 28 + 1)}T${pad(i % 24)}:${pad(i % 60)}:${pad(i % 59)}-05:00`));
const bracketed = texts.map((text) => flat(`${text}[America/New_York][u-ca=hebrew]`));
const lines = new TextEncoder().encode(texts.join('\n'));
// RFC 3339 without the length of the months.
const pattern = /^\d{4}-(?:0[1-9]|1[0-2])-(?:0[1-9]|[12]\d|3[01])[Tt](?:[01]\d|2[0-3]):[0-5]\d:(?:[0-5]\d|60)(?:\.\d+)?(?:[Zz]|[+-](?:[01]\d|2[0-3]):[0-5]\d)$/;

/** The nanoseconds for one text. `step` returns how many texts it accepts. */
function measured(name, step) {
  const begin = process.hrtime.bigint();
  const accepted = step();
  const nanoseconds = Number(process.hrtime.bigint() - begin);
  if (accepted !== count) throw new Error(`${name}: ${accepted} of ${count} texts are accepted`);
  return nanoseconds / count;
}

function counted(list, accepts) {
  return () => {
    let accepted = 0;
    for (let i = 0; i < list.length; i++) if (accepts(list[i])) accepted++;
    return accepted;
  };
}

const rows = [
  ['`Date.parse`', counted(texts, (text) => !Number.isNaN(Date.parse(text)))],
  ['a regular expression of RFC 3339', counted(texts, (text) => pattern.test(text))],
  ["`isValid(text, 'rfc3339')`", counted(texts, (text) => isValid(text, 'rfc3339'))],
  ['`isValid(text)`', counted(texts, (text) => isValid(text))],
  ['`parse(text)`', counted(texts, (text) => parse(text).time !== null)],
  ['`validateLines(bytes)`', () => { const { lines: all, refused } = validateLines(lines); return all - refused.length; }],
  ['`isValid(text)`, with zone and calendar', counted(bracketed, (text) => isValid(text))],
  ['`parse(text)`, with zone and calendar', counted(bracketed, (text) => parse(text).calendar !== null)],
];
const least = rows.map(() => Infinity);
for (let round = 0; round < rounds; round++) rows.forEach(([name, step], i) => { least[i] = Math.min(least[i], measured(name, step)); });
console.log('| Call | ns | Ratio to `Date.parse` |\n|---|---|---|');
rows.forEach(([name], i) => console.log(`| ${name} | ${least[i].toFixed(0)} | ${(least[i] / least[0]).toFixed(2)} |`));
