// Compares the package with the program ixdtf_lines, which cargo builds from rust/ixdtf_lines: 100,000 texts, made from the accepted texts of a list and
// from the texts of the tables by changes of a few characters. The seed is fixed, so each run asks about the same texts.
import { spawnSync } from 'node:child_process';
import { mkdtempSync, readFileSync, rmSync } from 'node:fs';
import { tmpdir } from 'node:os';
import { join } from 'node:path';
import { fileURLToPath } from 'node:url';
import { canonical, explain, instant, isValid, parse } from '../node.mjs';
import { fieldsOf, instantOf, optionsOf } from './answers.mjs';
import { cases } from './tables.mjs';

const COUNT = 100_000;
const WORDS = ['parse', 'year-month', 'month-day', 'time', 'rfc3339', 'rfc9557', 'offset', 'zone', 'zone-name', 'duration', 'strict-month-day', 'strict-time', 'strict-duration'];
const PRINTED = { parse: 'canonical', 'year-month': 'canonical-year-month', 'month-day': 'canonical-month-day', time: 'canonical-time', offset: 'canonical-offset',
  zone: 'canonical-zone', duration: 'canonical-duration' };
const SEEDS = ['2024-03-02T08:48:00.25-05:00[America/New_York][u-ca=hebrew]', '20200229', '+002020-04-30 00:59Z[!Etc/GMT-14]', '1969-12-31T23:59:60.123456789+00:00',
  '2020-11[u-ca=iso8601]', '--12-31', '1230[UTC]', 'T12:30:45,5+01:00', '-05:30:15.5', 'Europe/Berlin', '+0530', '-P1Y2M3W4DT5H6M7.5S', 'PT36H0.25M',
  '2024-03-02T08:48:00Z[UTC][k=v][!u-ca=gregory]', '-000001-02-28T24:00'];
const ALPHABET = '0123456789-+:.,TtZzPpYyMmWwDdHhSs[]!=/_ abu-caAé\u{1f600}';

/** Numbers from 0 to 2^32 - 1 (xorshift). */
function generator(seed) {
  let state = seed;
  return () => {
    state ^= state << 13; state ^= state >>> 17; state ^= state << 5;
    return state >>> 0;
  };
}

function changed(text, random) {
  const units = [...text];
  for (let changes = random() % 4; changes > 0; changes--) {
    const at = random() % (units.length + 1), letter = [...ALPHABET][random() % [...ALPHABET].length];
    const kind = random() % 4;
    if (kind === 0) units.splice(at, 1);
    else if (kind === 1) units.splice(at, 0, letter);
    else if (kind === 2) units.splice(at, 1, letter);
    else units.splice(at, 0, ...units.slice(at, at + random() % 8));
  }
  return units.join('');
}

function* requests() {
  const random = generator(0x9e3779b9);
  const table = cases().map(({ text }) => text).filter((text) => !/[\r\n]/.test(text) && text.isWellFormed() && text.length < 1000);
  const seeds = [...new Set([...SEEDS, ...table])];
  const good = Object.fromEntries(WORDS.map((word) => [word, seeds.filter((text) => isValid(text, optionsOf(word)))]));
  for (let i = 0; i < COUNT; i++) {
    // Three of four texts are made from a text that the reader accepts.
    const word = WORDS[i % WORDS.length], texts = random() % 4 > 0 ? good[word] : seeds;
    yield { word, text: changed(texts[random() % texts.length], random) };
  }
}

/** The answer of ixdtf_lines to a line of its input. */
function answered(program, requested) {
  const input = requested.map(({ word, text }) => `${word} ${text}\n`).join('');
  const { stdout, status, error } = spawnSync(program, { input, maxBuffer: 2 ** 30 });
  if (error || status !== 0) throw error ?? new Error(`ixdtf_lines ended with status ${status}`);
  return stdout.toString().split('\n');
}

/** The text of each error, as ixdtf_lines writes it, from the header of the library for C. */
function errorTexts() {
  const header = readFileSync(new URL('../../c/ixdtf.h', import.meta.url), 'utf8');
  return Object.fromEntries([...header.matchAll(/case IXDTF_(\w+):\s+return "(.*)";/g)].map(([, code, text]) => [code, text]));
}
const ERRORS = errorTexts();

/** Whether an answer of ixdtf_lines is the error with this code. It reads bytes, so it has another error at a character that is not ASCII. */
function isError(answer, code) {
  if (code === 'NON_ASCII_CODE_POINT') return answer.startsWith('error ');
  return answer === `error ${ERRORS[code]}` || (code === 'ABRUPT_END' && answer.startsWith('error Parsing ended abruptly while parsing '));
}

/** Compares what the package says with an answer of ixdtf_lines. */
function compare(word, text, expected) {
  const reader = Object.keys(PRINTED).find((it) => PRINTED[it] === word) ?? (word === 'instant' ? 'parse' : word), options = optionsOf(reader);
  const why = explain(text, options);
  let found;
  if (why !== null) found = isError(expected, why.code) ? expected : `error ${why.code}`;
  else if (word === 'instant') found = instant(text) === null ? 'error no instant' : `ok seconds=${instantOf(instant(text)).replace(',', ' nanoseconds=')}`;
  else found = `ok ${word === reader ? fieldsOf(parse(text, options)) : canonical(text, options)}`;
  if (found !== expected) throw new Error(`expected ${expected}, found ${found}`);
}

/** The program, and a folder to remove at the end. */
function built() {
  if (process.env.IXDTF_LINES) return { folder: null, program: process.env.IXDTF_LINES };
  const folder = mkdtempSync(join(tmpdir(), 'ixdtf-lines-'));
  const manifest = fileURLToPath(new URL('../../rust/ixdtf_lines/Cargo.toml', import.meta.url));
  const { status, error } = spawnSync('cargo', ['build', '--release', '--quiet', '--offline', '--manifest-path', manifest, '--target-dir', folder], { stdio: 'inherit' });
  if (error?.code === 'ENOENT') return { folder, program: null };
  if (status !== 0) throw new Error('cargo did not build ixdtf_lines');
  return { folder, program: join(folder, 'release', 'ixdtf_lines') };
}

export function run(check) {
  const { folder, program } = built();
  try {
    if (program === null) return void console.log('left out: the generated texts, because cargo is not installed (Debian: cargo, of Rust 1.85 or later)');
    const readers = [...requests()];
    const more = readers.filter(({ word }) => PRINTED[word]).map(({ word, text }) => ({ word: PRINTED[word], text }));
    const instants = readers.filter(({ word }) => word === 'parse').map(({ text }) => ({ word: 'instant', text }));
    const all = [...readers, ...more, ...instants].filter(({ word, text }) => Buffer.byteLength(`${word} ${text}`) <= 4096 && !/[\r\n]/.test(text));
    const expected = answered(program, all);
    all.forEach(({ word, text }, i) => check(`${word} ${text}`, () => compare(word, text, expected[i])));
    console.log(`${readers.length} texts for the readers, of which ${expected.slice(0, readers.length).filter((it) => it.startsWith('ok')).length} are accepted; and ${all.length - readers.length} canonical texts and instants`);
  } finally {
    if (folder !== null) rmSync(folder, { recursive: true, force: true });
  }
}
