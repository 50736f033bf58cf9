// The tables of tests/ (tests/README.md says what they have).
import { readFileSync } from 'node:fs';

const TOP = new URL('../../', import.meta.url);
const PROFILED = ['month-day', 'time', 'duration'];
const PROFILES = { any: ['', 'strict-'], crate: [''], strict: ['strict-'] };
const WIDTHS = { 8: [8], 16: [16], both: [8, 16] };
const LETTERS = { t: '\t', n: '\n', r: '\r', '\\': '\\' };

function lines(path) {
  return readFileSync(new URL(path, TOP), 'ascii').trimEnd().split('\n').filter((line) => !line.startsWith('#')).map((line) => line.split('\t'));
}

function rows(path) {
  const [columns, ...cells] = lines(path);
  return cells.map((it) => Object.fromEntries(columns.map((column, i) => [column, it[i] ?? ''])));
}

/** A text as a table writes it. A byte `\xHH` becomes the code unit with this number. */
export function textOf(written) {
  return written.replace(/\\(?:x([0-9a-f]{2})|u([0-9a-f]{4})|(.))/g, (_, byte, unit, letter) => (
    letter === undefined ? String.fromCharCode(parseInt(byte ?? unit, 16)) : LETTERS[letter]));
}

/** The cases of a row: one for each word of ixdtf_lines, width and handler. */
function* casesOf(row) {
  for (const reader of row.readers.split(',')) {
    for (const profile of PROFILED.includes(reader) && row.handlers === undefined ? PROFILES[row.profile] : ['']) {
      for (const width of WIDTHS[row.bits]) {
        for (const handler of (row.handlers ?? '').split(',')) yield { row, word: profile + reader, width, handler, text: textOf(row.text) };
      }
    }
  }
}

/** All cases of the tables. */
export function cases() {
  return ['accepted', 'refused', 'replies'].flatMap((name) => rows(`tests/${name}.tsv`)).flatMap((row) => [...casesOf(row)]);
}
