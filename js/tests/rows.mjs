// Asks the package for the answer to each row of the tables, in 8 and in 16 bits.
import { readFileSync } from 'node:fs';
import { Library } from '../src/library.mjs';
import { parseHandling } from '../src/handling.mjs';
import { readerFor } from '../src/kinds.mjs';
import { canonical, instant, parse, validateLines } from '../node.mjs';
import { codeOf, fieldsOf, instantOf, optionsOf } from './answers.mjs';
import { cases } from './tables.mjs';

const COMPARED = ['fields', 'canonical', 'instant', 'error', 'at', 'part', 'reason', 'message', 'hint', 'calls'];
const module = new WebAssembly.Module(readFileSync(new URL('../ixdtf.wasm', import.meta.url)));
const LIBRARIES = { 8: new Library(module), 16: new Library(module, true) };

/** A handler of tests/replies.tsv, and its calls. */
function listener(name) {
  let count = 0;
  const handler = (annotation) => {
    const { key, value, critical } = annotation;
    count++;
    handler.calls += `[${critical ? '!' : ''}${key}=${value}]`;
    if (name === 'drop' || (name === 'another' && count === 3)) return null;
    if (name === 'another' && count < 3) return { key: 'u-ca', value: 'ab'[count - 1], critical: count === 2 && critical };
    if (name === 'make-critical') return { key, value, critical: true };
    return name === 'turn-critical' ? { key, value, critical: !critical } : annotation;
  };
  handler.calls = '';
  return handler;
}

function refused({ code, index, part, reason, message, hint }) {
  return { error: code, at: String(index), part: part.join('..'), reason, message, hint: hint ?? 'none' };
}

/** What the package says about a case: an object with columns of the tables. */
function answer({ word, width, handler, text, row }) {
  const options = optionsOf(word), reader = readerFor(options), library = LIBRARIES[width];
  if (handler) {
    const heard = listener(handler);
    try {
      return { fields: fieldsOf(parseHandling(library, reader, text, heard)), calls: heard.calls };
    } catch (error) {
      if (error.name !== 'IxdtfError') throw error;
      return { ...refused(error), calls: heard.calls };
    }
  }
  const explanation = library.explain(reader.number, text), value = library.parse(reader, text);
  if ((explanation === null) !== (value !== null) || (library.read(reader, text) === 0) !== (value !== null)) throw new Error('two functions disagree');
  if (explanation !== null) return refused(explanation);
  const found = { fields: fieldsOf(value) };
  if (fieldsOf(parse(canonical(value), options)) !== found.fields) throw new Error('the canonical text has other parts');
  if (row.canonical) found.canonical = [canonical(text, options), canonical(value)].reduce((one, other) => (one === other ? one : `${one} or ${other}`));
  if (row.instant) found.instant = [instant(text, options), instant(value)].map(instantOf).reduce((one, other) => (one === other ? one : `${one} or ${other}`));
  return found;
}

/** The columns in which an answer differs from its row. */
function differences(it, found) {
  const wanted = { ...it.row, error: it.row.error && codeOf(it.row.error) };
  const differing = COMPARED.filter((column) => wanted[column] && wanted[column] !== found[column]);
  if (it.handler && it.row.calls !== found.calls) differing.push('calls');
  if (!wanted.error && found.error) differing.push('error');
  return differing.map((column) => `${column}: expected ${wanted[column]}, found ${found[column]}`);
}

/** A text of bytes that are not ASCII cannot be a string of 8-bit code units. `validateLines` reads it as a line. */
function ofBytes({ word, text, row }) {
  const bytes = Uint8Array.from(text, (unit) => unit.charCodeAt(0));
  const { lines, refused: found } = validateLines(bytes, optionsOf(word));
  const isRefused = lines === 1 && found.length === 1;
  return isRefused === Boolean(row.error) ? [] : ['validateLines does not agree'];
}

export function run(check) {
  let left = 0;
  for (const it of cases()) {
    const isBytes = it.width === 8 && /[^\0-\x7f]/.test(it.text);
    if (isBytes && (it.handler || /[\r\n]/.test(it.text))) { left++; continue; }
    check(`${it.word} of ${it.width}-bit ${JSON.stringify(it.text)}${it.handler && ` with the handler ${it.handler}`}`, () => {
      const differing = isBytes ? ofBytes(it) : differences(it, answer(it));
      if (differing.length > 0) throw new Error(differing.join('; '));
    });
  }
  if (left > 0) console.log(`left out: ${left} rows of bytes, because they are no string`);
}
