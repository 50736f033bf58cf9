// The functions of the package. index.d.ts describes each of them for its callers.
import { Library } from './src/library.mjs';
import { IxdtfError, checkText, refuse } from './src/errors.mjs';
import { kinds, printerFor, readerFor } from './src/kinds.mjs';
import { parseHandling } from './src/handling.mjs';
import { temporalOf } from './src/temporal.mjs';
import { checkedValue } from './src/values.mjs';

export { IxdtfError, kinds };

const WITH_INSTANT = ['date-time', 'rfc3339', 'rfc9557'];

let library = null;
let loading = null;

// ---- Loading

export function loadSync(source) {
  library ??= new Library(source instanceof WebAssembly.Module ? source : new WebAssembly.Module(source));
}

export function load(source = new URL('./ixdtf.wasm', import.meta.url)) {
  if (library !== null) return Promise.resolve();
  loading ??= compiled(source).then(loadSync).finally(() => { loading = null; });
  return loading;
}

async function compiled(source) {
  let it = await source;
  if (typeof it === 'string' || it instanceof URL) it = await fetch(it);
  if (it instanceof Response) {
    if (!it.ok) throw new Error(`the module of ixdtf was not loaded from ${it.url}: status ${it.status}`);
    it = await it.arrayBuffer();
  }
  return it instanceof WebAssembly.Module ? it : WebAssembly.compile(it);
}

function loaded() {
  if (library === null) throw new Error('the module of ixdtf is not loaded: await load() once, before the first other call');
  return library;
}

// ---- Reading

export function isValid(text, options) {
  checkText(text);
  return loaded().read(readerFor(options), text) === 0;
}

export function parse(text, options) {
  checkText(text);
  const reader = readerFor(options), it = loaded();
  const handler = options?.onAnnotation;
  if (handler !== undefined && handler !== null) return parseHandling(it, reader, text, handler);
  return it.parse(reader, text) ?? refuse(it.explain(reader.number, text));
}

export function explain(text, options) {
  checkText(text);
  return loaded().explain(readerFor(options).number, text);
}

export function validateLines(bytes, options) {
  // An array of another realm, such as one that a test runner has made, is not an `instanceof` this realm's class.
  if (Object.prototype.toString.call(bytes) !== '[object Uint8Array]') throw new TypeError('expected a Uint8Array');
  return loaded().lines(readerFor(options), bytes);
}

// ---- Values

export function canonical(value, options) {
  const it = loaded();
  if (typeof value === 'string') {
    const reader = readerFor(options);
    return it.canonical(reader, value) ?? refuse(it.explain(reader.number, value));
  }
  const checked = checkedValue(value);
  const text = it.print(printerFor(checked.kind), checked);
  if (text === null) throw new RangeError(`no text of the kind ${checked.kind} has this value`);
  return text;
}

export function instant(value, options) {
  const it = loaded();
  const reader = typeof value === 'string' ? readerFor(options) : null;
  const checked = reader === null ? checkedValue(value) : null;
  const { kind } = reader ?? checked;
  if (!WITH_INSTANT.includes(kind)) throw new RangeError(`a value of the kind ${kind} has no instant`);
  if (reader === null) return it.instantOfValue(checked);
  const found = it.instant(reader, value);
  return found === undefined ? refuse(it.explain(reader.number, value)) : found;
}

export function toTemporal(value, options) {
  const it = typeof value === 'string' ? parse(value) : value;
  return temporalOf(checkedValue(it), canonical(it), options);
}
