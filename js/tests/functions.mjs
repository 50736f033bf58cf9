// Tests each function: values, errors, options, values that no text gives, long texts, traps and handlers. The expected values were written by hand.
import assert from 'node:assert/strict';
import { readFileSync } from 'node:fs';
import { runInNewContext } from 'node:vm';
import * as ixdtf from '../node.mjs';
import { Library } from '../src/library.mjs';
import { readerFor } from '../src/kinds.mjs';

const { canonical, explain, instant, isValid, IxdtfError, kinds, load, parse, toTemporal, validateLines } = ixdtf;
const module = new WebAssembly.Module(readFileSync(new URL('../ixdtf.wasm', import.meta.url)));
const bytesOf = (text) => new TextEncoder().encode(text);
const NOTHING = { date: null, time: null, offset: null, timeZone: null, calendar: null, annotations: [] };

function isDeeplyFrozen(it) {
  return typeof it !== 'object' || it === null || (Object.isFrozen(it) && Object.values(it).every(isDeeplyFrozen));
}

function values(check) {
  check('each part of a date-time', () => {
    const value = parse('2024-03-02T08:48:09.250-05:30[!America/New_York][u-ca=hebrew][a=b]');
    assert.deepEqual(value, {
      kind: 'date-time',
      date: { year: 2024, month: 3, day: 2 },
      time: { hour: 8, minute: 48, second: 9, nanoseconds: 250_000_000, fraction: { value: 250n, digits: 3 } },
      offset: { sign: -1, hour: 5, minute: 30, second: null, fraction: null },
      timeZone: { name: 'America/New_York', offset: null, critical: true },
      calendar: 'hebrew',
      annotations: [{ key: 'u-ca', value: 'hebrew', critical: false }, { key: 'a', value: 'b', critical: false }],
    });
    assert.equal(Object.getPrototypeOf(value), Object.prototype);
    assert.ok(isDeeplyFrozen(value));
  });
  const parts = [
    ['-000004-02-29', 'date-time', { date: { year: -4, month: 2, day: 29 } }],
    ['2020-11', 'year-month', { date: { year: 2020, month: 11, day: 1 } }],
    ['--11-07[UTC]', 'month-day', { date: { year: 0, month: 11, day: 7 }, timeZone: { name: 'UTC', offset: null, critical: false } }],
    ['T2359:60'.replace(':', ''), 'time', { time: { hour: 23, minute: 59, second: 60, nanoseconds: 0, fraction: null } }],
    ['-05:30:15.5', 'offset', { offset: { sign: -1, hour: 5, minute: 30, second: 15, fraction: { value: 5n, digits: 1 } } }],
    ['-00:00', 'zone', { timeZone: { name: null, offset: { sign: -1, hour: 0, minute: 0 }, critical: false } }],
    ['Etc/GMT+1', 'zone-name', { timeZone: { name: 'Etc/GMT+1', offset: null, critical: false } }],
  ];
  for (const [text, kind, expected] of parts) check(text, () => assert.deepEqual(parse(text, kind), { ...NOTHING, kind, ...expected }));
  check('a duration', () => {
    const value = parse('-P1Y2M3W4DT5H6M7.5S', { kind: 'duration' });
    assert.deepEqual(value, {
      kind: 'duration', sign: -1, date: { years: 1, months: 2, weeks: 3, days: 4n },
      time: { hours: 5n, minutes: 6n, seconds: 7n, lastUnit: 'seconds', fraction: { value: 5n, digits: 1 } },
    });
    assert.ok(isDeeplyFrozen(value));
    assert.equal(parse('P18446744073709551615D', 'duration').date.days, 2n ** 64n - 1n);
    assert.equal(parse('PT1.5H', 'duration').time.lastUnit, 'hours');
    assert.equal(parse('P1D', 'duration').time, null);
  });
  check('a fraction of more than 18 digits', () => {
    const { nanoseconds, fraction } = parse(`2024-03-02T08:48:00.${'9'.repeat(300)}`).time;
    assert.deepEqual([nanoseconds, fraction], [999_999_999, { value: 10n ** 18n - 1n, digits: 255 }]);
  });
  check('annotations, more than there is room for at first', () => {
    const text = `2024-03-02[UTC]${Array.from({ length: 500 }, (_, i) => `[k=v${i}]`).join('')}`;
    assert.deepEqual(parse(text).annotations.map((it) => it.value), Array.from({ length: 500 }, (_, i) => `v${i}`));
  });
  check('the profiles', () => {
    assert.deepEqual([isValid('1200', 'time'), isValid('1200', { kind: 'time', profile: 'strict' })], [false, true]);
    assert.deepEqual([isValid('P1Y2Y', 'duration'), isValid('P1Y2Y', { kind: 'duration', profile: 'strict' })], [true, false]);
    assert.deepEqual([isValid('11-00', 'month-day'), isValid('11-00', { kind: 'month-day', profile: 'strict' })], [true, false]);
    assert.equal(explain('11-00', { kind: 'month-day', profile: 'crate' }), null);
  });
  check('the kinds', () => assert.deepEqual(kinds, ['date-time', 'year-month', 'month-day', 'time', 'rfc3339', 'rfc9557', 'offset', 'zone', 'zone-name', 'duration']));
}

function errors(check) {
  check('an error has everything that an explanation has', () => {
    const expected = {
      code: 'DATE_MONTH', reason: 'month_digits', index: 6, part: [6, 7], message: 'expected a digit of the month, which has two, found `-`',
      report: 'expected a digit of the month, which has two, found `-`\n2024-3-02\n      ^\nhint: write the month as `03`', hint: 'write the month as `03`',
    };
    assert.deepEqual(explain('2024-3-02'), expected);
    assert.throws(() => parse('2024-3-02'), (error) => {
      assert.ok(error instanceof IxdtfError && error instanceof SyntaxError);
      assert.equal(error.name, 'IxdtfError');
      assert.deepEqual(Object.fromEntries(Object.keys(expected).map((name) => [name, error[name]])), expected);
      return true;
    });
  });
  check('an accepted text has no explanation', () => assert.equal(explain('2024-03-02'), null));
  check('an index is an index of the string', () => {
    for (const [text, part, found] of [['2024-03-02T08:48:00Zé', [20, 21], 'é'], ['2024-03-02\u{1f600}', [10, 11], '\ud83d'], ['2024-03-02\udc00', [10, 11], '\udc00']]) {
      const { index, part: wrong } = explain(text);
      assert.deepEqual([index, wrong, text.slice(...wrong)], [part[0], part, found]);
    }
  });
  check('half of a surrogate pair is named', () => {
    assert.equal(explain('2020\ud800').message, 'expected `-` or a digit of the month, found the code unit 0xD800');
    assert.ok(explain('2020\ud800').report.startsWith('expected `-` or a digit of the month, found the code unit 0xD800\n2020\ufffd\n    ^'));
    assert.equal(explain('2020\ufffd').message, 'expected `-` or a digit of the month, found U+FFFD');
  });
  check('what is not a string', () => {
    for (const it of [5, null, undefined, true, 5n, Symbol('a'), new Date(), ['2024-03-02'], new String('2024-03-02')]) {
      for (const call of [isValid, parse, explain]) assert.throws(() => call(it), { name: 'TypeError', message: /^expected a string, and got / });
    }
    assert.throws(() => parse(null), { message: 'expected a string, and got null' });
    for (const call of [canonical, instant, toTemporal]) for (const it of [5, null, undefined]) assert.throws(() => call(it), TypeError);
    for (const it of ['2024-03-02', [1], new ArrayBuffer(2), null]) assert.throws(() => validateLines(it), TypeError);
  });
  check('wrong options', () => {
    for (const options of ['date', { kind: 'iso' }, { kind: 5 }, { kind: 'constructor' }]) assert.throws(() => isValid('2024', options), { name: 'RangeError', message: /^there is no kind/ });
    for (const profile of ['lax', null, 5]) assert.throws(() => parse('2024', { profile }), { name: 'RangeError', message: /^there is no profile/ });
    for (const onAnnotation of [5, 'keep', {}]) assert.throws(() => parse('2024-03-02', { onAnnotation }), TypeError);
  });
  check('texts of one code unit, and of none', () => {
    for (let unit = 0; unit < 0x10000; unit += unit < 300 ? 1 : 97) assert.equal(isValid(String.fromCharCode(unit)), false);
    assert.equal(explain('').code, 'ABRUPT_END');
  });
}

function longTexts(check) {
  const before = process.memoryUsage().arrayBuffers;
  check('100 MB of ASCII', () => {
    const text = `2024-03-02${'[a=b]'.repeat(20_000_000)}`;
    assert.equal(isValid(text), true);
    assert.deepEqual(explain(`${text}x`).part, [text.length, text.length + 1]);
  });
  check('a long text with another character at its end', () => {
    const text = `2024-03-02${'[a=b]'.repeat(1_000_000)}é`;
    assert.deepEqual(explain(text).part, [text.length - 1, text.length]);
    assert.ok(explain(text).report.length < 1000);
  });
  check('the memory of a long text is dropped', () => {
    isValid('2024-03-02');
    global.gc?.();
    assert.ok(process.memoryUsage().arrayBuffers - before < 2 ** 20);
  });
  check('a long value', () => {
    const name = 'a'.repeat(3_000_000);
    assert.equal(canonical(`2024-03-02[${name}]`).length, 3_000_012);
    assert.equal(canonical({ date: { year: 2024, month: 3, day: 2 }, timeZone: { name } }).length, 3_000_012);
  });
}

function traps(check) {
  check('after a trap there is a new instance', () => {
    // The first instance gets a place outside its memory instead of the text, so its reader stops.
    const { Instance } = WebAssembly, reader = readerFor('date-time');
    WebAssembly.Instance = function stopping(...values) {
      const { exports } = new Instance(...values);
      return { exports: { ...exports, ixdtf_parse: (...places) => exports.ixdtf_parse(0xfffffff0, ...places.slice(1)) } };
    };
    let library;
    try { library = new Library(module); } finally { WebAssembly.Instance = Instance; }
    assert.throws(() => library.read(reader, '2024-03-02'), (error) => /a defect of ixdtf/.test(error.message) && error.cause instanceof WebAssembly.RuntimeError);
    assert.equal(library.read(reader, '2024-03-02'), 0);
    assert.equal(library.starts, 2);
  });
  check('no stack is left', () => {
    const deep = () => { try { return deep(); } catch (error) { return parse('2024-03-02').date.day + explain('2024').index; } };
    try { deep(); } catch (error) { assert.equal(error.name, 'RangeError'); }
    assert.equal(parse('2024-03-02').date.day, 2);
    assert.equal(explain('2024').index, 4);
  });
}

function handlers(check) {
  const text = '2024-03-02[u-ca=hebrew][!x-note=a][k=v]';
  check('null drops an annotation', () => {
    const value = parse(text, { onAnnotation: (it) => (it.key === 'x-note' ? null : it) });
    assert.equal(value.calendar, 'hebrew');
    assert.deepEqual(value.annotations, [{ key: 'u-ca', value: 'hebrew', critical: false }, { key: 'k', value: 'v', critical: false }]);
    assert.ok(isDeeplyFrozen(value));
  });
  check('another annotation replaces it', () => {
    const value = parse('2024-03-02[k=v]', { onAnnotation: () => ({ key: 'u-ca', value: 'é\ud800', critical: true }) });
    assert.equal(value.calendar, 'é\ud800');
  });
  check('a refused reply has the place of its annotation', () => {
    assert.throws(() => parse(text, { onAnnotation: (it) => it }), { name: 'IxdtfError', code: 'UNRECOGNIZED_CRITICAL', reason: 'unrecognized_critical', index: 34, part: [23, 34] });
    assert.throws(() => parse('2024-03-02[u-ca=a][!u-ca=b]', { onAnnotation: (it) => it }), { code: 'CRITICAL_DUPLICATE_CALENDAR', index: 27, part: [18, 27] });
  });
  check('the handler is called up to the first error', () => {
    const heard = [];
    assert.throws(() => parse('2024-03-02[a=b][c=d]junk[e=f]', { onAnnotation: (it) => { heard.push(it.key); return it; } }), { index: 20 });
    assert.throws(() => parse('2024-03-02[a=b][!c=d][e=f]', { onAnnotation: (it) => { heard.push(it.key); return it; } }), { index: 21 });
    assert.deepEqual(heard, ['a', 'c', 'a', 'c']);
  });
  check('a handler may throw, and may call the package', () => {
    assert.throws(() => parse(text, { onAnnotation: () => { throw new Error('stop'); } }), { message: 'stop' });
    const value = parse('2024-03-02[u-ca=hebrew][k=v]', {
      onAnnotation(it) {
        assert.throws(() => parse('1999-99'));
        assert.equal(parse('1999-09-09[u-ca=iso8601]', { onAnnotation: (inner) => inner }).calendar, 'iso8601');
        return it;
      },
    });
    assert.deepEqual([value.date, value.calendar], [{ year: 2024, month: 3, day: 2 }, 'hebrew']);
  });
  check('what a handler may not return', () => {
    for (const reply of [undefined, 5, 'a', {}, { key: 'a', value: 'b' }, { key: 'a', value: 5, critical: false }, Promise.resolve(null)]) {
      assert.throws(() => parse(text, { onAnnotation: () => reply }), { name: 'TypeError', message: /^onAnnotation must return/ });
    }
  });
  check('kinds without annotations never call it', () => {
    const onAnnotation = () => { throw new Error('called'); };
    assert.equal(parse('2024-03-02T08:48:00Z', { kind: 'rfc3339', onAnnotation }).date.day, 2);
    assert.throws(() => parse('2024-03-02T08:48:00Z[a=b]', { kind: 'rfc3339', onAnnotation }), { name: 'IxdtfError' });
    assert.equal(parse('P1D', { kind: 'duration', onAnnotation }).date.days, 1n);
  });
}

function printing(check) {
  const texts = [['20240302 084800,250z[!etc/utc][u-ca=hebrew][a=b]', 'date-time', '2024-03-02T08:48:00.250Z[!etc/utc][u-ca=hebrew]'], ['202011', 'year-month', '2020-11'],
    ['--1107', 'month-day', '11-07'], ['T1214z', 'time', '12:14:00Z'], ['-0530', 'offset', '-05:30'], ['+05', 'zone', '+05:00'], ['Europe/Berlin', 'zone-name', 'Europe/Berlin'],
    ['+p1y0m03dt04,50m', 'duration', 'P1Y3DT4.50M'], ['2024-03-02t08:48:00z', 'rfc3339', '2024-03-02T08:48:00Z']];
  for (const [text, kind, expected] of texts) {
    check(`the canonical text of ${text}`, () => assert.deepEqual([canonical(text, kind), canonical(parse(text, kind))], [expected, expected]));
  }
  check('values that a program has made', () => {
    assert.equal(canonical({ date: { year: -4, month: 2, day: 29 } }), '-000004-02-29');
    assert.equal(canonical({ kind: 'time', time: { hour: 1, minute: 2 }, offset: { sign: 1, hour: 2, minute: 0 } }), '01:02:00+02:00');
    assert.equal(canonical({ kind: 'duration', date: { days: 3 }, time: { hours: 2, lastUnit: 'hours' } }), 'P3DT2H');
    assert.equal(canonical({ kind: 'zone', timeZone: { offset: { sign: -1, hour: 3, minute: 30 } } }), '-03:30');
  });
  check('values that no text has', () => {
    const date = { year: 2024, month: 2, day: 29 };
    const wrong = [{ date: { ...date, day: 30 } }, {}, { date, calendar: 'ä' }, { date, calendar: '' }, { date, timeZone: { name: 'a b' } }, { date, timeZone: {} }, { date, timeZone: { name: 'UTC', offset: { sign: 1, hour: 0, minute: 0 } } }, { date, offset: 'Z' },
      { date: { ...date, month: 258 } }, { date: { ...date, day: 1.5 } }, { date: { ...date, year: 2 ** 32 } }, { kind: 'duration' }, { kind: 'duration', date: { days: -1 } },
      { kind: 'duration', date: { days: 2n ** 64n } }, { kind: 'offset', offset: 'Z' }, { kind: 'offset', offset: { sign: 0, hour: 1, minute: 1 } }, { kind: 'week' },
      { kind: 'time', time: { hour: 1, minute: 2, fraction: { value: 10n, digits: 1 } } }];
    for (const it of wrong) assert.throws(() => canonical(it), RangeError, JSON.stringify(it, (_, field) => (typeof field === 'bigint' ? `${field}n` : field)));
    assert.throws(() => canonical('2024-02-30'), IxdtfError);
  });
  check('instants', () => {
    assert.equal(instant('2024-03-02T08:48:00.25-05:00[America/New_York]'), 1_709_387_280_250_000_000n);
    assert.equal(instant('1969-12-31T23:59:59.999999999Z'), -1n);
    assert.equal(instant(parse('1970-01-01T00:00:01Z')), 1_000_000_000n);
    for (const text of ['2024-03-02', '2024-03-02T08:48:00', '2024-03-02T08:48:00[UTC]']) assert.deepEqual([instant(text), instant(parse(text))], [null, null]);
    assert.throws(() => instant('2024-03-02T08:48', 'rfc3339'), IxdtfError);
    assert.throws(() => instant('P1D', 'duration'), RangeError);
    assert.throws(() => instant(parse('12:30', 'time')), RangeError);
  });
  check('a getter may call the package', () => {
    const value = { get date() { parse('1999-01-01T01:01:01Z'); return { year: 2024, month: 3, day: 2 }; } };
    assert.equal(canonical(value), '2024-03-02');
  });
  check('no Temporal in this engine', () => {
    if (globalThis.Temporal === undefined) assert.throws(() => toTemporal('2024-03-02'), { message: 'this engine has no Temporal' });
  });
}

function lines(check) {
  const refusedLines = (text, options) => validateLines(bytesOf(text), options).refused.map(({ line, begin, end }) => [line, bytesOf(text).slice(begin, end).join()]);
  check('lines', () => {
    assert.deepEqual(validateLines(bytesOf('')), { lines: 0, refused: [] });
    assert.deepEqual(validateLines(bytesOf('2024-03-02\n2024-03-02\r\n2024-03-02')), { lines: 3, refused: [] });
    assert.deepEqual(validateLines(bytesOf('2024-13-02\n\n2024-03-02 \r\n')), { lines: 3, refused: [{ line: 1, begin: 0, end: 10 }, { line: 2, begin: 11, end: 11 }, { line: 3, begin: 12, end: 23 }] });
    assert.deepEqual(validateLines(bytesOf('\ufeff2024-03-02\n\ufeff2024-03-02')).refused, [{ line: 2, begin: 14, end: 27 }]);
    assert.deepEqual(refusedLines('P1D\nP1é\n', 'duration'), [[2, bytesOf('P1é').join()]]);
    assert.deepEqual(validateLines(Uint8Array.of(0xff, 10, 0x80)).refused.length, 2);
    assert.equal(validateLines(runInNewContext('Uint8Array.of(48, 10)')).lines, 1);
    assert.equal(validateLines(Buffer.from('2024-03-02')).lines, 1);
  });
  check('lines of many lengths are read one by one too', () => {
    const texts = ['2024-03-02', '2024-03-02T08:48:00Z', '', 'x', '2024-03-0', '2024-13-02', '20240302', '2024-03-02é', '2024-03-02[u-ca=hebrew]', '2024-03-02 ', '2024-03-02\r'];
    // Every pair of texts and newlines comes, with texts of the same length after each other too.
    const list = Array.from({ length: 20_000 }, (_, i) => texts[(i * i + (i >> 4)) % texts.length] + (i % 3 === 0 ? '\r' : ''));
    const expected = list.flatMap((text, i) => (isValid(text.replace(/\r$/, '')) ? [] : [i + 1]));
    const { lines: count, refused } = validateLines(bytesOf(list.join('\n')));
    assert.deepEqual([count, refused.map((it) => it.line)], [list.length, expected]);
  });
  check('lines around the end of a chunk', () => {
    const good = '2024-03-02';
    for (const length of [65_534, 65_535, 65_536, 65_537, 131_071, 131_072, 200_000]) {
      const long = `${good}[${'a'.repeat(length - 12)}]`;
      const text = `${good}\n${long}\n${good}\nx\n${long}`;
      assert.deepEqual(validateLines(bytesOf(text)), { lines: 5, refused: [{ line: 4, begin: 2 * good.length + length + 3, end: 2 * good.length + length + 4 }] });
    }
    const many = Array.from({ length: 30_000 }, (_, i) => (i % 1000 === 999 ? 'no' : good));
    assert.deepEqual(validateLines(bytesOf(many.join('\n'))).refused.map((it) => it.line), Array.from({ length: 30 }, (_, i) => 1000 * (i + 1)));
  });
}

function loading(check) {
  check('the module is loaded once', async () => {
    await load();
    await load(new Uint8Array([1, 2, 3]));
    ixdtf.loadSync(new Uint8Array([1, 2, 3]));
    assert.equal(isValid('2024-03-02'), true);
  });
  check('without the module, each call says what to do', async () => {
    const fresh = await import('../ixdtf.mjs?fresh');
    for (const call of ['isValid', 'parse', 'explain', 'canonical', 'instant']) assert.throws(() => fresh[call]('2024-03-02'), { message: /await load\(\)/ });
    await assert.rejects(fresh.load(new Uint8Array([1, 2, 3])), WebAssembly.CompileError);
    await Promise.all([fresh.load(readFileSync(new URL('../ixdtf.wasm', import.meta.url))), fresh.load()]);
    assert.equal(fresh.isValid('2024-03-02'), true);
  });
  check('the module has no import, and exports what exports.txt names', () => {
    const named = readFileSync(new URL('../exports.txt', import.meta.url), 'ascii').split('\n').filter((line) => line && !line.startsWith('#'));
    assert.deepEqual(WebAssembly.Module.imports(module), []);
    assert.deepEqual(WebAssembly.Module.exports(module).map((it) => it.name).sort(), named.sort());
  });
}

export async function run(check) {
  for (const part of [values, errors, handlers, printing, lines, traps, loading, longTexts]) await part(check);
}
