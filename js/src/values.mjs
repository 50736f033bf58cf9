// Values that a program passes: each field is read once, and has the type and the range of its struct, so that nothing is cut off.

import { checkKind } from './kinds.mjs';

const LAST_UNITS = ['hours', 'minutes', 'seconds'];

/** What a handler returned for an annotation: this or another annotation, or null if it is dropped. */
export function checkedReply(reply, annotation) {
  if (reply === null || reply === annotation) return reply;
  const { key, value, critical } = Object(reply);
  if (typeof key !== 'string' || typeof value !== 'string' || typeof critical !== 'boolean') {
    throw new TypeError('onAnnotation must return an annotation { key, value, critical }, or null, which drops the annotation');
  }
  return Object.freeze({ key, value, critical });
}

/** A copy of a value, in which each field that may be left out is there. */
export function checkedValue(value) {
  if (value === null || typeof value !== 'object') throw new TypeError('expected a text, or an object that parse returns');
  const { kind = 'date-time' } = value;
  checkKind(kind);
  if (kind === 'duration') return duration(value);
  const { date, time, offset, timeZone, calendar } = value;
  return {
    kind,
    date: part(date, dateOf),
    time: part(time, timeOf),
    offset: offset === 'Z' ? 'Z' : part(offset, offsetOf),
    timeZone: part(timeZone, zoneOf),
    calendar: part(calendar, (it) => asciiOf('calendar', it)),
  };
}

const part = (it, read) => (it === null || it === undefined ? null : read(it));

function duration({ sign = 1, date, time }) {
  return {
    kind: 'duration',
    sign: signOf(sign),
    date: part(date, ({ years = 0, months = 0, weeks = 0, days = 0n }) => ({
      years: whole('years', years, 32), months: whole('months', months, 32), weeks: whole('weeks', weeks, 32), days: big('days', days),
    })),
    time: part(time, ({ hours = 0n, minutes = 0n, seconds = 0n, lastUnit = 'seconds', fraction }) => {
      if (!LAST_UNITS.includes(lastUnit)) throw new RangeError(`lastUnit must be one of ${LAST_UNITS.join(', ')}`);
      return { hours: big('hours', hours), minutes: big('minutes', minutes), seconds: big('seconds', seconds), lastUnit, fraction: part(fraction, fractionOf) };
    }),
  };
}

function dateOf({ year, month, day }) {
  if (!Number.isInteger(year) || Math.abs(year) >= 2 ** 31) throw notWhole('year', year);
  return { year, month: whole('month', month, 8), day: whole('day', day, 8) };
}

function timeOf({ hour, minute, second = 0, fraction }) {
  return { hour: whole('hour', hour, 8), minute: whole('minute', minute, 8), second: whole('second', second, 8), fraction: part(fraction, fractionOf) };
}

function offsetOf({ sign, hour, minute, second, fraction }) {
  return {
    sign: signOf(sign), hour: whole('hour', hour, 8), minute: whole('minute', minute, 8), second: part(second, (it) => whole('second', it, 8)),
    fraction: part(fraction, fractionOf),
  };
}

function zoneOf({ name, offset, critical = false }) {
  const found = { name: part(name, (it) => asciiOf('name', it)), offset: part(offset, offsetOf), critical: Boolean(critical) };
  if ((found.name === null) === (found.offset === null)) throw new RangeError('timeZone must have a name or an offset, and not both');
  return found;
}

function fractionOf({ value, digits }) {
  return { value: big('value', value), digits: whole('digits', digits, 8) };
}

function signOf(sign) {
  if (sign !== 1 && sign !== -1) throw new RangeError('sign must be 1 or -1');
  return sign;
}

/** A text that an 8-bit record can have. No reader accepts a text with another character. */
function asciiOf(field, text) {
  if (typeof text !== 'string') throw new TypeError(`${field} must be a string`);
  if (!/^[\x01-\x7e]*$/.test(text)) throw new RangeError(`${field} must be ASCII`);
  return text;
}

function whole(field, number, bits) {
  if (!Number.isInteger(number) || number < 0 || number >= 2 ** bits) throw notWhole(field, number);
  return number;
}

function big(field, number) {
  const it = typeof number === 'number' && Number.isSafeInteger(number) ? BigInt(number) : number;
  if (typeof it !== 'bigint' || it < 0n || it >= 2n ** 64n) throw notWhole(field, number);
  return it;
}

function notWhole(field, number) {
  return new RangeError(`${field} must be a whole number in its range, and is ${String(number)}`);
}
