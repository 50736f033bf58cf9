// Texts for js/page, and what the page must show for them.
import assert from 'node:assert/strict';

/** An expression whose value is what the page shows. */
export const SHOWN = `({ said: document.getElementById('said').textContent, parts: [...document.querySelectorAll('.parts code')].map((it) => it.textContent),
  names: [...document.querySelectorAll('.parts b')].map((it) => it.textContent), mark: document.querySelector('mark')?.textContent ?? null,
  rows: Object.fromEntries([...document.querySelectorAll('dt')].map((it) => [it.textContent, it.nextSibling.textContent])) })`;

// The kind, the text, and what the page must show.
export const TEXTS = [
  ['date-time', '2024-03-02T08:48:00.25-05:00[!America/New_York][u-ca=hebrew][a=b]', {
    parts: ['2024-03-02', 'T', '08:48:00.25', '-05:00', '[!America/New_York]', '[u-ca=hebrew]', '[a=b]'],
    names: ['date', 'separator', 'time', 'offset', 'time zone', 'calendar', 'annotation'],
    rows: { 'Canonical text': '2024-03-02T08:48:00.25-05:00[!America/New_York][u-ca=hebrew]', Instant: '1709387280250000000 nanoseconds since 1970-01-01T00:00:00Z' } }],
  ['date-time', '20240302', { parts: ['20240302'], rows: { 'Canonical text': '2024-03-02' } }],
  ['date-time', '2024-3-02', { said: 'Refused: expected a digit of the month, which has two, found `-`', mark: '-', rows: { Hint: 'write the month as `03`', Index: '6' } }],
  ['date-time', '2023-02-29', { said: 'Refused: the day is 29, and has to be 01 to 28', mark: '29', rows: { Index: '10' } }],
  ['date-time', '2024-', { said: 'Refused: the text ends in the month; expected two digits', mark: 'the text ends here' }],
  ['date-time', '2024-03-02<b>&amp;', { mark: '<' }],
  ['rfc3339', '2024-03-02t08:48:00z', { parts: ['2024-03-02', 't', '08:48:00', 'z'], names: ['date', 'separator', 'time', 'UTC'] }],
  ['year-month', '+00202011[UTC]', { parts: ['+00202011', '[UTC]'], rows: { 'Canonical text': '2020-11[UTC]' } }],
  ['time', '12:30:15,5+01', { parts: ['12:30:15,5', '+01'], rows: { 'Canonical text': '12:30:15.5+01:00' } }],
  ['duration', '-P1Y2M3W4DT5H6M7.5S', { parts: ['-', 'P', '1Y', '2M', '3W', '4D', 'T', '5H', '6M', '7.5S'], names: ['sign', 'duration', 'years', 'months', 'weeks', 'days', 'time', 'hours', 'minutes', 'seconds'] }],
  ['zone', 'Europe/Berlin', { parts: ['Europe/Berlin'], names: ['time zone'] }],
  ['offset', '-05:30:15', { parts: ['-05:30:15'], names: ['offset'] }],
];

/** Compares what the page shows with what it must show. */
export function compare(shown, kind, expected) {
  if (expected.parts) assert.equal(shown.said, `Accepted as ${kind}`);
  for (const [name, value] of Object.entries(expected.rows ?? {})) assert.equal(shown.rows[name], value);
  for (const name of ['parts', 'names', 'mark', 'said']) if (expected[name] !== undefined) assert.deepEqual(shown[name], expected[name]);
}
