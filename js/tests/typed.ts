// Uses of the package for tsc. tests/types.mjs tests that a line with `// wrong` does not compile, and that the other lines do.
import { canonical, explain, instant, isValid, IxdtfError, kinds, load, loadSync, parse, toTemporal, validateLines } from 'ixdtf';
import type { Annotation, Duration, Explanation, Kind, Parsed, Timestamp } from 'ixdtf';

const record: Parsed<'date-time'> = parse('2024-03-02');
const day: number | undefined = record.date?.day;
const sure: number = record.date.day; // wrong
const stamp: Timestamp = parse('2024-03-02T08:48:00Z', 'rfc3339');
const hour: number = parse('2024-03-02T08:48:00Z', { kind: 'rfc9557' }).time.hour;
const duration: Duration = parse('P1D', 'duration');
const days: bigint | undefined = parse('P1D', { kind: 'duration' }).date?.days;
const few: number | undefined = parse('P1D', 'duration').date?.days; // wrong
const noDate = parse('P1D', 'duration').calendar; // wrong
record.date = null; // wrong
const offset = parse('+05:30', 'offset').offset;
const minutes: number | null = offset === null || offset === 'Z' ? null : offset.hour * 60 + offset.minute;
const zone: string | null | undefined = record.timeZone?.name;

const valid: boolean = isValid('1200', { kind: 'time', profile: 'strict' });
isValid(5); // wrong
isValid('2024', 'iso'); // wrong
isValid('2024', { profile: 'lax' }); // wrong
isValid('2024', { onAnnotation: (it: Annotation) => it }); // wrong

parse('2024-03-02', { onAnnotation: (it) => (it.key === 'x' ? null : it) });
parse('2024-03-02', { onAnnotation: ({ key, value }) => ({ key, value, critical: false }) });
parse('2024-03-02', { onAnnotation: () => undefined }); // wrong
parse('2024-03-02', { onAnnotation: async (it) => it }); // wrong

const why: Explanation | null = explain('2024-3-02', 'date-time');
const [begin, end]: readonly [number, number] = why?.part ?? [0, 0];
try {
  parse('2024-3-02');
} catch (error) {
  if (error instanceof IxdtfError) {
    const report: string = error.report, hint: string | null = error.hint, at: number = error.index;
    const isSyntax: SyntaxError = error;
    error.place; // wrong
    console.log(report, hint, at, isSyntax);
  }
}
new IxdtfError(why!); // wrong

const texts: string[] = [canonical(record), canonical(duration), canonical('20240302', 'date-time'), canonical({ date: { year: 2024, month: 3, day: 2 } })];
canonical({ kind: 'duration', date: { days: 3 } });
canonical({ date: { year: 2024 } }); // wrong
const nanoseconds: bigint | null = instant(stamp);
instant(duration); // wrong
toTemporal(record, { offset: 'use' });

const { lines, refused } = validateLines(new Uint8Array(), 'rfc3339');
const first: [number, number, number] | undefined = refused.map((it): [number, number, number] => [it.line, it.begin, it.end])[0];
validateLines('2024-03-02'); // wrong
const all: readonly Kind[] = kinds;
const loading: Promise<void> = load(fetch('ixdtf.wasm'));
loadSync(new Uint8Array());
console.log(day, hour, days, minutes, zone, valid, begin, end, texts, nanoseconds, lines, first, all, loading);
