/** A kind of text:
 *
 *  | Kind | Texts |
 *  |---|---|
 *  | `date-time` | a date, or a date and a time: `2024-03-02`, `2024-03-02T08:48:00-05:00[America/New_York]` |
 *  | `year-month` | `2020-11` |
 *  | `month-day` | `11-07` |
 *  | `time` | `T12:30`, `15:23:30.5` |
 *  | `rfc3339` | `date-time` of RFC 3339, section 5.6: `2024-03-02T08:48:00.25-05:00` |
 *  | `rfc9557` | `date-time-ext` of RFC 9557, section 4.1: `2024-03-02T08:48:00Z[Europe/Berlin]` |
 *  | `offset` | `+05:30` |
 *  | `zone` | `Europe/Berlin`, `+05:30` |
 *  | `zone-name` | `Europe/Berlin` |
 *  | `duration` | `P1D`, `-PT1H30.5M` |
 */
export type Kind = 'date-time' | 'year-month' | 'month-day' | 'time' | 'rfc3339' | 'rfc9557' | 'offset' | 'zone' | 'zone-name' | 'duration';

/** The rules of a reader. `strict` refuses the day 00 in a `month-day` and a repeated unit in a `duration`, and accepts `1200` as a `time`. It changes
 *  nothing for the other kinds. `crate` has the rules of the Rust crate `ixdtf` 0.6.7. */
export type Profile = 'crate' | 'strict';

export interface Options<K extends Kind = Kind> {
  /** The kind of the text. Without it, the kind is `date-time`. */
  kind?: K;
  /** The rules. Without it, they are `crate`. */
  profile?: Profile;
}

export interface ParseOptions<K extends Kind = Kind> extends Options<K> {
  /** Is called for each annotation with a key and a value, in order, up to the first error. It returns the annotation, or another one that replaces it,
   *  or `null`, which drops it. */
  onAnnotation?: ((annotation: Annotation) => Annotation | null) | null;
}

/** An annotation, such as `[u-ca=hebrew]`. It is critical if it begins with `[!`. */
export interface Annotation {
  readonly key: string;
  readonly value: string;
  readonly critical: boolean;
}

/** A fraction: the first 18 digits as one number, and the number of its digits, which is at most 255. For `.250`, these are `250n` and 3. */
export interface Fraction {
  readonly value: bigint;
  readonly digits: number;
}

/** A date. In a `year-month`, `day` is 1. In a `month-day`, `year` is 0. */
export interface CalendarDate {
  readonly year: number;
  readonly month: number;
  readonly day: number;
}

export interface Time {
  readonly hour: number;
  readonly minute: number;
  /** From 0 to 60. */
  readonly second: number;
  /** The first nine digits of the fraction, as nanoseconds. Without a fraction, it is 0. */
  readonly nanoseconds: number;
  readonly fraction: Fraction | null;
}

export interface Offset {
  /** -1 for `-00:00` too. */
  readonly sign: 1 | -1;
  readonly hour: number;
  readonly minute: number;
  /** `null` if the offset has no seconds. */
  readonly second: number | null;
  readonly fraction: Fraction | null;
}

/** A time zone: a name, or an offset. No name is looked up. */
export interface TimeZone {
  readonly name: string | null;
  readonly offset: { readonly sign: 1 | -1; readonly hour: number; readonly minute: number } | null;
  /** Whether the bracket begins with `[!`. */
  readonly critical: boolean;
}

/** What a text has. A part that the text does not have is `null`. The object and its parts are frozen. */
export interface Parsed<K extends Kind = Kind> {
  readonly kind: K;
  readonly date: CalendarDate | null;
  readonly time: Time | null;
  readonly offset: 'Z' | Offset | null;
  readonly timeZone: TimeZone | null;
  /** The value of the first annotation with the key `u-ca`. */
  readonly calendar: string | null;
  /** The annotations of the text, or those that `onAnnotation` returned. */
  readonly annotations: readonly Annotation[];
}

/** A date-time that has a date, a time and an offset. */
export interface Timestamp<K extends 'rfc3339' | 'rfc9557' = 'rfc3339' | 'rfc9557'> extends Parsed<K> {
  readonly date: CalendarDate;
  readonly time: Time;
  readonly offset: 'Z' | Offset;
}

export interface Duration {
  readonly kind: 'duration';
  readonly sign: 1 | -1;
  /** `null` if the text has no years, months, weeks and days. */
  readonly date: { readonly years: number; readonly months: number; readonly weeks: number; readonly days: bigint } | null;
  /** `null` if the text has no hours, minutes and seconds. The fraction is a part of the last unit. */
  readonly time: {
    readonly hours: bigint;
    readonly minutes: bigint;
    readonly seconds: bigint;
    readonly lastUnit: 'hours' | 'minutes' | 'seconds';
    readonly fraction: Fraction | null;
  } | null;
}

/** The value of a text of this kind. */
export type ValueOf<K extends Kind> = K extends 'duration' ? Duration : K extends 'rfc3339' | 'rfc9557' ? Timestamp<K> : Parsed<K>;

/** A value that a program has made. Each part may be left out. */
export interface DateTimeInput {
  kind?: Exclude<Kind, 'duration'>;
  date?: CalendarDate | null;
  time?: { hour: number; minute: number; second?: number; fraction?: Fraction | null } | null;
  offset?: 'Z' | { sign: 1 | -1; hour: number; minute: number; second?: number | null; fraction?: Fraction | null } | null;
  timeZone?: { name?: string | null; offset?: { sign: 1 | -1; hour: number; minute: number } | null; critical?: boolean } | null;
  calendar?: string | null;
}
export interface DurationInput {
  kind: 'duration';
  sign?: 1 | -1;
  date?: { years?: number; months?: number; weeks?: number; days?: bigint | number } | null;
  time?: { hours?: bigint | number; minutes?: bigint | number; seconds?: bigint | number; lastUnit?: 'hours' | 'minutes' | 'seconds'; fraction?: Fraction | null } | null;
}

/** Why a reader refuses a text. */
export interface Explanation {
  /** The name of the error, such as `DATE_MONTH`. */
  readonly code: string;
  /** The name of the reason, such as `month_digits`. */
  readonly reason: string;
  /** The index in the text at which the error is. It is after a number that is out of range. */
  readonly index: number;
  /** The part that is wrong is `text.slice(...part)`. It is empty exactly if the text ends too early. */
  readonly part: readonly [begin: number, end: number];
  /** What stands in the text, and what was expected. */
  readonly message: string;
  /** The message, the text, a line with `^` under the part, and the hint, if there is one. */
  readonly report: string;
  /** What to change in the text. */
  readonly hint: string | null;
}

/** A text that a reader refuses. */
export class IxdtfError extends SyntaxError implements Explanation {
  private constructor(explanation: Explanation);
  readonly name: 'IxdtfError';
  readonly code: string;
  readonly reason: string;
  readonly index: number;
  readonly part: readonly [begin: number, end: number];
  readonly report: string;
  readonly hint: string | null;
}

/** A line that is refused: its number, from 1 on, and the indices of its bytes. */
export interface RefusedLine {
  readonly line: number;
  readonly begin: number;
  readonly end: number;
}

/** The kinds. */
export const kinds: readonly Kind[];

/** Loads the module once. In a browser, wait for it before the first other call. In Node, the module is loaded already.
 *  @param source The module, its bytes, its URL or a response with its bytes. Without it, `ixdtf.wasm` beside the package is fetched. */
export function load(source?: string | URL | BufferSource | WebAssembly.Module | Response | Promise<BufferSource | WebAssembly.Module | Response>): Promise<void>;

/** Loads the module once, from its bytes. A page may not compile a module in this way on its main thread. */
export function loadSync(source: BufferSource | WebAssembly.Module): void;

/** Returns whether a text is accepted.
 *  @throws {TypeError} if the text is not a string */
export function isValid(text: string, options?: Kind | Options): boolean;

/** Returns the value of a text.
 *  @throws {IxdtfError} if the text is refused
 *  @throws {TypeError} if the text is not a string */
export function parse<K extends Kind = 'date-time'>(text: string, options?: K | ParseOptions<K>): ValueOf<K>;

/** Returns why a text is refused, or `null` if it is accepted. */
export function explain(text: string, options?: Kind | Options): Explanation | null;

/** Returns the canonical text of a value, or of the value of a text. If `parse` returned the value, it reads the same parts from the canonical text, but
 *  of the annotations only the calendar, without its `!`.
 *  @throws {RangeError} if no text of its kind has the value */
export function canonical(value: Parsed | Duration | DateTimeInput | DurationInput): string;
export function canonical(text: string, options?: Kind | Options): string;

/** Returns the nanoseconds since 1970-01-01T00:00:00Z, or `null` if there is no date, no time or no offset. No time zone is looked up. */
export function instant(value: Parsed<'date-time' | 'rfc3339' | 'rfc9557'> | DateTimeInput): bigint | null;
export function instant(text: string, options?: Kind | Options): bigint | null;

/** Reads each line of UTF-8 text, as `ixdtf_check` does: a carriage return at the end of a line and a byte order mark do not belong to it. */
export function validateLines(bytes: Uint8Array, options?: Kind | Options): { readonly lines: number; readonly refused: readonly RefusedLine[] };

/** Returns the object of `Temporal` for a value or a text: `ZonedDateTime` if there is a time zone; otherwise `Instant`, `PlainDateTime`, `PlainDate`,
 *  `PlainYearMonth`, `PlainMonthDay`, `PlainTime` or `Duration`. The options are those of `from`, such as `{ offset: 'use' }`.
 *  @throws {Error} if the engine has no `Temporal`
 *  @throws {RangeError} if `Temporal` refuses the text, for example because it does not know the time zone */
export function toTemporal(value: string | Parsed | Duration | DateTimeInput | DurationInput, options?: object): any;
