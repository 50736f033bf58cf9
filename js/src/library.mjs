// The library for C in an instance of the WebAssembly module. This file knows the places of the fields of the structs, as c/ixdtf.h asserts them, and
// the rules of that header about memory. The other files know neither.
//
// Binaryen has lowered the module: it has a memory of 32 bits, and a parameter of 64 bits has become two of 32 bits. So after each pointer and each
// length, a 0 is passed.

const OK = 0;
const TOO_SHORT = 102;
const NO_INSTANT = 103;

const PAGE = 65_536;
// After a text of more bytes, the next call drops the memory, because the memory of an instance cannot shrink.
const KEPT_BYTES = 1 << 20;
const REPORT_ROOM = 1024;
const ANNOTATION_SIZE = 40;
const ANNOTATION_ROOM = 16;
const CHUNK = PAGE;
const NEWLINE = 10, CARRIAGE_RETURN = 13;

/** The readers, in the order of their numbers in c/ixdtf.h, from 1 on. */
const READERS = ['parse', 'parse_year_month', 'parse_month_day', 'parse_time', 'parse_rfc3339', 'parse_rfc9557', 'parse_offset', 'parse_identifier',
  'parse_iana_identifier', 'parse_duration', 'parse_month_day_strict', 'parse_time_strict', 'parse_duration_strict', 'parse_with_annotations',
  'parse_year_month_with_annotations', 'parse_month_day_with_annotations', 'parse_time_with_annotations', 'parse_rfc9557_with_annotations',
  'parse_month_day_with_annotations_strict', 'parse_time_with_annotations_strict'];

const UNRECOGNIZED_CRITICAL = { error: 32, reason: 125 };
const CRITICAL_DUPLICATE_CALENDAR = { error: 31, reason: 126 };

// The values of `form` in the structs.
const UTC = 1, MINUTES = 2, SECONDS = 3;
const NAME = 1, ZONE_OFFSET = 2;
const LAST_UNITS = [null, 'hours', 'minutes', 'seconds'];

const NO_ANNOTATIONS = Object.freeze([]);
const encoder = new TextEncoder();
const decoder = new TextDecoder('utf-8', { ignoreBOM: true });
const freeze = Object.freeze;
const signOf = (isNegative) => (isNegative ? -1 : 1);
const aligned = (place) => place + (-place & 7);

/** The number of the reader with this name. */
export const readerNumber = (name) => READERS.indexOf(name) + 1;

/** An instance of the module, and its memory. A call ends before the next one begins, so there is one place for each struct. */
export class Library {
  #module;
  #isWide;
  #exports;
  #narrow;
  #wide;
  #view;
  #bytes;
  // Whether the next call must begin with a new instance: after a trap, after a long text, and while the instance is being changed.
  #mustStart = true;
  #record;
  #wideRecord;
  #duration;
  #explanation;
  #count;
  #name;
  #calendar;
  #reply;
  #annotations;
  #wideAnnotations;
  #text;

  /** The number of instances that were started: more than one after a long text or a trap. */
  starts = 0;

  /** `isWide`: the instance reads ASCII in 16 bits too. Only the tests ask for it. */
  constructor(module, isWide = false) {
    this.#module = module;
    this.#isWide = isWide;
    this.#start();
  }

  // ---- Memory

  /** Starts a new instance. Its memory is zero, so each struct holds the slices and the bools that its type allows. */
  #start() {
    this.#mustStart = true;
    this.#exports = new WebAssembly.Instance(this.#module, {}).exports;
    this.#narrow = READERS.map((name) => this.#exports[`ixdtf_${name}`]);
    this.#wide = READERS.map((name) => this.#exports[`ixdtf16_${name}`]);
    let free = aligned(Number(this.#exports.__heap_base.value));
    const take = (size) => { const place = free; free = aligned(free + size); return place; };
    // A record of 8-bit and a record of 16-bit text have places of their own, since a slice of 16-bit code units is aligned.
    this.#record = take(112);
    this.#wideRecord = take(112);
    this.#duration = take(80);
    this.#explanation = take(32);
    this.#count = take(8);
    this.#name = take(16);
    this.#calendar = take(24);
    this.#reply = take(ANNOTATION_SIZE);
    this.#annotations = take(ANNOTATION_SIZE * ANNOTATION_ROOM);
    this.#wideAnnotations = take(ANNOTATION_SIZE * ANNOTATION_ROOM);
    this.#text = take(0);
    this.starts++;
    this.#look();
    this.#reserve(this.#text + PAGE);
    this.#mustStart = false;
  }

  #look() {
    this.#view = new DataView(this.#exports.memory.buffer);
    this.#bytes = new Uint8Array(this.#exports.memory.buffer, this.#text);
  }

  /** Makes the memory end at this place or later. */
  #reserve(end) {
    const missing = end - this.#view.byteLength;
    if (missing <= 0) return;
    const mustStart = this.#mustStart;
    this.#mustStart = true;
    try {
      this.#exports.memory.grow(Math.ceil(missing / PAGE));
    } catch (cause) {
      throw new RangeError('the text is too long for the memory of the module', { cause });
    }
    this.#look();
    this.#mustStart = mustStart || end - this.#text > KEPT_BYTES;
  }

  /** Begins a call. */
  #begin() {
    if (this.#mustStart) this.#start();
  }

  #call(name, ...values) {
    try {
      return this.#exports[name](...values);
    } catch (error) {
      this.#mustStart = true;
      throw stopped(error);
    }
  }

  /** Writes a text, and returns the number of bytes of its code units: 1 if the text is ASCII, and otherwise 2. */
  #put(text) {
    this.#begin();
    const { length } = text;
    if (length > this.#bytes.length) this.#reserve(this.#text + length);
    const { read, written } = encoder.encodeInto(text, this.#bytes);
    if (read === length && written === length && !this.#isWide) return 1;
    this.#putWide(this.#text, text);
    return 2;
  }

  #putWide(place, text) {
    const { length } = text;
    this.#reserve(place + 2 * length);
    const units = new Uint16Array(this.#exports.memory.buffer, place, length);
    for (let i = 0; i < length; i++) units[i] = text.charCodeAt(i);
  }

  /** Writes a text as UTF-8, with U+FFFD for half of a surrogate pair. Returns the number of bytes. */
  #putUtf8(text) {
    this.#reserve(this.#text + 3 * text.length);
    return encoder.encodeInto(text, this.#bytes).written;
  }

  /** The text that a function writes to `place`, or null if the value has none. `print` gets the room, and writes the length to `#count`. */
  #written(place, print) {
    for (let room = REPORT_ROOM; ;) {
      this.#reserve(place + room);
      const status = print(room);
      const length = this.#number(this.#count);
      if (status === OK) return decoder.decode(this.#bytes.subarray(place - this.#text, place - this.#text + length));
      if (status !== TOO_SHORT) return null;
      room = length;
    }
  }

  #number(place) {
    return this.#view.getUint32(place, true) + 2 ** 32 * this.#view.getUint32(place + 4, true);
  }

  #putSlice(place, at, length) {
    this.#view.setUint32(place, at, true);
    this.#view.setUint32(place + 4, 0, true);
    this.#view.setUint32(place + 8, length, true);
    this.#view.setUint32(place + 12, 0, true);
  }

  // ---- Reading

  /** Reads a text in 8 bits if it is ASCII, and otherwise in 16 bits. Returns the number of the error, or 0. */
  read(reader, text) {
    return this.#readUnits(reader, this.#put(text), text.length);
  }

  /** Reads a text that was written. */
  #readUnits(reader, size, length) {
    const isNarrow = size === 1;
    const out = reader.isDuration ? this.#duration : isNarrow ? this.#record : this.#wideRecord;
    try {
      return (isNarrow ? this.#narrow : this.#wide)[reader.number - 1](this.#text, 0, length, 0, out, 0);
    } catch (error) {
      this.#mustStart = true;
      throw stopped(error);
    }
  }

  /** The value of an accepted text, or null. */
  parse(reader, text) {
    const size = this.#put(text);
    if (this.#readUnits(reader, size, text.length) !== OK) return null;
    if (reader.isDuration) return this.#durationOf();
    if (!reader.listing || !text.includes('[')) return this.#recordOf(reader.kind, text, size, null, NO_ANNOTATIONS);
    // A reader that lists annotations reads the same parts, except the calendar.
    const calendar = this.#calendarOf(text, size);
    const { array, count } = this.#list(reader, text, size);
    const annotations = [];
    for (let i = 0; i < count; i++) annotations.push(this.#annotationOf(text, size, array + ANNOTATION_SIZE * i));
    return this.#recordOf(reader.kind, text, size, calendar, freeze(annotations));
  }

  /** What a reader that lists annotations says: the value, or null; and the annotations before the error, with their brackets. */
  list(reader, text) {
    const size = this.#put(text);
    const { array, count, error } = this.#list(reader, text, size);
    const brackets = Array.from({ length: count }, (_, i) => this.#bracketOf(text, size, array + ANNOTATION_SIZE * i));
    return { brackets, parts: error === OK ? this.#recordOf(reader.kind, text, size, null, NO_ANNOTATIONS) : null };
  }

  /** Lists the annotations of a text that was written. Returns the place of the array, and the number of its annotations. */
  #list(reader, text, size) {
    const out = size === 1 ? this.#record : this.#wideRecord;
    const read = (size === 1 ? this.#narrow : this.#wide)[reader.listing - 1];
    let array = size === 1 ? this.#annotations : this.#wideAnnotations, room = ANNOTATION_ROOM, error;
    for (;;) {
      try {
        error = read(this.#text, 0, text.length, 0, array, 0, room, 0, this.#count, 0, out, 0);
      } catch (cause) {
        this.#mustStart = true;
        throw stopped(cause);
      }
      const count = this.#number(this.#count);
      if (count <= room) return { array, count, error };
      // A larger array is after the text. Its elements are zero before the call.
      room = count;
      array = aligned(this.#text + size * text.length);
      this.#reserve(array + ANNOTATION_SIZE * room);
      this.#bytes.fill(0, array - this.#text, array - this.#text + ANNOTATION_SIZE * room);
    }
  }

  /** Passes a reply of a handler to the rules about annotations. In what it returns, `refused` has the error and the reason, or is null if the reply is
   *  accepted, and `isKept` says whether the reply becomes the calendar. */
  reply(calendar, reply) {
    this.#begin();
    const calendarText = calendar === null ? '' : calendar.value;
    const key = this.#text, value = aligned(key + 2 * reply.key.length), kept = aligned(value + 2 * reply.value.length);
    this.#putWide(key, reply.key);
    this.#putWide(value, reply.value);
    this.#putWide(kept, calendarText);
    this.#putSlice(this.#calendar, kept, calendarText.length);
    this.#view.setUint8(this.#calendar + 16, calendar !== null && calendar.critical ? 1 : 0);
    this.#view.setUint8(this.#calendar + 17, calendar === null ? 0 : 1);
    this.#putSlice(this.#reply, key, reply.key.length);
    this.#putSlice(this.#reply + 16, value, reply.value.length);
    this.#view.setUint8(this.#reply + 32, reply.critical ? 1 : 0);
    const error = this.#call('ixdtf16_reply', this.#calendar, 0, this.#reply, 0);
    const refused = [UNRECOGNIZED_CRITICAL, CRITICAL_DUPLICATE_CALENDAR].find((it) => it.error === error) ?? null;
    return { refused, isKept: refused === null && calendar === null && this.#flag(this.#calendar + 17) };
  }

  // ---- The fields of the structs

  #flag(place) {
    return this.#view.getUint8(place) !== 0;
  }

  #slice(text, size, place) {
    const begin = (this.#view.getUint32(place, true) - this.#text) / size;
    return text.slice(begin, begin + this.#view.getUint32(place + 8, true));
  }

  #fractionOf(place) {
    const digits = this.#view.getUint8(place + 8);
    return digits === 0 ? null : freeze({ value: this.#view.getBigUint64(place, true), digits });
  }

  #nanosecondsOf(place) {
    const digits = this.#view.getUint8(place + 8);
    if (digits === 0) return 0;
    return this.#call('ixdtf_nanoseconds', this.#view.getInt32(place, true), this.#view.getInt32(place + 4, true), digits);
  }

  #dateOf(place) {
    const view = this.#view;
    return freeze({ year: view.getInt32(place, true), month: view.getUint8(place + 4), day: view.getUint8(place + 5) });
  }

  #timeOf(place) {
    const view = this.#view;
    return freeze({
      hour: view.getUint8(place + 9), minute: view.getUint8(place + 10), second: view.getUint8(place + 11),
      nanoseconds: this.#nanosecondsOf(place), fraction: this.#fractionOf(place),
    });
  }

  #offsetOf(place) {
    const view = this.#view;
    const form = view.getUint8(place + 9);
    if (form !== MINUTES && form !== SECONDS) return form === UTC ? 'Z' : null;
    return freeze({
      sign: signOf(this.#flag(place + 10)), hour: view.getUint8(place + 11), minute: view.getUint8(place + 12),
      second: form === SECONDS ? view.getUint8(place + 13) : null, fraction: form === SECONDS ? this.#fractionOf(place) : null,
    });
  }

  #zoneOf(text, size, place) {
    const view = this.#view;
    const form = view.getUint8(place + 16);
    if (form !== NAME && form !== ZONE_OFFSET) return null;
    const offset = form === NAME ? null
      : freeze({ sign: signOf(this.#flag(place + 18)), hour: view.getUint8(place + 19), minute: view.getUint8(place + 20) });
    return freeze({ name: form === NAME ? this.#slice(text, size, place) : null, offset, critical: this.#flag(place + 17) });
  }

  #calendarOf(text, size) {
    const record = size === 1 ? this.#record : this.#wideRecord;
    return this.#flag(record + 80) ? this.#slice(text, size, record + 64) : null;
  }

  #recordOf(kind, text, size, calendar, annotations) {
    const record = size === 1 ? this.#record : this.#wideRecord;
    return freeze({
      kind,
      date: this.#flag(record + 6) ? this.#dateOf(record) : null,
      time: this.#flag(record + 20) ? this.#timeOf(record + 8) : null,
      offset: this.#offsetOf(record + 24),
      timeZone: this.#zoneOf(text, size, record + 40),
      calendar,
      annotations,
    });
  }

  #annotationOf(text, size, place) {
    return freeze({ key: this.#slice(text, size, place), value: this.#slice(text, size, place + 16), critical: this.#flag(place + 32) });
  }

  /** An annotation, and where its bracket begins and ends. */
  #bracketOf(text, size, place) {
    const view = this.#view, annotation = this.#annotationOf(text, size, place);
    const key = (view.getUint32(place, true) - this.#text) / size, value = (view.getUint32(place + 16, true) - this.#text) / size;
    return { annotation, begin: key - (annotation.critical ? 2 : 1), end: value + annotation.value.length + 1 };
  }

  #durationOf() {
    const view = this.#view, place = this.#duration;
    const form = view.getUint8(place + 53);
    return freeze({
      kind: 'duration',
      sign: signOf(this.#flag(place + 55)),
      date: !this.#flag(place + 54) ? null : freeze({
        years: view.getUint32(place + 40, true), months: view.getUint32(place + 44, true), weeks: view.getUint32(place + 48, true),
        days: view.getBigUint64(place, true),
      }),
      time: form === 0 ? null : freeze({
        hours: view.getBigUint64(place + 8, true), minutes: view.getBigUint64(place + 16, true), seconds: view.getBigUint64(place + 24, true),
        lastUnit: LAST_UNITS[form],
        fraction: view.getUint8(place + 52) === 0 ? null : freeze({ value: view.getBigUint64(place + 32, true), digits: view.getUint8(place + 52) }),
      }),
    });
  }

  // ---- Errors

  /** Why a reader refuses a text, or null if it accepts the text. */
  explain(number, text) {
    const size = this.#put(text);
    const name = size === 1 ? 'ixdtf_explain' : 'ixdtf16_explain';
    const error = this.#call(name, number, this.#text, 0, text.length, 0, this.#explanation, 0);
    return error === OK ? null : this.#describe(text, size);
  }

  /** Why the reply to an annotation is refused. */
  explainReply(refused, { begin, end }, text) {
    const size = this.#put(text), view = this.#view, place = this.#explanation;
    view.setBigUint64(place, BigInt(end), true);
    view.setBigUint64(place + 8, BigInt(begin), true);
    view.setBigUint64(place + 16, BigInt(end), true);
    view.setUint32(place + 24, refused.error, true);
    view.setUint32(place + 28, refused.reason, true);
    return this.#describe(text, size);
  }

  /** The explanation in memory, with its texts. */
  #describe(text, size) {
    const place = this.#explanation;
    const index = this.#number(place), begin = this.#number(place + 8), end = this.#number(place + 16);
    const code = this.#nameOf('ixdtf_error_constant', this.#view.getUint32(place + 24, true)).replace('IXDTF_', '');
    const reason = this.#nameOf('ixdtf_reason_line', this.#view.getUint32(place + 28, true));
    // The functions that describe an error take 8-bit text. Before the error, each code unit is one byte.
    const length = size === 1 ? text.length : this.#putUtf8(text);
    const out = aligned(this.#text + length);
    const ask = (name) => this.#written(out, (room) => this.#call(name, place, 0, this.#text, 0, length, 0, out, 0, room, 0, this.#count, 0));
    const report = withSurrogate(ask('ixdtf_describe'), text.slice(begin, end));
    const hint = ask('ixdtf_hint');
    return freeze({ code, reason, index, part: freeze([begin, end]), message: report.split('\n', 1)[0], report, hint: hint === '' ? null : hint });
  }

  #nameOf(name, number) {
    this.#call(name, number, this.#name, 0);
    const at = this.#view.getUint32(this.#name, true);
    return decoder.decode(new Uint8Array(this.#exports.memory.buffer, at, this.#view.getUint32(this.#name + 8, true)));
  }

  // ---- Printing

  /** The canonical text of a text, or null if the text is refused. An accepted text is ASCII, so its record is the 8-bit one. */
  canonical(reader, text) {
    const size = this.#put(text);
    if (this.#readUnits(reader, size, text.length) !== OK) return null;
    return this.#print(reader.printer, aligned(this.#text + text.length));
  }

  /** The canonical text of a value that `checkedValue` has returned, or null if no text has this value. */
  print(printer, value) {
    this.#begin();
    if (value.kind === 'duration') {
      this.#putDuration(value);
      return this.#print(printer, this.#text);
    }
    return this.#print(printer, this.#putRecord(value));
  }

  /** Prints the struct in memory, and writes the text to this place. */
  #print(printer, out) {
    const places = { ixdtf_print_duration: this.#duration, ixdtf_print_offset: this.#record + 24, ixdtf_print_zone: this.#record + 40 };
    const place = places[printer] ?? this.#record;
    return this.#written(out, (room) => this.#call(printer, place, 0, out, 0, room, 0, this.#count, 0));
  }

  /** The instant of a text, `null` if it has none, and `undefined` if the text is refused. */
  instant(reader, text) {
    const size = this.#put(text);
    return this.#readUnits(reader, size, text.length) === OK ? this.#instantOfRecord() : undefined;
  }

  /** The instant of a value that `checkedValue` has returned, or null. */
  instantOfValue(value) {
    this.#begin();
    this.#putRecord(value);
    return this.#instantOfRecord();
  }

  /** The nanoseconds since 1970 of the 8-bit record in memory, or null. */
  #instantOfRecord() {
    const place = this.#explanation;
    if (this.#call('ixdtf_instant', this.#record, 0, place, 0, this.#count, 0) === NO_INSTANT) return null;
    return this.#view.getBigInt64(place, true) * 1_000_000_000n + BigInt(this.#view.getUint32(this.#count, true));
  }

  /** Writes a record, and its texts to the place for the text. Returns the place after them. */
  #putRecord({ date, time, offset, timeZone, calendar }) {
    const name = timeZone?.name ?? '';
    this.#reserve(this.#text + name.length + (calendar ?? '').length);
    encoder.encodeInto(name + (calendar ?? ''), this.#bytes);
    const view = this.#view, record = this.#record;
    new Uint8Array(view.buffer, record, 112).fill(0);
    if (date) {
      view.setInt32(record, date.year, true);
      this.#putBytes(record + 4, [date.month, date.day, 1]);
    }
    if (time) this.#putFraction(record + 8, time.fraction, [time.hour, time.minute, time.second, 1]);
    if (offset === 'Z') view.setUint8(record + 33, UTC);
    else if (offset) {
      const form = offset.second === null ? MINUTES : SECONDS;
      this.#putFraction(record + 24, offset.fraction, [form, offset.sign < 0 ? 1 : 0, offset.hour, offset.minute, offset.second ?? 0]);
    }
    this.#putSlice(record + 40, this.#text, name.length);
    if (timeZone) {
      const form = timeZone.name === null ? ZONE_OFFSET : NAME, it = timeZone.offset ?? { sign: 1, hour: 0, minute: 0 };
      this.#putBytes(record + 56, [form, timeZone.critical ? 1 : 0, it.sign < 0 ? 1 : 0, it.hour, it.minute]);
    }
    this.#putSlice(record + 64, this.#text + name.length, (calendar ?? '').length);
    view.setUint8(record + 80, calendar === null ? 0 : 1);
    return aligned(this.#text + name.length + (calendar ?? '').length);
  }

  #putDuration({ sign, date, time }) {
    const view = this.#view, place = this.#duration;
    new Uint8Array(view.buffer, place, 80).fill(0);
    if (date) {
      view.setBigUint64(place, date.days, true);
      view.setUint32(place + 40, date.years, true);
      view.setUint32(place + 44, date.months, true);
      view.setUint32(place + 48, date.weeks, true);
      view.setUint8(place + 54, 1);
    }
    if (time) {
      view.setBigUint64(place + 8, time.hours, true);
      view.setBigUint64(place + 16, time.minutes, true);
      view.setBigUint64(place + 24, time.seconds, true);
      view.setBigUint64(place + 32, time.fraction?.value ?? 0n, true);
      view.setUint8(place + 52, time.fraction?.digits ?? 0);
      view.setUint8(place + 53, LAST_UNITS.indexOf(time.lastUnit));
    }
    view.setUint8(place + 55, sign < 0 ? 1 : 0);
  }

  /** Writes a fraction, its digits and the bytes after them. */
  #putFraction(place, fraction, bytes) {
    this.#view.setBigUint64(place, fraction?.value ?? 0n, true);
    this.#putBytes(place + 8, [fraction?.digits ?? 0, ...bytes]);
  }

  #putBytes(place, bytes) {
    bytes.forEach((byte, i) => this.#view.setUint8(place + i, byte));
  }

  // ---- Lines

  /** Reads each line of UTF-8 text. Returns the number of lines, and which lines are refused. */
  lines(reader, bytes) {
    this.#begin();
    const found = { lines: 0, refused: [] }, read = this.#narrow[reader.number - 1], out = reader.isDuration ? this.#duration : this.#record;
    for (let from = startsWithMark(bytes) ? 3 : 0; from < bytes.length;) {
      const until = chunkEnd(bytes, from);
      this.#reserve(this.#text + until - from + 1);
      this.#bytes.set(bytes.subarray(from, until));
      this.#bytes[until - from] = NEWLINE;
      try {
        readLines(read, this.#text, out, this.#bytes, until - from, from, found);
      } catch (error) {
        this.#mustStart = true;
        throw stopped(error);
      }
      from = until;
    }
    return freeze({ lines: found.lines, refused: freeze(found.refused) });
  }
}

/** Reads each line of a chunk that is in memory at the place `text`, and that begins at the index `from` of the bytes. A newline is after the chunk. */
function readLines(read, text, out, bytes, length, from, found) {
  let { lines } = found, newline = -1;
  for (let begin = 0, size = 0; begin < length; begin = newline + 1) {
    lines++;
    // Most lines are as long as the line before. No reader accepts a newline, so if the text up to a newline is accepted, it is the line.
    newline = begin + size;
    if (bytes[newline] === NEWLINE && read(text + begin, 0, lineEnd(bytes, begin, newline) - begin, 0, out, 0) === OK) continue;
    newline = begin;
    while (bytes[newline] !== NEWLINE) newline++;
    size = newline - begin;
    const end = lineEnd(bytes, begin, newline);
    if (read(text + begin, 0, end - begin, 0, out, 0) !== OK) found.refused.push(freeze({ line: lines, begin: from + begin, end: from + end }));
  }
  found.lines = lines;
}

/** The end of a line, without a carriage return before its newline. */
function lineEnd(bytes, begin, newline) {
  return newline > begin && bytes[newline - 1] === CARRIAGE_RETURN ? newline - 1 : newline;
}

/** The error after a call that did not return: a trap, or no stack was left. */
function stopped(cause) {
  if (!(cause instanceof WebAssembly.RuntimeError)) return cause;
  return new Error('the module of ixdtf stopped, which is a defect of ixdtf and not of the text; the next call uses a new instance', { cause });
}

/** Whether bytes begin with a byte order mark. */
function startsWithMark(bytes) {
  return bytes[0] === 0xef && bytes[1] === 0xbb && bytes[2] === 0xbf;
}

/** The end of a chunk of whole lines, which is longer than the usual chunk only if its one line is. */
function chunkEnd(bytes, from) {
  if (bytes.length - from <= CHUNK) return bytes.length;
  const last = bytes.lastIndexOf(NEWLINE, from + CHUNK - 1);
  const newline = last >= from ? last : bytes.indexOf(NEWLINE, from + CHUNK);
  return newline < 0 ? bytes.length : newline + 1;
}

/** A report about half of a surrogate pair names U+FFFD, which stands for it in UTF-8. The report gets the code unit instead. */
function withSurrogate(report, part) {
  if (part.length !== 1 || part < '\ud800' || part > '\udfff') return report;
  return report.replace('found U+FFFD', `found the code unit 0x${part.charCodeAt(0).toString(16).toUpperCase()}`);
}
