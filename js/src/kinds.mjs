// The kinds of texts, and the functions of the library for C that belong to each of them.
import { readerNumber } from './library.mjs';

// `name` is the reader, and `printer` writes its values. `lists`: a variant of the reader lists annotations. `hasStrict`: the profile changes what it does.
const KINDS = {
  'date-time': { name: 'parse', printer: 'ixdtf_print', lists: true },
  'year-month': { name: 'parse_year_month', printer: 'ixdtf_print_year_month', lists: true },
  'month-day': { name: 'parse_month_day', printer: 'ixdtf_print_month_day', lists: true, hasStrict: true },
  time: { name: 'parse_time', printer: 'ixdtf_print_time', lists: true, hasStrict: true },
  rfc3339: { name: 'parse_rfc3339', printer: 'ixdtf_print' },
  rfc9557: { name: 'parse_rfc9557', printer: 'ixdtf_print', lists: true },
  offset: { name: 'parse_offset', printer: 'ixdtf_print_offset' },
  zone: { name: 'parse_identifier', printer: 'ixdtf_print_zone' },
  'zone-name': { name: 'parse_iana_identifier', printer: 'ixdtf_print_zone' },
  duration: { name: 'parse_duration', printer: 'ixdtf_print_duration', hasStrict: true },
};

/** The names of the kinds. */
export const kinds = Object.freeze(Object.keys(KINDS));
export const profiles = Object.freeze(['crate', 'strict']);

const READERS = new Map(kinds.flatMap((kind) => profiles.map((profile) => [`${kind} ${profile}`, readerOf(kind, profile)])));
const DATE_TIME = READERS.get('date-time crate');
const BY_KIND = new Map(kinds.map((kind) => [kind, READERS.get(`${kind} crate`)]));

function readerOf(kind, profile) {
  const { name, printer, lists, hasStrict } = KINDS[kind];
  const strict = hasStrict && profile === 'strict' ? '_strict' : '';
  return {
    kind,
    printer,
    number: readerNumber(name + strict),
    listing: lists ? readerNumber(`${name}_with_annotations${strict}`) : 0,
    isDuration: kind === 'duration',
  };
}

/** The reader that a kind, or options with a kind and a profile, choose. */
export function readerFor(options) {
  if (options === undefined) return DATE_TIME;
  if (typeof options === 'string') return BY_KIND.get(options) ?? checkKind(options);
  const { kind = 'date-time', profile = 'crate' } = Object(options);
  return READERS.get(`${kind} ${profile}`) ?? (checkKind(kind), fail('profile', profile, profiles));
}

/** The function that writes the canonical text of a value of this kind. */
export const printerFor = (kind) => KINDS[kind].printer;

/** Throws if there is no such kind. */
export function checkKind(kind) {
  if (!BY_KIND.has(kind)) fail('kind', kind, kinds);
}

function fail(what, given, known) {
  throw new RangeError(`there is no ${what} ${typeof given === 'string' ? JSON.stringify(given) : String(given)}; there are ${known.join(', ')}`);
}
