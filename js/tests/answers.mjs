// What the package says about a text, in the form of the answers of ixdtf_lines (docs/PROGRAM.md).

/** The kind for each word of ixdtf_lines, and its profile. */
export function optionsOf(word) {
  const kind = word.replace('strict-', '');
  return { kind: { parse: 'date-time', iana: 'zone-name' }[kind] ?? kind, profile: kind === word ? 'crate' : 'strict' };
}

function fraction(it) {
  if (it === null) return '';
  const most = Math.min(it.digits, 18);
  const nanoseconds = most <= 9 ? it.value * 10n ** BigInt(9 - most) : it.value / 10n ** BigInt(most - 9);
  return `.${String(nanoseconds).padStart(9, '0')}`;
}

function offset(it) {
  if (it === 'Z') return 'Z';
  const second = (it.second ?? null) === null ? '' : `,${it.second}${fraction(it.fraction)}`;
  return `${it.sign < 0 ? '-' : '+'}${it.hour},${it.minute}${second}`;
}

function durationFields({ sign, date, time }) {
  const found = [`sign=${sign < 0 ? '-' : '+'}`];
  if (date) found.push(`date=${date.years},${date.months},${date.weeks},${date.days}`);
  if (time) {
    const units = ['hours', 'minutes', 'seconds'];
    found.push(`time=${units.slice(0, units.indexOf(time.lastUnit) + 1).map((unit) => time[unit]).join(',')}${fraction(time.fraction)}`);
  }
  return found;
}

/** The fields of a value. */
export function fieldsOf(value) {
  if (value.kind === 'duration') return durationFields(value).join(' ');
  const { date, time, timeZone, calendar } = value, found = [];
  if (date) found.push(`date=${date.year},${date.month},${date.day}`);
  if (time) found.push(`time=${time.hour},${time.minute},${time.second}${fraction(time.fraction)}`);
  if (value.offset) found.push(`offset=${offset(value.offset)}`);
  if (timeZone) found.push(`tz=${timeZone.critical ? '!' : ''}${timeZone.name ?? offset(timeZone.offset)}`);
  if (calendar !== null) found.push(`calendar=${calendar}`);
  return found.join(' ');
}

/** The seconds and the nanoseconds of an instant, as the tables write them. */
export function instantOf(nanoseconds) {
  if (nanoseconds === null) return 'none';
  const rest = ((nanoseconds % 1_000_000_000n) + 1_000_000_000n) % 1_000_000_000n;
  return `${(nanoseconds - rest) / 1_000_000_000n},${rest}`;
}

/** The code of an error from its name in Rust: DATE_MONTH for DateMonth. */
export const codeOf = (name) => name.split(' ')[0].replace(/(?<!^)([A-Z])/g, '_$1').toUpperCase();
