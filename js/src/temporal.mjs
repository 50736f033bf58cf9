// Objects of Temporal, made from canonical texts.

/** The object of Temporal that has the parts of the value. */
export function temporalOf(value, text, options) {
  const { Temporal } = globalThis;
  if (Temporal === undefined) throw new Error('this engine has no Temporal');
  const name = typeOf(value);
  if (name === null) throw new RangeError(`Temporal has no type for a value of the kind ${value.kind}`);
  return Temporal[name].from(text, options);
}

function typeOf({ kind, date, time, offset, timeZone }) {
  switch (kind) {
    case 'duration': return 'Duration';
    case 'year-month': return 'PlainYearMonth';
    case 'month-day': return 'PlainMonthDay';
    case 'time': return 'PlainTime';
    case 'offset': case 'zone': case 'zone-name': return null;
    default:
      if (timeZone !== null) return 'ZonedDateTime';
      if (time === null) return date === null ? null : 'PlainDate';
      return offset === null ? 'PlainDateTime' : 'Instant';
  }
}
