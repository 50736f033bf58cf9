// The parts of an accepted text, each with its name and its meaning. The text is accepted, so its form is known, and a part ends at its first other letter.

const UNITS = { Y: 'years', M: 'months', W: 'weeks', D: 'days' };
const TIME_UNITS = { H: 'hours', M: 'minutes', S: 'seconds' };

/** The parts of a text, in order. Joined, they are the text. */
export function segments(text, value) {
  if (value.kind === 'duration') return durationParts(text);
  const bracket = value.kind === 'offset' || text.indexOf('[') < 0 ? text.length : text.indexOf('[');
  return [...coreParts(text.slice(0, bracket), value), ...bracketParts(text.slice(bracket), value)];
}

function coreParts(core, value) {
  switch (value.kind) {
    case 'year-month': return [{ part: core, name: 'year and month', meaning: `year ${value.date.year}, month ${value.date.month}` }];
    case 'month-day': return [{ part: core, name: 'month and day', meaning: `month ${value.date.month}, day ${value.date.day}` }];
    case 'offset': return [offsetPart(core, value.offset)];
    case 'zone': case 'zone-name': return [zonePart(core, value.timeZone)];
    case 'time': return timeParts(core, value);
    default: {
      const { length } = /^[^Tt ]*/.exec(core)[0];
      const { year, month, day } = value.date;
      return [{ part: core.slice(0, length), name: 'date', meaning: `year ${year}, month ${month}, day ${day}` }, ...timeParts(core.slice(length), value)];
    }
  }
}

/** A time with the `T` or the space before it, and an offset after it. */
function timeParts(text, { time, offset }) {
  if (text === '') return [];
  const [, separator, clock, rest] = /^([Tt ]?)([^Zz+-]*)(.*)$/s.exec(text);
  const digits = time.fraction === null ? '' : `, and ${time.nanoseconds} nanoseconds`;
  const found = [{ part: clock, name: 'time', meaning: `hour ${time.hour}, minute ${time.minute}, second ${time.second}${digits}` }];
  if (separator !== '') found.unshift({ part: separator, name: 'separator', meaning: separator === ' ' ? 'a space' : 'the time follows' });
  if (rest !== '') found.push(offsetPart(rest, offset));
  return found;
}

function offsetPart(part, offset) {
  if (offset === 'Z') return { part, name: 'UTC', meaning: 'the offset of local time is not known' };
  return { part, name: 'offset', meaning: offsetMeaning(offset) };
}

function offsetMeaning({ sign, hour, minute, second = null }) {
  if (sign < 0 && hour === 0 && minute === 0 && !second) return 'UTC; the offset of local time is not known';
  const seconds = second === null ? '' : ` ${second} s`;
  return `local time is ${hour} h ${minute} min${seconds} ${sign < 0 ? 'behind' : 'ahead of'} UTC`;
}

function zonePart(part, { name, offset, critical }) {
  const meaning = name === null ? offsetMeaning(offset) : 'a name, which is not looked up';
  return { part, name: 'time zone', meaning: critical ? `${meaning}; critical` : meaning };
}

function bracketParts(text, { timeZone, annotations, calendar }) {
  let hasCalendar = false, next = 0;
  return (text.match(/\[[^\]]*\]/g) ?? []).map((part) => {
    if (!part.includes('=')) return zonePart(part, timeZone);
    const { key, value, critical } = annotations[next++];
    const isCalendar = key === 'u-ca' && !hasCalendar;
    hasCalendar ||= isCalendar;
    const name = isCalendar ? 'calendar' : 'annotation';
    return { part, name, meaning: isCalendar ? calendar : `key ${key}, value ${value}${critical ? '; critical' : '; not used'}` };
  });
}

function durationParts(text) {
  let units = UNITS;
  return text.match(/[+-]|[Pp]|[Tt]|\d+(?:[.,]\d+)?[A-Za-z]/g).map((part) => {
    const letter = part.at(-1).toUpperCase();
    if (letter === 'P') return { part, name: 'duration', meaning: 'years, months, weeks or days follow, or T' };
    if (letter === 'T') { units = TIME_UNITS; return { part, name: 'time', meaning: 'hours, minutes or seconds follow' }; }
    if (part === '+' || part === '-') return { part, name: 'sign', meaning: part === '-' ? 'negative' : 'positive' };
    return { part, name: units[letter], meaning: part.slice(0, -1).replace(',', '.') };
  });
}
