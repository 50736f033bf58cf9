// The page: it reads the text at each change, and shows the value or the error.
import { canonical, explain, instant, kinds, load, parse } from '../ixdtf.mjs';
import { segments } from './segments.mjs';

const EXAMPLES = [
  ['date-time', '2024-03-02T08:48:00.25-05:00[America/New_York][u-ca=hebrew]', 'a date-time with a zone and a calendar'],
  ['rfc3339', '2024-03-02 08:48:00Z', 'a space instead of T'],
  ['date-time', '2023-02-29', 'a day that the month does not have'],
  ['date-time', '2024-3-02', 'a month of one digit'],
  ['date-time', '2024-03-02T08:48:00Z[!x-note=a]', 'a critical annotation'],
  ['duration', '-P1Y2M3W4DT5H6M7.5S', 'a duration'],
  ['time', '1200', 'a time that can be a month and a day'],
  ['year-month', '2020-11', 'a year and a month'],
];
const INSTANTS = ['date-time', 'rfc3339', 'rfc9557'];
const QUIET_MILLISECONDS = 700;

const at = (id) => document.getElementById(id);
const text = at('text'), kind = at('kind'), strict = at('strict'), said = at('said'), result = at('result'), announced = at('announced');

/** An element with these children. A string becomes text, never markup. */
function element(name, properties, ...children) {
  const it = Object.assign(document.createElement(name), properties);
  it.append(...children);
  return it;
}

function row(name, value) {
  return [element('dt', {}, name), element('dd', {}, value)];
}

const code = (it) => element('code', {}, it);

function options() {
  return { kind: kind.value, profile: strict.checked ? 'strict' : 'crate' };
}

// ---- The result

function showAccepted(value) {
  const parts = segments(text.value, value).map(({ part, name, meaning }) => (
    element('li', {}, code(part), element('b', {}, name), element('span', {}, meaning))));
  const rows = row('Canonical text', code(canonical(value)));
  if (INSTANTS.includes(value.kind)) rows.push(...row('Instant', instantText(instant(value))));
  result.replaceChildren(element('ol', { className: 'parts' }, ...parts), element('dl', {}, ...rows));
  say(`Accepted as ${value.kind}`, 'good');
}

function instantText(nanoseconds) {
  if (nanoseconds === null) return 'none: the text has no date, no time or no offset';
  return `${nanoseconds} nanoseconds since 1970-01-01T00:00:00Z`;
}

function showRefused({ message, part: [begin, end], hint, index, reason }) {
  const given = text.value;
  const mark = begin === end ? element('mark', { className: 'end' }, element('span', { className: 'unseen' }, 'the text ends here'))
    : element('mark', {}, given.slice(begin, end));
  const marked = element('p', { className: 'refused' }, element('code', {}, given.slice(0, begin), mark, given.slice(end)));
  const rows = [...(hint === null ? [] : row('Hint', hint)), ...row('Index', String(index)), ...row('Reason', code(reason))];
  result.replaceChildren(marked, element('dl', {}, ...rows));
  say(`Refused: ${message}`, 'bad');
}

let timer;
function say(sentence, className) {
  said.textContent = sentence;
  said.className = className;
  // A screen reader hears the sentence after the last key, and not after each one.
  clearTimeout(timer);
  timer = setTimeout(() => { announced.textContent = sentence; }, QUIET_MILLISECONDS);
}

function show() {
  const why = explain(text.value, options());
  if (why === null) showAccepted(parse(text.value, options()));
  else showRefused(why);
}

// ---- The address

function hashOf(shownKind, shownText, isStrict = false) {
  const words = new URLSearchParams({ kind: shownKind, text: shownText });
  if (isStrict) words.set('profile', 'strict');
  return `#${words}`;
}

/** Takes the kind and the text of the address. `#TEXT` is a date-time. */
function readAddress() {
  const hash = location.hash.slice(1);
  const words = new URLSearchParams(hash);
  if (hash !== '' && !words.has('text')) words.set('text', decoded(hash));
  kind.value = kinds.includes(words.get('kind')) ? words.get('kind') : 'date-time';
  text.value = words.get('text') ?? EXAMPLES[0][1];
  strict.checked = words.get('profile') === 'strict';
}

function decoded(hash) {
  try { return decodeURIComponent(hash); } catch { return hash; }
}

function writeAddress() {
  const hash = hashOf(kind.value, text.value, strict.checked);
  at('link').href = hash;
  history.replaceState(null, '', hash);
}

function change() {
  show();
  writeAddress();
}

async function start() {
  kind.append(...kinds.map((it) => element('option', { value: it }, it)));
  at('list').append(...EXAMPLES.map(([of, example, name]) => element('li', {}, element('a', { href: hashOf(of, example) }, code(example)), ` (${name})`)));
  readAddress();
  await load();
  for (const it of [text, kind, strict]) it.addEventListener('input', change);
  at('form').addEventListener('submit', (event) => event.preventDefault());
  addEventListener('hashchange', () => { readAddress(); change(); });
  show();
  at('link').href = hashOf(kind.value, text.value, strict.checked);
}

start().catch((error) => say(`The reader could not be loaded: ${error.message}`, 'bad'));
