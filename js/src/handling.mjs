// Reading with a handler.
import { refuse } from './errors.mjs';
import { checkedReply } from './values.mjs';

/** Reads a text, and calls the handler for each annotation up to the first error. These are the three steps of "Handlers" in docs/C.md. The handler may
 *  call the package, so between two steps nothing is kept in the memory of the module. */
export function parseHandling(library, reader, text, handler) {
  if (typeof handler !== 'function') throw new TypeError(`onAnnotation must be a function, and is a value of type ${typeof handler}`);
  if (!reader.listing) return library.parse(reader, text) ?? refuse(library.explain(reader.number, text));
  const { brackets, parts } = library.list(reader, text);
  const replies = [];
  let calendar = null;
  for (const bracket of brackets) {
    const reply = checkedReply(handler(bracket.annotation), bracket.annotation);
    if (reply === null) continue;
    const { refused, isKept } = library.reply(calendar, reply);
    if (refused !== null) refuse(library.explainReply(refused, bracket, text));
    if (isKept) calendar = reply;
    replies.push(reply);
  }
  if (parts === null) refuse(library.explain(reader.listing, text));
  return Object.freeze({ ...parts, calendar: calendar === null ? null : calendar.value, annotations: Object.freeze(replies) });
}
