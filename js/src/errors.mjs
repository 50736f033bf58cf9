/** A text that a reader refuses. It is a `SyntaxError`, as for `JSON.parse`. A `RangeError` is a wrong option, or a value that cannot be written. */
export class IxdtfError extends SyntaxError {
  constructor({ message, code, reason, index, part, report, hint }) {
    super(message);
    Object.assign(this, { code, reason, index, part, report, hint });
  }
}
Object.defineProperty(IxdtfError.prototype, 'name', { value: 'IxdtfError', configurable: true, writable: true });

export function refuse(explanation) {
  throw new IxdtfError(explanation);
}

export function checkText(text) {
  if (typeof text !== 'string') throw new TypeError(`expected a string, and got ${text === null ? 'null' : `a value of type ${typeof text}`}`);
}
