// node js/examples/service.mjs: a service that keeps dates. It refuses a request whose date is not valid, and says why.
import { createServer } from 'node:http';
import process from 'node:process';
import { IxdtfError, parse } from 'ixdtf';

/** Answers `POST /` with a body such as `{ "due": "2024-03-02T08:48:00Z" }`. */
export const service = createServer(async (request, response) => {
  const answer = (status, body) => response.writeHead(status, { 'content-type': 'application/json' }).end(JSON.stringify(body));
  try {
    let body = '';
    for await (const part of request) body += part;
    const { due } = JSON.parse(body);
    const { date } = parse(due, 'rfc3339');
    answer(200, { date });
  } catch (error) {
    if (error instanceof IxdtfError) answer(400, { field: 'due', message: error.message, report: error.report });
    else answer(400, { message: 'expected JSON with a text "due"' });
  }
});

if (process.argv[1] === new URL(import.meta.url).pathname) service.listen(8080, () => console.log('http://localhost:8080'));
