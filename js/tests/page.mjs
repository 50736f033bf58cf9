// Types texts into js/page in a headless Chromium, and reads what the page shows. PICTURES is a folder for pictures of the page.
import assert from 'node:assert/strict';
import { writeFileSync } from 'node:fs';
import { join } from 'node:path';
import { fileURLToPath } from 'node:url';
import { Chromium, isThere } from './chromium.mjs';
import { SHOWN, TEXTS, compare } from './page_texts.mjs';
import { serve } from './serve.mjs';

/** Types a text as a person does: it replaces what is in the field. */
async function type(browser, kind, text) {
  await browser.value(`(() => { const it = document.getElementById('kind'); it.value = ${JSON.stringify(kind)}; it.dispatchEvent(new Event('input')); document.getElementById('text').focus(); document.getElementById('text').select(); })()`);
  await browser.send('Input.insertText', { text });
  return browser.value(SHOWN);
}

async function texts(browser, check) {
  for (const [kind, text, expected] of TEXTS) {
    await check(`the page reads ${text}`, async () => {
      compare(await type(browser, kind, text), kind, expected);
    });
  }
}

async function addresses(browser, url, check) {
  await check('the address has the text', async () => {
    await type(browser, 'duration', 'P1D');
    assert.equal(await browser.value('location.hash'), '#kind=duration&text=P1D');
    assert.equal(await browser.value("document.getElementById('link').hash"), '#kind=duration&text=P1D');
  });
  await check('an address opens its text', async () => {
    for (const [hash, parts] of [['#kind=time&text=1200&profile=strict', ['1200']], ['#2024-03-02', ['2024-03-02']], ['#kind=duration&text=%2BP1D', ['+', 'P', '1D']], ['#kind=nothing&text=2024-03-02', ['2024-03-02']]]) {
      await browser.value(`location.hash = ${JSON.stringify(hash)}`);
      await browser.until(`JSON.stringify(${SHOWN}.parts) === ${JSON.stringify(JSON.stringify(parts))}`);
    }
  });
  await check('each example can be opened', async () => {
    const count = await browser.value("document.querySelectorAll('#list a').length");
    for (let i = 0; i < count; i++) {
      await browser.value(`document.querySelectorAll('#list a')[${i}].click()`);
      await browser.until(`document.getElementById('text').value === document.querySelectorAll('#list code')[${i}].textContent`);
    }
    assert.equal(count, 8);
  });
}

async function access(browser, check) {
  await check('the fields can be reached by keyboard, in order', async () => {
    await browser.value("document.getElementById('text').focus()");
    const reached = [];
    for (let i = 0; i < 3; i++) {
      await browser.press({ key: 'Tab', code: 'Tab', windowsVirtualKeyCode: 9 });
      reached.push(await browser.value("document.activeElement.id || document.activeElement.tagName"));
    }
    assert.deepEqual(reached, ['kind', 'strict', 'A']);
  });
  await check('a screen reader finds the names, and hears the result', async () => {
    const { nodes } = await browser.send('Accessibility.getFullAXTree');
    const found = nodes.filter((it) => !it.ignored).map((it) => `${it.role?.value}: ${it.name?.value}`);
    for (const name of ['textbox: Text', 'combobox: Kind', 'checkbox: Strict profile', 'navigation: Examples', 'link: Link to this text', 'heading: ixdtf']) assert.ok(found.includes(name), `${name} is not among\n${found.join('\n')}`);
    assert.ok(nodes.some((it) => it.role?.value === 'status'));
    await type(browser, 'date-time', '2024-13-01');
    await browser.until("document.getElementById('announced').textContent === 'Refused: the month is 13, and has to be 01 to 12'");
  });
}

/** js/examples/form.html: a form with the reader as its validator. */
async function form(browser, url, check) {
  await check('a form refuses a text, and says why', async () => {
    await browser.go(url);
    await browser.until("document.getElementById('due') !== null && document.readyState === 'complete'");
    const typed = async (text) => {
      await browser.value("(() => { const it = document.getElementById('due'); it.focus(); it.select(); })()");
      await browser.send('Input.insertText', { text });
      return browser.value("[document.querySelector('form').checkValidity(), document.getElementById('due').validationMessage, document.getElementById('why').textContent]");
    };
    await browser.until("(document.getElementById('due').dispatchEvent(new Event('input')), document.getElementById('why').textContent !== '')");
    assert.deepEqual(await typed('2024-03-02T08:48:00Z'), [true, '', '']);
    const message = 'the hour is 24, and has to be 00 to 23';
    assert.deepEqual(await typed('2024-03-02T24:48:00Z'), [false, message, `${message}\n2024-03-02T24:48:00Z\n           ^^`]);
  });
}

/** The package in the browser: functions that Node 20 cannot test. */
async function inBrowser(browser, check) {
  const run = (body) => browser.value(`(async () => { const it = await import('../ixdtf.mjs'); await it.load(); ${body} })()`);
  await check('objects of Temporal', async () => {
    if (!await browser.value("typeof Temporal === 'object'")) return console.log('left out: toTemporal, because this Chromium has no Temporal');
    const made = await run(`return [['2024-03-02T08:48:00-05:00[America/New_York]'], ['2024-03-02T08:48:00Z'], ['2024-03-02T08:48:00'], ['2024-03-02[u-ca=hebrew]'], ['2024-03-02']].map(([text]) => {
      const made = it.toTemporal(text); return [made.constructor.name, made.toString()]; })
      .concat([['2020-11', 'year-month'], ['11-07', 'month-day'], ['T1230', 'time'], ['P1DT2H', 'duration']].map(([text, kind]) => { const made = it.toTemporal(it.parse(text, kind)); return [made.constructor.name, made.toString()]; }))`);
    assert.deepEqual(made, [['ZonedDateTime', '2024-03-02T08:48:00-05:00[America/New_York]'], ['Instant', '2024-03-02T08:48:00Z'], ['PlainDateTime', '2024-03-02T08:48:00'], ['PlainDate', '2024-03-02[u-ca=hebrew]'],
      ['PlainDate', '2024-03-02'], ['PlainYearMonth', '2020-11'], ['PlainMonthDay', '11-07'], ['PlainTime', '12:30:00'], ['Duration', 'P1DT2H']]);
    assert.equal(await run("return it.toTemporal('2024-07-01T00:00:00-05:00[America/New_York]', { offset: 'use' }).toString()"), '2024-07-01T01:00:00-04:00[America/New_York]');
    for (const call of ["it.toTemporal('2024-07-01T00:00:00-05:00[America/New_York]')", "it.toTemporal('2024-03-02T08:48:00Z[Mars/Base]')", "it.toTemporal(it.parse('+05', 'offset'))"]) {
      assert.equal(await run(`try { ${call}; return 'made'; } catch (error) { return error.name; }`), 'RangeError');
    }
  });
  await check('from bytes, from a response and from an address', async () => {
    const answers = await browser.value(`(async () => {
      const url = new URL('../ixdtf.wasm', location.href), of = (number) => import('../ixdtf.mjs?' + number);
      const sources = [await (await fetch(url)).arrayBuffer(), await fetch(url), fetch(url), url, url.href, WebAssembly.compileStreaming(fetch(url))];
      return Promise.all(sources.map(async (source, i) => { const it = await of(i); await it.load(source); return it.isValid('2024-03-02'); }));
    })()`);
    assert.deepEqual(answers, [true, true, true, true, true, true]);
  });
  await check('a missing module is an error, and the next call tries again', async () => {
    const said = await browser.value(`(async () => { const it = await import('../ixdtf.mjs?missing');
      const first = await it.load(new Response('', { status: 404 })).catch((error) => error.message); await it.load(); return [first, it.isValid('2024-03-02')]; })()`);
    assert.match(said[0], /status 404/);
    assert.equal(said[1], true);
  });
}

async function pictures(browser, check) {
  for (const width of [390, 1280]) {
    for (const scheme of ['light', 'dark']) {
      await check(`nothing is cut off at ${width} pixels, ${scheme}`, async () => {
        await browser.send('Emulation.setDeviceMetricsOverride', { width, height: 900, deviceScaleFactor: 1, mobile: width < 500 });
        await browser.send('Emulation.setEmulatedMedia', { features: [{ name: 'prefers-color-scheme', value: scheme }] });
        for (const [name, kind, text] of [['accepted', ...TEXTS[0]], ['refused', ...TEXTS[2]], ['long', 'date-time', `2024-03-02[${'a'.repeat(200)}]`]]) {
          await type(browser, kind, text);
          assert.ok(await browser.value('document.documentElement.scrollWidth <= innerWidth'), `${name} is wider than the page`);
          if (!process.env.PICTURES) continue;
          const { data } = await browser.send('Page.captureScreenshot', { captureBeyondViewport: true });
          writeFileSync(join(process.env.PICTURES, `${name}-${width}-${scheme}.png`), Buffer.from(data, 'base64'));
        }
      });
    }
  }
}

export async function run(check) {
  if (!isThere()) return console.log('left out: the page, because Chromium is not installed (Debian: chromium)');
  const server = await serve(fileURLToPath(new URL('..', import.meta.url)));
  const browser = new Chromium();
  try {
    const url = `http://127.0.0.1:${server.address().port}/page/`;
    await browser.open(url);
    await browser.until("document.getElementById('said').textContent.startsWith('Accepted')");
    await texts(browser, check);
    await addresses(browser, url, check);
    await access(browser, check);
    await inBrowser(browser, check);
    await pictures(browser, check);
    check('the page has no error', () => assert.deepEqual(browser.errors, []));
    await form(browser, new URL('../examples/form.html', url).href, check);
  } finally {
    await browser.close();
    server.close();
    server.closeAllConnections();
  }
}
