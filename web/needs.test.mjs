import assert from 'node:assert/strict';
import test from 'node:test';
import { browserOf, lacking, whatToDo } from './needs.mjs';

const MAC = 'Mozilla/5.0 (Macintosh; Intel Mac OS X 10_15_7) AppleWebKit/605.1.15 (KHTML, like Gecko)';
const AGENTS = {
  safari: `${MAC} Version/18.5 Safari/605.1.15`,
  oldSafari: `${MAC} Version/16.1 Safari/605.1.15`,
  iphone: 'Mozilla/5.0 (iPhone; CPU iPhone OS 18_5 like Mac OS X) AppleWebKit/605.1.15 (KHTML, like Gecko) CriOS/137.0.7151.79 Mobile/15E148 Safari/604.1',
  foxOnIphone: 'Mozilla/5.0 (iPhone; CPU iPhone OS 17_4 like Mac OS X) AppleWebKit/605.1.15 (KHTML, like Gecko) FxiOS/139.0 Mobile/15E148 Safari/605.1.15',
  firefox: 'Mozilla/5.0 (X11; Linux x86_64; rv:128.0) Gecko/20100101 Firefox/128.0',
  chrome: 'Mozilla/5.0 (Windows NT 10.0; Win64; x64) AppleWebKit/537.36 (KHTML, like Gecko) Chrome/137.0.0.0 Safari/537.36',
  oldChrome: 'Mozilla/5.0 (Windows NT 10.0; Win64; x64) AppleWebKit/537.36 (KHTML, like Gecko) Chrome/90.0.4430.212 Safari/537.36',
  edge: 'Mozilla/5.0 (Windows NT 10.0; Win64; x64) AppleWebKit/537.36 (KHTML, like Gecko) Chrome/120.0.0.0 Safari/537.36 Edg/120.0.2210.144',
  samsung: 'Mozilla/5.0 (Linux; Android 14; SM-S918B) AppleWebKit/537.36 (KHTML, like Gecko) SamsungBrowser/26.0 Chrome/122.0.0.0 Mobile Safari/537.36',
};
const at = (userAgent, maxTouchPoints = 0) => ({ userAgent, maxTouchPoints });
const need = (what, isThere, remedy = undefined) => ({ what, isThere: () => isThere, remedy });

test('which browser it is', () => {
  const all = Object.fromEntries(Object.entries(AGENTS).map(([name, it]) => [name, browserOf(at(it))]));
  assert.deepEqual(all, {
    safari: { kind: 'safari', version: 18 },
    oldSafari: { kind: 'safari', version: 16 },
    iphone: { kind: 'touch', version: 18 },
    foxOnIphone: { kind: 'touch', version: 17 },
    firefox: { kind: 'firefox', version: 128 },
    chrome: { kind: 'chromium', version: 137 },
    oldChrome: { kind: 'chromium', version: 90 },
    edge: { kind: 'chromium', version: 120 },
    samsung: { kind: 'chromium', version: 122 },
  });
  assert.equal(browserOf(at(AGENTS.safari, 5)).kind, 'touch'); // an iPad that says that it is a Mac
  assert.deepEqual(browserOf(at('Lynx/2.9')), { kind: 'other', version: 0 });
});

test('what to do in each', () => {
  const told = (it, touches = 0) => whatToDo(browserOf(at(it, touches)));
  assert.equal(told(AGENTS.oldSafari), 'It is Safari 16, and from version 18 on it can: update it, and open the address again.');
  assert.equal(told(AGENTS.foxOnIphone), 'It is a browser of iOS 17, where all are built as Safari is, whatever they are called, and from version 18 on it can: update it, and open the address again.');
  for (const it of [AGENTS.safari, AGENTS.iphone]) assert.match(told(it), /^It is new enough, /);
  assert.equal(told(AGENTS.firefox), 'It is Firefox 128, and from version 140 on it can: update it, and open the address again.');
  assert.match(told(AGENTS.oldChrome), /^It is Chrome 90, or built as that is, and from version 111 on it can: /);
  assert.match(told(AGENTS.chrome), /^It is new enough, so this may be turned off in its settings/);
  assert.equal(told('Lynx/2.9'), 'Open the address in Chrome, Edge or Chromium from version 111, in Firefox from version 140, or in Safari from version 18.');
});

test('what a browser lacks', () => {
  const told = (...needs) => lacking(needs, at(AGENTS.firefox));
  assert.equal(told(need('fly', true)), '');
  assert.match(told(need('fly', false), need('swim', true)), /^This browser cannot show the page: it cannot fly\. It is Firefox 128, and /);
  assert.match(told(need('fly', false), need('swim', false), need('run', false)), /it cannot fly, swim or run\. .* an invitation in the address can still be used\.$/);
});

// What a setting takes away another browser need not give.
test('what has a remedy', () => {
  assert.match(lacking([need('fly', false, 'Open the window.')], at(AGENTS.firefox)), /it cannot fly\. Open the window\. Nothing was asked/);
  assert.match(lacking([need('fly', false, 'Open the window.'), need('swim', false)], at(AGENTS.firefox)), /it cannot fly or swim\. It is Firefox 128, /);
});
