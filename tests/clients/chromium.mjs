// Drives Chromium from Node, over a pipe and with no package: pages of a folder that is served here.
import { spawn } from 'node:child_process';
import { createReadStream } from 'node:fs';
import { createServer } from 'node:http';
import { extname, join, normalize } from 'node:path';

const kinds = {
  '.html': 'text/html; charset=utf-8',
  '.css': 'text/css',
  '.js': 'text/javascript',
  '.mjs': 'text/javascript',
  '.wasm': 'application/wasm',
  '.svg': 'image/svg+xml',
};

/** Serves a folder's files on 127.0.0.1, other content by its path, and an empty page under /empty. */
export function serve(folder, others = {}) {
  const server = createServer((request, response) => {
    const path = normalize(decodeURIComponent(new URL(request.url, 'http://x').pathname));
    if (path === '/empty') return response.setHeader('content-type', kinds['.html']).end('<!doctype html><title>empty</title>');
    if (others[path]) return response.setHeader('content-type', kinds[extname(path)]).end(others[path]);
    const name = path.endsWith('/') ? `${path}index.html` : path;
    const file = createReadStream(join(folder, name));
    file.on('open', () => file.pipe(response.setHeader('content-type', kinds[extname(name)] ?? 'text/plain')));
    file.on('error', () => response.writeHead(404).end());
  });
  return new Promise((ready) => server.listen(0, '127.0.0.1', () => {
    const { port } = server.address();
    ready({ origin: `http://127.0.0.1:${port}`, close: () => server.close(), port });
  }));
}

/** Starts Chromium with its files in a folder of its own, by more words where there are any. */
export function launch(profile, ...more) {
  const words = ['--headless=new', '--no-sandbox', '--disable-gpu', '--no-first-run', `--user-data-dir=${profile}`, '--remote-debugging-pipe', ...more, 'about:blank'];
  const chromium = spawn('chromium', words, { stdio: ['ignore', 'ignore', 'ignore', 'pipe', 'pipe'] });
  const ended = new Promise((go) => chromium.on('close', go));
  const waiting = new Map();
  let count = 0, rest = '';
  chromium.stdio[3].on('error', () => {});
  chromium.stdio[4].setEncoding('utf8').on('data', (text) => {
    const messages = (rest + text).split('\0');
    rest = messages.pop();
    for (const it of messages.map((message) => JSON.parse(message))) {
      const call = waiting.get(it.id);
      waiting.delete(it.id);
      if (it.error) call?.reject(new Error(it.error.message));
      else call?.resolve(it.result);
    }
  });
  ended.then(() => { for (const { reject } of waiting.values()) reject(new Error('Chromium has ended')); });
  const send = (method, params = {}, sessionId = undefined) => new Promise((resolve, reject) => {
    waiting.set(++count, { resolve, reject });
    chromium.stdio[3].write(`${JSON.stringify({ id: count, method, params, sessionId })}\0`);
  });

  /** Opens a page. */
  async function page(url, { width = 1280, height = 800 } = {}) {
    const { targetId } = await send('Target.createTarget', { url: 'about:blank' });
    const { sessionId } = await send('Target.attachToTarget', { targetId, flatten: true });
    const on = (method, params) => send(method, params, sessionId);
    await on('Emulation.setDeviceMetricsOverride', { width, height, deviceScaleFactor: 1, mobile: width < 600 });
    await on('Page.enable');
    const evaluate = async (expression) => {
      const { result, exceptionDetails } = await on('Runtime.evaluate', { expression, awaitPromise: true, returnByValue: true, userGesture: true });
      if (exceptionDetails) throw new Error(exceptionDetails.exception?.description ?? exceptionDetails.text);
      return result.value;
    };
    const it = {
      on,
      evaluate,
      go: (to) => on('Page.navigate', { url: to }),
      /** Runs a function in the page, on arguments that are JSON. */
      run: (work, ...args) => evaluate(`(${work})(...${JSON.stringify(args)})`),
      /** Waits until an expression is true in the page. */
      async until(expression, seconds = 20) {
        for (const end = Date.now() + seconds * 1000; Date.now() < end; await new Promise((go) => setTimeout(go, 20))) {
          if (await evaluate(expression).catch(() => false)) return;
        }
        throw new Error(`not in ${seconds} seconds: ${expression}`);
      },
      async key(key, code = key) {
        const text = key === 'Enter' ? '\r' : key.length === 1 ? key : undefined;
        const virtual = { Enter: 13, Tab: 9, ' ': 32, Escape: 27, Delete: 46, ArrowDown: 40, ArrowUp: 38 }[key];
        await on('Input.dispatchKeyEvent', { type: 'keyDown', key, code, text, windowsVirtualKeyCode: virtual });
        await on('Input.dispatchKeyEvent', { type: 'keyUp', key, code, windowsVirtualKeyCode: virtual });
      },
      type: (text) => on('Input.insertText', { text }),
      picture: async () => Buffer.from((await on('Page.captureScreenshot', { format: 'png' })).data, 'base64'),
      close: () => send('Target.closeTarget', { targetId }),
    };
    if (url !== 'about:blank') {
      await it.go(url);
      await it.until(`document.readyState === 'complete' && location.href !== 'about:blank'`);
    }
    return it;
  }
  return {
    page,
    close: async () => (await send('Browser.close').catch(() => {}), ended),
    kill: () => (chromium.kill('SIGKILL'), ended),
  };
}
