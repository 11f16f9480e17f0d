// Chromium without a window, spoken to by its debugging protocol over a WebSocket: node's own (22 and later, or 20 with --experimental-websocket), or that
// of the library ws.
import { spawn, spawnSync } from "node:child_process";
import { mkdtempSync, rmSync } from "node:fs";
import { tmpdir } from "node:os";
import { join } from "node:path";

import { find } from "../../wpt/libraries.js";

const Socket = globalThis.WebSocket ?? find("ws");
const NAMES = ["chromium", "chromium-browser", "google-chrome"];

// The program's name, or nothing where this machine has none.
const chromium = () => NAMES.find((name) => spawnSync(name, ["--version"], { stdio: "ignore" }).status === 0);

// Why no page can be tested here, or nothing.
export function missing() {
  if (!chromium()) return "there is no chromium";
  return Socket ? undefined : "there is no WebSocket (node 22, node 20 with --experimental-websocket, or Debian's node-ws)";
}

// Where the browser listens, as it says itself.
function listening(child) {
  return new Promise((tell, fail) => {
    let said = "";
    child.stderr.on("data", (data) => {
      said += data;
      const found = /DevTools listening on (ws:\S+)/.exec(said);
      if (found) tell(found[1]);
    });
    child.once("exit", () => fail(new Error(`the browser ended: ${said}`)));
  });
}

export class Browser {
  #next = 1;
  #waiting = new Map();
  #isClosed = false;

  static async open({ width = 1200, height = 800, words: more = [] } = {}) {
    const it = new Browser();
    it.folder = mkdtempSync(join(tmpdir(), "huckleport-browser-"));
    const words = ["--headless=new", "--no-sandbox", "--disable-gpu", "--hide-scrollbars", "--remote-debugging-port=0", `--user-data-dir=${it.folder}`, `--window-size=${width},${height}`];
    it.child = spawn(chromium(), [...words, ...more, "about:blank"], { stdio: ["ignore", "ignore", "pipe"] });
    it.socket = new Socket(await listening(it.child));
    it.socket.addEventListener("message", ({ data }) => it.#take(JSON.parse(data)));
    it.socket.addEventListener("close", () => it.#end());
    await new Promise((ready) => it.socket.addEventListener("open", ready));
    const { targetInfos } = await it.call("Target.getTargets");
    const { targetId } = targetInfos.find((target) => target.type === "page");
    it.page = (await it.call("Target.attachToTarget", { targetId, flatten: true })).sessionId;
    await it.call("Emulation.setDeviceMetricsOverride", { width, height, deviceScaleFactor: 1, mobile: false });
    return it;
  }

  #take({ id, result, error }) {
    const { tell, fail } = this.#waiting.get(id) ?? {};
    this.#waiting.delete(id);
    if (error) fail?.(new Error(error.message));
    else tell?.(result);
  }

  // Fails the calls that wait, and later ones, since nothing will answer them.
  #end() {
    this.#isClosed = true;
    for (const { fail } of this.#waiting.values()) fail(new Error("the browser has closed its socket"));
  }

  call(method, params = {}) {
    if (this.#isClosed) return Promise.reject(new Error("the browser has closed its socket"));
    const id = this.#next++;
    this.socket.send(JSON.stringify({ id, method, params, sessionId: this.page }));
    return new Promise((tell, fail) => this.#waiting.set(id, { tell, fail }));
  }

  // The value of an expression in the page, also of a promise.
  async value(expression) {
    const { result, exceptionDetails } = await this.call("Runtime.evaluate", { expression, returnByValue: true, awaitPromise: true });
    if (exceptionDetails) throw new Error(exceptionDetails.exception?.description ?? exceptionDetails.text);
    return result.value;
  }

  // Waits until an expression in the page is true.
  async until(expression) {
    const end = Date.now() + 60000;
    while (!(await this.value(`Boolean(${expression})`))) {
      if (Date.now() > end) throw new Error(`this never came: ${expression}`);
      await new Promise((ready) => setTimeout(ready, 20));
    }
  }

  async goTo(url) {
    await this.call("Page.navigate", { url });
    await this.until(`location.href === ${JSON.stringify(url)} && document.documentElement?.dataset.ready`);
  }

  // Clicks in the middle of the first element that a selector means.
  async click(selector) {
    const { x, y } = await this.value(`(() => {
      const it = document.querySelector(${JSON.stringify(selector)});
      it.scrollIntoView({ block: "nearest" });
      const { left, top, width, height } = it.getBoundingClientRect();
      return { x: left + width / 2, y: top + height / 2 };
    })()`);
    for (const type of ["mousePressed", "mouseReleased"]) await this.call("Input.dispatchMouseEvent", { type, x, y, button: "left", clickCount: 1 });
  }

  async type(text) {
    await this.call("Input.insertText", { text });
  }

  async press(key) {
    const words = { key, code: key, text: key === "Enter" ? "\r" : undefined, windowsVirtualKeyCode: { Enter: 13, ArrowLeft: 37, ArrowRight: 39 }[key] };
    for (const type of ["keyDown", "keyUp"]) await this.call("Input.dispatchKeyEvent", { type, ...words });
  }

  // A picture of the page, as the bytes of a PNG.
  async picture() {
    return Buffer.from((await this.call("Page.captureScreenshot", { format: "png" })).data, "base64");
  }

  async close() {
    const ended = new Promise((ready) => this.child.once("exit", ready));
    await this.call("Browser.close").catch(() => this.child.kill());
    if (this.child.exitCode === null && this.child.signalCode === null) await ended;
    rmSync(this.folder, { recursive: true, force: true, maxRetries: 5 });
  }
}
