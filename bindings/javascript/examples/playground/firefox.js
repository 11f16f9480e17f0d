// Firefox without a window, driven by WebDriver BiDi over a WebSocket. Tests read the content of a page from it.
import { spawn, spawnSync } from "node:child_process";
import { mkdtempSync, rmSync } from "node:fs";
import { tmpdir } from "node:os";
import { join } from "node:path";

import { find } from "../../wpt/libraries.js";

const Socket = globalThis.WebSocket ?? find("ws");
const NAMES = ["firefox-esr", "firefox"];

// The program's name, or nothing where this machine has none.
const firefox = () => NAMES.find((name) => spawnSync(name, ["--version"], { stdio: "ignore" }).status === 0);

// Why no page can be tested here, or nothing.
export function missing() {
  if (!firefox()) return "there is no firefox";
  return Socket ? undefined : "there is no WebSocket (node 22, node 20 with --experimental-websocket, or Debian's node-ws)";
}

// Where the browser listens, as it says itself.
function listening(child) {
  return new Promise((tell, fail) => {
    let said = "";
    child.stderr.on("data", (data) => {
      said += data;
      const found = /WebDriver BiDi listening on (ws:\S+)/.exec(said);
      if (found) tell(`${found[1]}/session`);
    });
    child.once("exit", () => fail(new Error(`the browser ended: ${said}`)));
  });
}

export class Firefox {
  #next = 1;
  #waiting = new Map();
  #isClosed = false;

  static async open() {
    const it = new Firefox();
    it.folder = mkdtempSync(join(tmpdir(), "huckleport-firefox-"));
    const words = ["--headless", "--no-remote", "--remote-debugging-port=0", "--profile", it.folder, "about:blank"];
    it.child = spawn(firefox(), words, { stdio: ["ignore", "ignore", "pipe"], env: { ...process.env, HOME: it.folder } });
    it.socket = new Socket(await listening(it.child));
    it.socket.addEventListener("message", ({ data }) => it.#take(JSON.parse(data)));
    it.socket.addEventListener("close", () => it.#end());
    await new Promise((ready) => it.socket.addEventListener("open", ready));
    await it.call("session.new", { capabilities: {} });
    const { contexts } = await it.call("browsingContext.getTree");
    it.context = contexts[0].context;
    return it;
  }

  #take({ id, type, result, message }) {
    const { tell, fail } = this.#waiting.get(id) ?? {};
    this.#waiting.delete(id);
    if (type === "error") fail?.(new Error(message));
    else tell?.(result);
  }

  // Fails the calls that wait, and later ones, since nothing will answer them.
  #end() {
    this.#isClosed = true;
    for (const { fail } of this.#waiting.values()) fail(new Error("the browser has closed its socket"));
  }

  call(method, params = {}) {
    if (this.#isClosed) return Promise.reject(new Error("the browser has closed its socket"));
    const id = this.#next++;
    this.socket.send(JSON.stringify({ id, method, params }));
    return new Promise((tell, fail) => this.#waiting.set(id, { tell, fail }));
  }

  // The value of an expression in the page, also of a promise, which comes as JSON.
  async value(expression) {
    const words = { expression: `(async () => JSON.stringify(await (${expression})))()`, target: { context: this.context }, awaitPromise: true };
    const { result, exceptionDetails } = await this.call("script.evaluate", words);
    if (exceptionDetails) throw new Error(exceptionDetails.text);
    return result.value === undefined ? undefined : JSON.parse(result.value);
  }

  // Waits until an expression in the page is true.
  async until(expression) {
    const end = Date.now() + 60000;
    while (!(await this.value(`Boolean(${expression})`))) {
      if (Date.now() > end) throw new Error(`this never came: ${expression}`);
      await new Promise((ready) => setTimeout(ready, 20));
    }
  }

  async goTo(url) {
    await this.call("browsingContext.navigate", { context: this.context, url, wait: "complete" });
    await this.until("document.documentElement.dataset.ready");
  }

  async close() {
    const ended = new Promise((ready) => this.child.once("exit", ready));
    await this.call("browser.close").catch(() => this.child.kill());
    if (this.child.exitCode === null && this.child.signalCode === null) await ended;
    rmSync(this.folder, { recursive: true, force: true, maxRetries: 5 });
  }
}
