// jsdom, to see where the two differ: it loads the page, its scripts and its frames by itself.
import { load } from "../libraries.js";

const ORIGIN = "http://page.test/";

const typeOf = (path) => (/\.(?:xhtml|xml)$/.test(path) ? "application/xhtml+xml" : /\.js$/.test(path) ? "text/javascript" : "text/html");

// What jsdom asks of a request: a promise of bytes that can be given up, and the head of the response.
function answered(text, path) {
  const bytes = text === undefined ? Promise.reject(new Error(`${path} is not there`)) : Promise.resolve(Buffer.from(text));
  return Object.assign(bytes, { abort() {}, href: ORIGIN + path, response: { headers: { "content-type": typeOf(path) } } });
}

export async function open(host, path) {
  const { JSDOM, ResourceLoader, VirtualConsole } = load("jsdom");
  class FromCheckout extends ResourceLoader {
    fetch(address) {
      const file = decodeURIComponent(new URL(address).pathname.slice(1));
      const isThere = host.checkout.has(file);
      if (file === "resources/testharnessreport.js") return answered(host.report, file);
      if (!isThere) host.missing(file);
      return answered(isThere ? host.checkout.read(file) : undefined, file);
    }
  }
  const dom = new JSDOM(host.checkout.page(path), {
    url: ORIGIN + path,
    contentType: /\.(?:any|window)\.js$/.test(path) ? "text/html" : typeOf(path),
    runScripts: "dangerously",
    resources: new FromCheckout(),
    pretendToBeVisual: true,
    virtualConsole: new VirtualConsole(),
    beforeParse: (window) => { window.reportResults = host.results; },
  });
  process.on("uncaughtException", (error) => dom.window.reportError?.(error));
}
