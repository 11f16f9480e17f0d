/** An environment of vitest with a page: a file that exports this one's default is named as `environment`. */
import { createContext, runInContext } from "node:vm";

import { ADDRESS, EMPTY, install } from "./install.js";
import { createPage } from "./page/index.js";

/** What tests look for in a context beside a page, and node has. */
const OF_NODE = ["Buffer", "process", "setImmediate", "clearImmediate", "fetch", "Request", "Response"];

/** The options of the page: `environmentOptions: { huckleport: { url } }`. */
const optionsOf = (options) => options?.huckleport ?? {};

export default {
  name: "huckleport",
  // (how sources are transformed: the first is of vitest up to 3, the other from 4 on)
  transformMode: "web",
  viteEnvironment: "client",

  /** For threads and forks: the page is put on the worker's own global object. */
  setup(global, options) {
    const uninstall = install(optionsOf(options));
    return { teardown: uninstall };
  },

  /** For pools of contexts. */
  setupVM(options) {
    const { html = EMPTY, url = ADDRESS, ...more } = optionsOf(options);
    const context = createContext({});
    const global = runInContext("globalThis", context);
    for (const name of OF_NODE) global[name] = globalThis[name];
    const window = createPage(html, { ...more, url, global });
    return { getVmContext: () => context, teardown: () => window.close() };
  },
};
