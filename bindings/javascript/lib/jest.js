/** An environment of jest with a page: `testEnvironment: "huckleport/jest"`. What node's environment has is there too. */
import { wanted } from "./libraries.js";
import { ADDRESS, EMPTY } from "./install.js";
import { createPage } from "./page/index.js";

const { TestEnvironment: NodeEnvironment } = wanted("jest-environment-node", "an environment of jest");

/** A page in the context of a test file. `testEnvironmentOptions` has `html` and `url`, and the other options of a page. */
export default class PageEnvironment extends NodeEnvironment {
  constructor(config, context) {
    super(config, context);
    const { projectConfig } = config;
    const { html = EMPTY, url = ADDRESS, handlers } = projectConfig.testEnvironmentOptions ?? {};
    // (the function that reports is the runner's: a fault that no listener took fails the test)
    this.window = createPage(html, { url, handlers, global: this.global, report: (fault) => process.emit("uncaughtException", fault) });
    // (fake timers stand for the page's)
    if (this.fakeTimersModern) this.fakeTimersModern = new this.fakeTimersModern.constructor({ config: projectConfig, global: this.global });
  }

  /** Packages are taken as for browsers. */
  exportConditions() {
    return ["browser"];
  }

  async teardown() {
    this.window?.close();
    this.window = null;
    await super.teardown();
  }
}

export { PageEnvironment as TestEnvironment };
