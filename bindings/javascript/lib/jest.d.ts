/** The settings that jest gives an environment. */
export interface EnvironmentConfig {
  /** Of the project; its `testEnvironmentOptions` has the page's `html`, `url` and `handlers`. */
  projectConfig: object;
  /** Of the whole run. */
  globalConfig: object;
}

/** An environment of jest, as its `testEnvironment` names it. */
export default class PageEnvironment {
  /** Makes the page for a test file. */
  constructor(config: EnvironmentConfig, context: object);
  /** The global object of the test file. */
  global: typeof globalThis;
  /** Before the tests of a file. */
  setup(): Promise<void>;
  /** After the tests of a file. */
  teardown(): Promise<void>;
  /** How packages are resolved. */
  exportConditions(): string[];
  /** The context that the test file runs in. */
  getVmContext(): object | null;
}
export { PageEnvironment as TestEnvironment };
