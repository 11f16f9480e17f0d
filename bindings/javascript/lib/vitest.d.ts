/** What an environment leaves: how its page is taken away. */
export interface Environment {
  /** Takes the page away. */
  teardown(): void;
}

/** A context of its own, for pools of contexts. */
export interface ContextEnvironment extends Environment {
  /** The context that tests run in. */
  getVmContext(): object;
}

/** An environment of vitest, as a file that is named as `environment` exports it. */
declare const environment: {
  /** Its name. */
  name: "huckleport";
  /** How sources are transformed, up to vitest 3. */
  transformMode: "web";
  /** The same, from vitest 4 on. */
  viteEnvironment: "client";
  /** Puts a page on the global object. */
  setup(global: object, options: Record<string, unknown>): Environment;
  /** Makes a context with a page. */
  setupVM(options: Record<string, unknown>): ContextEnvironment;
};
export default environment;
