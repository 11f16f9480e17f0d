/** What a page is made with. */
export interface PageOptions {
  /** Where the page is; "about:blank" if not given. */
  url?: string;
  /** The global object of a context, on which all is put. */
  global?: object;
  /** Another window, whose nodes may come into this one. */
  beside?: object;
  /** Takes what listeners and observers throw where the window's `error` event was not canceled; else it is shown on the console. */
  report?: (fault: unknown) => void;
  /** Whether texts of attributes such as `onclick` are compiled and run. */
  handlers?: boolean;
}

/** A window with a page of HTML over the core, whose names are those of TypeScript's own library "dom". */
export function createPage(html?: string, options?: PageOptions): Window & typeof globalThis;
