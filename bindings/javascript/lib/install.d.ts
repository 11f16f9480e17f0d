import type { PageOptions } from "./page/index.js";

/** The page that is put there if none is given. */
export const EMPTY: string;
/** Where that page is. */
export const ADDRESS: string;

/** How a page is put on the global object: the options of a page, which is put nowhere else. */
export interface InstallOptions extends Omit<PageOptions, "global"> {
  /** The page; an empty one if not given. */
  html?: string;
}

/** Puts a page on the global object, and returns a function that takes it away again. */
export function install(options?: InstallOptions): () => void;
