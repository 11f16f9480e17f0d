/** Takes the page away from the global object again. */
export const uninstall: () => void;
