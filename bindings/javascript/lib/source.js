/** The module's bytes as base64, if an entry for pages has brought them along (inline.js). */
export const inline = { base64: null };
