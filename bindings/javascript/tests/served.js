// Folders served by http on a port of the system's choice, for pages that import without a bundler.
import { createServer } from "node:http";
import { readFile } from "node:fs/promises";
import { extname, join, normalize } from "node:path";

const TYPES = { ".js": "text/javascript", ".html": "text/html", ".json": "application/json", ".wasm": "application/wasm" };

async function answer(folders, { url }, response) {
  const [, mount, ...rest] = new URL(url, "http://localhost").pathname.split("/");
  const path = normalize(join("/", ...rest));
  try {
    const bytes = await readFile(join(folders[mount], path));
    response.writeHead(200, { "Content-Type": TYPES[extname(path)] ?? "text/plain" }).end(bytes);
  } catch {
    response.writeHead(404).end();
  }
}

/** Serves each folder below its name; returns the address, and how it ends. */
export async function serve(folders) {
  const server = createServer((request, response) => void answer(folders, request, response));
  await new Promise((ready) => server.listen(0, "127.0.0.1", ready));
  const close = () => new Promise((ended) => (server.closeAllConnections(), server.close(ended)));
  return { address: `http://127.0.0.1:${server.address().port}`, close };
}
