// Runs test files in processes of their own, some at a time, each with a limit of time.
import { fork } from "node:child_process";
import { fileURLToPath } from "node:url";

import { PLACES } from "./libraries.js";

const FILE = fileURLToPath(new URL("file.js", import.meta.url));

const failed = (message) => ({ subtests: [], status: 2, message, missing: [] });

// What became of one file.
function runFile(folder, path, { player, limit, environment }) {
  return new Promise((tell) => {
    const start = performance.now();
    const child = fork(FILE, { stdio: ["ignore", "ignore", "pipe", "ipc"], env: { ...process.env, NODE_PATH: PLACES, ...environment } });
    let said = "";
    const end = (result) => tell({ path, seconds: (performance.now() - start) / 1000, ...result });
    const timer = setTimeout(() => {
      end(failed(`it did not end within ${limit} seconds`));
      child.kill("SIGKILL");
    }, limit * 1000);
    child.stderr.on("data", (data) => { said = (said + data).slice(-2000); });
    child.on("message", end);
    child.on("exit", (status, signal) => {
      clearTimeout(timer);
      end(failed(`the process ended with ${signal ?? `status ${status}`} before it told results${said && `: ${said}`}`));
    });
    child.send({ folder, path, player });
  });
}

// Runs all files, and hands each result over when it is there.
export async function runFiles(folder, paths, options, tell) {
  const waiting = [...paths];
  async function work() {
    for (let path = waiting.shift(); path !== undefined; path = waiting.shift()) tell(await runFile(folder, path, options));
  }
  await Promise.all(Array.from({ length: options.jobs }, work));
}
