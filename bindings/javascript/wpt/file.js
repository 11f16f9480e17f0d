// A process that runs one test file and tells its parent what became of each subtest. The parent ends it where it takes too long.
import { Checkout } from "./checkout.js";
import { REPORT } from "./report.js";

// Sends the result of a file: its subtests as name, status and message; the harness's own status; the files that were looked for in vain.
function answer(result) {
  process.send(result, () => process.exit(0));
}

async function run({ folder, path, player }) {
  const missing = [];
  const found = new Set();
  const host = {
    checkout: new Checkout(folder),
    report: REPORT,
    missing: (file) => found.has(file) || (found.add(file), missing.push(file)),
    results: (subtests, status, message) => answer({ subtests: [...subtests].map((it) => [...it]), status, message, missing }),
  };
  const { open } = await import(`./players/${player}.js`);
  await open(host, path);
}

process.once("message", (what) => run(what).catch((fault) => answer({ subtests: [], status: 1, message: fault.stack, missing: [] })));
