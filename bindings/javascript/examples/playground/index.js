#!/usr/bin/env node
// The playground: a page to look at what commands do.
import { parseArgs } from "node:util";
import { fileURLToPath } from "node:url";

const USUAL = fileURLToPath(new URL("../../out/playground", import.meta.url));

const HELP = `usage: node bindings/javascript/examples/playground [FOLDER]

Makes a page in FOLDER (bindings/javascript/out/playground), which a browser opens from disk or from any host: commands typed or clicked, or a dialogue
of the repository, step by step; the trees, their token texts with the markers of live ranges, and the records of observers. Every reply is the
core's own, which runs in the page. It needs the package's module, and esbuild.

  --help    this text
`;

function words() {
  try {
    const { values, positionals } = parseArgs({ options: { help: { type: "boolean", default: false } }, allowPositionals: true });
    if (positionals.length > 1) throw new Error("one folder is due");
    return { isHelp: values.help, folder: positionals[0] ?? USUAL };
  } catch (fault) {
    process.stderr.write(`${fault.message}\nnode bindings/javascript/examples/playground --help says how it is used\n`);
    return process.exit(2);
  }
}

const { isHelp, folder } = words();
if (isHelp) {
  process.stdout.write(HELP);
} else {
  const { make } = await import("./make.js");
  try {
    process.stdout.write(`${make(folder)}\n`);
  } catch (fault) {
    process.stderr.write(`${fault.message}\n`);
    process.exitCode = 1;
  }
}
