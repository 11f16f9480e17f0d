// Where node is missing, the tests of the package say so and are no failure.
import assert from "node:assert/strict";
import { execFileSync, spawnSync } from "node:child_process";
import test from "node:test";
import { fileURLToPath } from "node:url";

const TESTS = fileURLToPath(new URL("../test.py", import.meta.url));

test("a line tells that node is missing", () => {
  const python = execFileSync("python3", ["-c", "import sys; print(sys.executable)"], { encoding: "utf8" }).trim();
  const ran = spawnSync(python, [TESTS], { encoding: "utf8", env: { PATH: "/nowhere" } });
  assert.equal(ran.stdout, "left out: the package for JavaScript, since there is no node\n");
  assert.equal(ran.status, 0);
});
