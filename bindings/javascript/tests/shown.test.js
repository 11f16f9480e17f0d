// What node's console shows.
import assert from "node:assert/strict";
import test from "node:test";
import { inspect } from "node:util";

import { createDocument } from "../lib/index.js";

test("a node is shown as what it is", () => {
  const document = createDocument();
  const made = document.appendChild(document.createElement("p"));
  made.setAttribute("class", "a b");
  made.append("some text", document.createComment("c"));
  assert.equal(inspect(made), '<p class="a b"> (2 children)');
  assert.equal(inspect(made.firstChild), '#text "some text"');
  assert.equal(inspect(made.lastChild), "<!--c-->");
  assert.equal(inspect(document), "#document (1 child)");
  assert.match(inspect([made]), /<p class="a b">/u);
});
