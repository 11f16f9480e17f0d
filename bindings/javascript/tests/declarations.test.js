// Whether all that the declarations name has a comment, as TypeDoc makes pages of them.
import assert from "node:assert/strict";
import { readFileSync } from "node:fs";
import { createRequire } from "node:module";
import test from "node:test";

const FILES = ["index", "page/index", "global", "install", "jest", "vitest", "dom"].map((name) => `../lib/${name}.d.ts`);
const KINDS = ["isInterfaceDeclaration", "isClassDeclaration", "isFunctionDeclaration", "isTypeAliasDeclaration", "isTypeElement", "isClassElement"];

function installed(name) {
  try {
    return createRequire(import.meta.url)(name);
  } catch {
    return null;
  }
}

const typescript = installed("typescript");
const skip = typescript ? false : "typescript is not installed";

/** What a node declares, by name; nothing where it declares nothing that pages have. */
function declared(node, source) {
  if (typescript.isVariableStatement(node)) return node.declarationList.declarations[0].name.text;
  if (!KINDS.some((is) => typescript[is](node))) return null;
  return node.name ? node.name.getText(source) : typescript.SyntaxKind[node.kind];
}

/** All that a text declares, by its path of names, with whether a comment stands ahead of it. */
function declarations(text) {
  const source = typescript.createSourceFile("declarations.ts", text, typescript.ScriptTarget.ES2022, true);
  const found = [];
  const visit = (node, above) => {
    const name = declared(node, source);
    const path = name === null ? above : [...above, name];
    if (name !== null) found.push({ path: path.join("."), name, isCommented: Boolean(node.jsDoc?.length) });
    typescript.forEachChild(node, (it) => visit(it, path));
  };
  visit(source, []);
  return found;
}

/** The paths without a comment. An interface's object has that of the interface, and a prototype needs none. */
function uncommented(text) {
  const all = declarations(text);
  const commented = new Set(all.filter((it) => it.isCommented).map((it) => it.path));
  return all.filter(({ path, name }) => !commented.has(path) && name !== "prototype").map((it) => it.path);
}

for (const file of FILES) {
  test(`all that ${file} declares has a comment`, { skip }, () => {
    const text = readFileSync(new URL(file, import.meta.url), "utf8");
    assert.deepEqual(uncommented(text), []);
  });
}

test("a comment that is missing is found", { skip }, () => {
  const text = "/** A. */\nexport interface A {\n  a: 1;\n  /** B. */\n  b: { c: 2 };\n}\nexport const A: { readonly prototype: A };\nexport function d(): void;";
  assert.deepEqual(uncommented(text), ["A.a", "A.b.c", "d"]);
});
