// Tests the playground: each reply is the one of the dialogue, and token texts are those of docs/definitions.md. If Chromium and Firefox are installed, the
// page, which is opened from disk, shows the dialogue's lines and replies.
import assert from "node:assert/strict";
import { spawnSync } from "node:child_process";
import { existsSync, mkdtempSync, readdirSync, readFileSync, rmSync } from "node:fs";
import { tmpdir } from "node:os";
import { join } from "node:path";
import { after, before, describe, test } from "node:test";
import { fileURLToPath, pathToFileURL } from "node:url";

import { Browser, missing } from "./browser.js";
import { groups, table } from "./commands.js";
import { dialogue, linesOf as cut, names } from "./dialogues.js";
import { Firefox, missing as missingFirefox } from "./firefox.js";
import { hasBundler, make, MODULE } from "./make.js";
import { callOf } from "./page/calls.js";
import { openPlace, template } from "./page/commands.js";
import { tokenText } from "./page/token_text.js";

const place = (path) => fileURLToPath(new URL(path, import.meta.url));
const ROOT = "../../../../";
const INDEX = place("index.js");
const skip = existsSync(MODULE) ? false : "there is no module (bindings/javascript/make.py puts it there)";
const noBundler = hasBundler() ? false : "there is no esbuild";

const document = (name) => readFileSync(place(`${ROOT}docs/${name}`), "utf8");
const texts = (lines) => lines.map((line) => Buffer.from(line).toString());
const linesOf = (name) => texts(dialogue(name).lines);
const replies = (name) => texts(cut(readFileSync(place(`${ROOT}dialogues/${name}.out`))));
const written = (tokens) => tokens.map((it) => it.shown).join("");

// The texts of the table that docs/definitions.md has: a dialogue, the line of the edit, the tree.
const EXAMPLES = [
  ["ranges/ends_after_insertion", 11, 1],
  ["ranges/ends_after_replaced_data", 8, 1],
  ["ranges/ends_after_replaced_data", 12, 1],
  ["ranges/ends_after_split", 12, 1],
];

test("token texts of rows and ends", () => {
  const rows = [[0, 1, 1, "p", []], [1, 2, 3, "#text", "a\u{1F600}["], [1, 3, 8, "#comment", [0xd83d]], [1, 4, 7, "t", "b"]];
  assert.equal(written(tokenText(rows, [])), '<p>"a\u{1F600}\\["<!--\\ud83d--><?t b?></p>');
  assert.equal(written(tokenText(rows, [[0, [1, 1, 2, 2]], [3, [2, 0, 4, 1]]])), '<p>"[3a\\ud83d]0\\ude00\\["[0<!--\\ud83d--><?t b]3?></p>');
});

test("a command that is clicked is a line of JSON once its places, which are of numbers alone, are filled", () => {
  const commands = Object.values(groups()).flat();
  assert.deepEqual(commands.map((it) => it.split(" ")[0]), table().map((it) => it.name));
  for (const [at, command] of commands.entries()) {
    let line = template(command);
    for (let open = openPlace(line); open; open = openPlace(line)) line = `${line.slice(0, open[0])}-1${line.slice(open[1])}`;
    const shapes = table()[at].arguments.map((it) => it.shape);
    const [, ...given] = JSON.parse(line);
    assert.equal(given.length, shapes.length);
    for (const [place, value] of given.entries()) assert.ok(value !== -1 || shapes[place].startsWith("a_number"), command);
  }
});

test("a line is shown as the call that it is in a program", () => {
  const trees = [{ rows: [[0, 0, 9, "#document", []], [1, 1, 1, "p", []], [2, 2, 3, "#text", "ab"], [2, 4, 3, "#text", "cd"]] }];
  const said = (words, reply) => callOf({ line: JSON.stringify(words), reply: JSON.stringify(reply), trees }, groups());
  assert.equal(said(["splitText", 2, 2], { ok: 4 }), "text4 = text2.splitText(2)");
  assert.equal(said(["createElement", 0, "p"], { ok: 1 }), 'p1 = document.createElement("p")');
  assert.equal(said(["insertBefore", 1, 2, 4], { ok: 2 }), "p1.insertBefore(text2, text4)");
  assert.equal(said(["insertBefore", 1, 2, null], { ok: 2 }), "p1.insertBefore(text2, null)");
  assert.equal(said(["setData", 2, "x"], { ok: null }), 'text2.data = "x"');
  assert.equal(said(["createRange", 0], { ok: 0 }), "range0 = document.createRange()");
  assert.equal(said(["setStart", 0, 2, 1], { ok: null }), "range0.setStart(text2, 1)");
  assert.equal(said(["walk", 0, "nextNode"], { ok: 4 }), "walker0.nextNode()");
  assert.equal(said(["observe", 0, 1, { childList: true }], { ok: null }), 'observer0.observe(p1, {"childList":true})');
  assert.equal(said(["splitText", 2, 9], { error: "index-size" }), "");
  assert.equal(said(["nosuch"], { ok: 1 }), "");
});

test("words that are not known are refused", () => {
  const run = (...words) => spawnSync(process.execPath, [INDEX, ...words], { encoding: "utf8", timeout: 10000 });
  assert.match(run("--help").stdout, /^usage:/);
  for (const words of [["--nosuch"], ["here", "there"]]) assert.equal(run(...words).status, 2);
});

describe("over the module", { skip }, () => {
  let play;
  before(async () => {
    ({ play } = await import("./page/play.js"));
  });

  test("each reply to each line of each dialogue is the dialogue's", () => {
    for (const name of names()) {
      const { lines, options } = dialogue(name);
      assert.deepEqual(play(lines, options).slice(1).map((it) => it.reply), replies(name), name);
    }
  });

  test("token texts are those of docs/definitions.md", () => {
    const rows = document("definitions.md").split("\n");
    for (const [name, line, root] of EXAMPLES) {
      const { lines, options } = dialogue(name);
      const [one, other] = play(lines, options).slice(line - 1, line + 1).map((step) => written(step.trees.find((it) => it.root === root).tokens));
      assert.ok(rows.some((row) => row.startsWith(`| \`${one}\` |`) && row.endsWith(`| \`${other}\` |`)), `${one} | ${other}`);
    }
  });

  test("records that wait are those that are taken later", () => {
    const { lines, options } = dialogue("observers/two_told");
    const steps = play(lines, options);
    for (const [at, step] of steps.entries()) {
      const [name, observer] = step.line?.startsWith('["takeRecords"') ? JSON.parse(step.line) : [];
      if (name) assert.deepEqual(steps[at - 1].observers[observer], JSON.parse(step.reply).ok);
    }
  });

  describe("as a page", { skip: noBundler }, () => {
    let folder, address;
    before(() => {
      folder = mkdtempSync(join(tmpdir(), "huckleport-page-"));
      address = `${pathToFileURL(make(folder))}`;
    });
    after(() => rmSync(folder, { recursive: true }));

    test("the page is one file, which asks for nothing", () => {
      assert.deepEqual(readdirSync(folder), ["index.html"]);
      const text = readFileSync(join(folder, "index.html"), "utf8").replace(/<script>[^]*?<\/script>/u, "");
      assert.doesNotMatch(text, /<(?:script|link|img)[^>]*(?:src|href)="(?!data:)/u);
    });

    describe("in firefox", { skip: missingFirefox() ?? false }, () => {
      let browser;
      before(async () => { browser = await Firefox.open(); });
      after(() => browser?.close());

      test("a dialogue is played, and the page shows its lines and replies", async () => {
        for (const name of ["ranges/ends_after_split", "observers/two_told"]) {
          await browser.goTo(`${address}?dialogue=${name}`);
          const shown = (selector) => browser.value(`[...document.querySelectorAll(${JSON.stringify(selector)})].map((it) => it.textContent)`);
          assert.deepEqual(await shown("#lines .command"), linesOf(name));
          assert.deepEqual(await shown("#lines .reply"), replies(name));
        }
      });
    });

    describe("in chromium", { skip: missing() ?? false }, () => {
      let browser;
      before(async () => { browser = await Browser.open(); });
      after(() => browser?.close());

      const shown = (selector) => browser.value(`[...document.querySelectorAll(${JSON.stringify(selector)})].map((it) => it.textContent)`);

      test("a dialogue is played, and the page shows its lines and replies", async () => {
        for (const name of ["ranges/ends_after_split", "observers/two_told", "bad_input/ranges_refused"]) {
          await browser.goTo(`${address}?dialogue=${name}`);
          assert.deepEqual(await shown("#lines .command"), linesOf(name));
          assert.deepEqual(await shown("#lines .reply"), replies(name));
        }
      });

      test("a dialogue is chosen, and gone through step by step", async () => {
        const [, , , [name, line]] = EXAMPLES;
        await browser.goTo(address);
        await browser.value(`(() => { const it = document.querySelector("#dialogue"); it.value = ${JSON.stringify(name)}; it.dispatchEvent(new Event("change")); })()`);
        await browser.until(`document.querySelectorAll(".line").length === ${dialogue(name).lines.length}`);
        await browser.click(`.line[data-step="${line}"]`);
        assert.deepEqual(await shown('.text[data-root="1"]'), ['<p>"ab[0""c]0d"[1"e"]1</p>']);
        await browser.click("#back");
        assert.deepEqual(await shown('.text[data-root="1"]'), ['<p>"ab[0c]0d"[1"e"]1</p>']);
        await browser.press("ArrowRight");
        assert.deepEqual(await shown('.text[data-root="1"]'), ['<p>"ab[0""c]0d"[1"e"]1</p>']);
        assert.deepEqual(await shown("#place"), [`${line} of ${dialogue(name).lines.length}`]);
      });

      test("commands are typed and clicked", async () => {
        await browser.goTo(address);
        const enter = async (line, step) => {
          await browser.click("#command");
          await browser.type(line);
          await browser.press("Enter");
          await browser.until(`document.querySelectorAll(".line").length === ${step} && document.querySelector("#command").value === ""`);
        };
        await enter('["createElement",0,"p"]', 1);
        await browser.click('[data-command="createText document text"]');
        await browser.click(".typed button");
        await browser.until('document.querySelectorAll(".line").length === 2 && document.querySelector("#command").value === ""');
        await browser.value('(() => { const it = document.querySelector("#group"); it.value = "trees"; it.dispatchEvent(new Event("change")); })()');
        await browser.click('[data-command="appendChild parent node"]');
        await browser.click('.number[data-node="1"]');
        await browser.click('.number[data-node="2"]');
        await browser.press("Enter");
        await browser.until('document.querySelectorAll(".line").length === 3');
        assert.deepEqual(await shown("#lines .reply"), ['{"ok":1}', '{"ok":2}', '{"ok":2}']);
        assert.deepEqual(await shown(".text"), ["<#document></#document>", '<p>"text"</p>']);
      });

      test("a document starts from HTML, and calls stand beside the lines", async () => {
        await browser.goTo(address);
        await browser.click("#html");
        await browser.type('<p title="x">ab<b>c</b></p>');
        await browser.press("Enter");
        await browser.until('document.querySelectorAll(".line").length === 9');
        assert.deepEqual(await shown(".text"), ['<#document><p>"ab"<b>"c"</b></p></#document>']);
        assert.deepEqual((await shown("#lines .call")).slice(0, 3), ['p1 = document.createElement("p")', 'p1.setAttribute("title", "x")', 'text2 = document.createTextNode("ab")']);
        assert.match((await shown("#about"))[0], /step by step/);
      });

      test("a click on the link copies it", async () => {
        await browser.goTo(`${address}?dialogue=ranges/ends_after_split&step=2`);
        await browser.value("Object.defineProperty(navigator, 'clipboard', { value: { writeText: async (text) => void (globalThis.copied = text) } }), 1");
        await browser.click("#link");
        await browser.until('document.querySelector("#link").textContent === "copied"');
        assert.match(await browser.value("copied"), /#dialogue=ranges%2Fends_after_split&step=2$/);
        assert.equal(await browser.value("location.href"), await browser.value("copied"));
      });

      test("a link carries the typed command", async () => {
        await browser.goTo(`${address}?dialogue=ranges/ends_after_split&step=2`);
        await browser.click("#command");
        await browser.type('["createComment",0,"mine"]');
        await browser.press("Enter");
        await browser.until('document.querySelectorAll(".line").length === 3');
        const link = await browser.value('document.querySelector("#link").href');
        await browser.call("Page.navigate", { url: "about:blank" });
        await browser.until('location.href === "about:blank"');
        await browser.goTo(link);
        assert.deepEqual((await shown("#lines .command")).at(-1), '["createComment",0,"mine"]');
        assert.deepEqual(await shown("#place"), ["3 of 3"]);
      });

      test("an observer's records stand there until they are taken", async () => {
        await browser.goTo(`${address}?dialogue=observers/two_told&step=11`);
        assert.deepEqual(await shown("#records .type"), ["attributes", "childList", "attributes"]);
        await browser.goTo(`${address}?dialogue=observers/two_told&step=17`);
        assert.deepEqual(await shown("#records .type"), []);
      });
    });
  });
});
