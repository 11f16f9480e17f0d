// What browsers answer to selectors, written down: as the cases of as_browsers.js, over a page, in Chromium and in Firefox.

const selectors = {
  "a text that is no selector is refused": [
    ({ document }, attempt) => {
      const texts = [">p", "1a", "@x", "", " ", ",", "p,", "p >", "..a", "#1a", "p:nosuch", ":not()", ":has()", ":has(:has(b))", "a||b", "ns|a", "[ns|a]", "[a=1]", "::nosuch", "p::before b", ":nth-child(2x)", ":nth-child(+ 1)", "[a=b x]", ":not(p:nosuch)", "a{", "b)", '[a="x\n"]'];
      return texts.map((text) => attempt(() => document.querySelectorAll(text).length));
    },
    Array(27).fill("SyntaxError"),
  ],
  "what ends with the text is closed by it": [
    (window, attempt) => {
      const { document } = window;
      document.body.innerHTML = '<p a="x">1</p><p>2</p>';
      return ["[a", "[a=x", '[a="x', "p:not([a", "p:is([a]", "p:nth-child(2"].map((text) => attempt(() => document.querySelectorAll(text).length));
    },
    [1, 1, 1, 1, 1, 1],
  ],
  "namespaces, pseudo-elements, what nobody has defined": [
    ({ document }, attempt) => {
      document.body.innerHTML = "<p>1</p><x-y></x-y><svg><a></a></svg>";
      const bare = document.body.appendChild(document.createElementNS(null, "p"));
      bare.setAttributeNS("urn:n", "n:k", "v");
      const texts = ["p", "*|p", "|p", "|*", "[*|k]", "[k]", "[|k]", "p::before", "p:before", "::-webkit-scrollbar", "x-y:defined", "p:defined", "svg:defined"];
      return texts.map((text) => attempt(() => document.querySelectorAll(text).length));
    },
    [2, 2, 1, 1, 1, 0, 0, 0, 0, 0, 0, 2, 1],
  ],
  positions: [
    ({ document }, attempt) => {
      document.body.innerHTML = "<ul><li>1</li>x<li class=n>2</li><li>3</li><!--c--><li class=n>4</li><b>5</b><li class=n>6</li></ul>";
      const texts = [":nth-child(2 of .n)", ":nth-last-child(1 of .n, b)", "li:nth-child(odd)", "li:nth-child(-n+2)", "li:nth-child( 2n + 1 )", "li:nth-last-child(2)", "li:nth-of-type(5)", "b:nth-last-of-type(1)", "li:last-of-type", "b:only-of-type", "li:nth-child(n+4)", "b:nth-last-child(2)"];
      return texts.map((text) => attempt(() => [...document.querySelectorAll(`ul ${text}`)].map((it) => it.textContent).join("")));
    },
    ["4", "6", "13", "12", "13", "", "6", "5", "6", "5", "46", "5"],
  ],
  "directions and languages": [
    ({ document }, attempt) => {
      document.body.innerHTML = "<section dir=rtl lang=de-Latn-CH><p>1</p><p dir=ltr lang=''>2</p><p dir=auto>\u05d0</p><bdi>x</bdi></section><p lang=en>3</p>";
      const texts = ["p:dir(rtl)", "p:dir(ltr)", "bdi:dir(ltr)", "p:dir(up)", "p:lang(de)", "p:lang(en)"];
      return texts.map((text) => attempt(() => document.querySelectorAll(text).length));
    },
    [2, 2, 1, 0, 2, 1],
  ],
  "what an element has in it, and what a scope is": [
    ({ document }) => {
      document.body.innerHTML = "<div id=o><p><b></b></p><p></p><i></i></div>";
      const b = document.querySelector("b");
      const outer = document.getElementById("o");
      const fragment = document.createDocumentFragment();
      fragment.append(document.createElement("p"));
      const ids = (list) => [...list].map((it) => it.localName).join();
      return [
        [b.closest(":has(> :scope)").localName, b.closest("div:has(:scope)").id, ids(outer.querySelectorAll(":scope > p")), ids(outer.querySelectorAll("div > p"))],
        [ids(document.querySelectorAll("p:has(+ i)")), ids(document.querySelectorAll(":has(~ i)")), ids(document.querySelectorAll("body :has(b)")), ids(document.querySelectorAll("div:has(p + p)"))],
        [ids(document.querySelectorAll(":scope > body")), ids(fragment.querySelectorAll(":scope > p")), b.matches(":scope"), ids(document.querySelectorAll("p:not(:has(b)), i"))],
      ];
    },
    [
      ["p", "o", "p,p", "p,p"],
      ["p", "p,p", "div,p", "div"],
      ["body", "", true, "p,i"],
    ],
  ],
  escapes: [
    ({ document }, attempt) => {
      const found = (id, selector) => {
        document.body.innerHTML = "";
        document.body.append(Object.assign(document.createElement("p"), { id }));
        return attempt(() => document.querySelectorAll(selector).length);
      };
      return [
        [found("z\ufffd", "#z\\0"), found("z\ufffd", "#z\\0 "), found("eof\ufffd", "#eof\\"), found("1a", "#\\31 a"), found("a:b", "#a\\:b"), found("\ufffd\ufffd", "#\\d834\\df06")],
        [found("\ud834\udf06", "#\\1d306"), found("z\ufffd", "#z\0"), found("\ufffd", "#\\110000"), found("a b", "#a\\20 b"), found("é", "#é"), found("--a", "#--a")],
        [found("ab", "#\\61\\62"), found("ab", "#\\000061 b"), found("x", "#\\x"), found("A", "#\\41\r\n"), found("a", "#a\\\n")],
      ];
    },
    [
      [1, 1, 1, 1, 1, 1],
      [1, 1, 1, 1, 1, 1],
      [1, 1, 1, 1, "SyntaxError"],
    ],
  ],
  attributes: [
    ({ document }) => {
      document.body.innerHTML = '<input type=TEXT data-x=A><p class="a  b c" title="a-b" data-x=a></p>';
      const texts = ["[type=text]", "[data-x=a]", "[data-x=a i]", "[class~=b]", "[class~='a b']", "[title|=a]", "[title^='']", "[title*='']", "[title$=b]", "[DATA-X]", "[data-x='A' I]", "[class~='']", "[ data-x = a ]"];
      return texts.map((text) => document.querySelectorAll(text).length);
    },
    [1, 1, 2, 1, 0, 1, 0, 0, 1, 2, 2, 0, 1],
  ],
  "a part of a list that is none": [
    ({ document }) => {
      document.body.innerHTML = "<p>1</p><b>2</b>";
      return [":is(p, :nosuch)", ":where()", ":is(p:nosuch(a, b), b)", ":is(::before, p)", "p:is(p, [a='),(')"].map((text) => document.querySelectorAll(text).length);
    },
    [1, 0, 1, 1, 1],
  ],
  "comments and white space": [
    ({ document }, attempt) => {
      document.body.innerHTML = "<p class=x>1</p><p>2</p>";
      return ["/**/p/**/.x/* */", "p/**/+/**/p", "p /**/ + p", "\n p \t", "p/**/x", "p,\fb", "/* p"].map((text) => attempt(() => document.querySelectorAll(text).length));
    },
    [1, 1, 1, 2, "SyntaxError", 2, "SyntaxError"],
  ],
  "a found list stays as it is, and the next one follows changes": [
    ({ document }) => {
      document.body.innerHTML = "<ul><li class=on>1</li><li>2</li><li>3</li></ul>";
      const list = document.querySelector("ul");
      const on = document.getElementsByClassName("on");
      const items = document.getElementsByTagName("li");
      const texts = (its) => [...its].map((it) => it.textContent).join("");
      const now = () => [texts(document.querySelectorAll(".on")), texts(document.querySelectorAll("li")), texts(on), texts(items), texts(list.children)].join();
      const first = document.querySelectorAll(".on");
      const said = [now()];
      const steps = [
        () => list.lastChild.classList.add("on"),
        () => list.insertBefore(list.lastChild, list.firstChild),
        () => list.children[1].removeAttribute("class"),
        () => list.append(document.createElement("li")),
        () => (list.lastChild.innerHTML = "<b class=on>4</b>"),
        () => list.lastChild.firstChild.remove(),
        () => list.replaceChild(document.createElement("li"), list.firstChild),
        () => (list.firstChild.className = "on off"),
        () => document.body.append(list.firstChild),
        () => (list.textContent = "x"),
        () => document.body.replaceChildren(),
      ];
      for (const step of steps) {
        step();
        said.push(now());
      }
      return [...said, texts(first)];
    },
    ["1,123,1,123,123", "13,123,13,123,123", "31,312,31,312,312", "3,312,3,312,312", "3,312,3,312,312", "34,3124,34,3124,3124", "3,312,3,312,312", ",12,,12,12", ",12,,12,12", ",12,,12,12", ",,,,", ",,,,", "1"],
  ],
};

export const SELECTOR_ANSWERS = selectors;
