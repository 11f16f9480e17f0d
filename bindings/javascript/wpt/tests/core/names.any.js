// META: title=Names
// META: script=names.js
test(() => {
  for (const name of GOOD_NAMES) assert_equals(document.createElement(name).localName, name);
}, "names of elements that are taken");

for (const name of BAD_NAMES) test(() => assert_throws_dom("InvalidCharacterError", () => document.createElement(name)), `the name ${JSON.stringify(name)} is refused`);
