// As much of node:assert/strict as the tests that run in a page use.
class AssertionError extends Error {}

function fail(message) {
  throw new AssertionError(message);
}

const isObject = (it) => typeof it === "object" && it !== null;

function areEqual(one, other) {
  if (Object.is(one, other)) return true;
  if (!isObject(one) || !isObject(other) || Object.getPrototypeOf(one) !== Object.getPrototypeOf(other)) return false;
  const [names, others] = [Object.keys(one), Object.keys(other)];
  return names.length === others.length && names.every((name) => name in other && areEqual(one[name], other[name]));
}

function isExpected(fault, expected) {
  if (expected === undefined) return true;
  if (expected instanceof RegExp) return expected.test(`${fault}`);
  if (isObject(expected)) return Object.entries(expected).every(([name, value]) => (value instanceof RegExp ? value.test(fault[name]) : fault[name] === value));
  return expected.prototype !== undefined && fault instanceof expected ? true : expected.prototype === undefined && expected(fault) === true;
}

function throws(does, expected) {
  let fault;
  try {
    does();
  } catch (thrown) {
    fault = { thrown };
  }
  if (!fault) fail("nothing was thrown");
  if (!isExpected(fault.thrown, expected)) throw fault.thrown;
}

export default {
  ok: (value, message) => value || fail(message ?? "this is not true"),
  equal: (one, other, message) => Object.is(one, other) || fail(message ?? `${String(one)} is not ${String(other)}`),
  notEqual: (one, other) => !Object.is(one, other) || fail(`${String(one)} is the same`),
  deepEqual: (one, other, message) => areEqual(one, other) || fail(message ?? "these are not alike"),
  match: (text, pattern) => pattern.test(text) || fail(`${text} does not match ${pattern}`),
  doesNotMatch: (text, pattern) => !pattern.test(text) || fail(`${text} matches ${pattern}`),
  throws,
};
