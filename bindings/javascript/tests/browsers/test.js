// As much of node:test as the tests that run in a page use: each test is kept, and run by `runAll`.
const tests = [];

export default function test(name, ...given) {
  const does = given.at(-1);
  const { skip = false } = given.length > 1 ? given[0] : {};
  if (!skip) tests.push({ name, does });
}

async function failureOf({ name, does }) {
  try {
    await does();
    return null;
  } catch (fault) {
    return `${name}: ${fault?.stack ?? fault}`;
  }
}

/** How many tests there were, and what failed. */
export async function runAll() {
  const failures = [];
  for (const it of tests) failures.push(await failureOf(it));
  return { count: tests.length, failures: failures.filter(Boolean) };
}
