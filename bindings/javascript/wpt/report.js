// The text that stands for a checkout's testharnessreport.js: it hands the results to the runner.
export const REPORT = `
setup({ output: false, explicit_timeout: true });
add_completion_callback(function (tests, status) {
  reportResults(tests.map(function (it) { return [it.name, it.status, it.message]; }), status.status, status.message);
});
`;
