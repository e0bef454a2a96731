// Runs in the global scope of a test, after testharness.js, and passes on the subtests when all have ended. A message is
// in one line.
'use strict';
setup({ output: false });
add_completion_callback((tests, status) => {
  const line = (message) => (message || 'no message').replace(/\s+/g, ' ');
  const subtests = tests.map((it) => [it.name, it.status === it.PASS ? null : line(it.message)]);
  if (status.status !== status.OK) subtests.push(['the harness', line(status.message)]);
  host.end(JSON.stringify(subtests));
});
