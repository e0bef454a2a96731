// Runs a copy of the suite for scripts/web-platform-tests: main.js run|self-test COPY SUITE RECODE INPUT OUTPUT PATTERN
//
// COPY is the release of Debian whose copy it is, SUITE its folder, RECODE the program recode, and INPUT and OUTPUT the
// file descriptors of `conformance web-platform`. Test files and sweeps whose names have PATTERN run. For each file there
// is a line, and one for each subtest that has failed, with its message and its cause. The last line is
// `COPY: N passed, M failed, K of them explained`, or `COPY: N answers altered, M caught`.
'use strict';
const { spawnSync } = require('child_process');
const { open } = require('./library.js'), { Tests } = require('./tests.js'), { sweep } = require('./sweep.js');
const { NOT_RUN, causeOf } = require('./explained.js'), { ALTERED } = require('./altered.js');

const [mode, copy, suite, program, input, output, pattern] = process.argv.slice(2);
const library = open(Number(input), Number(output));
let alterOutput = null;

// What recode writes for bytes. It ends with 1 if something was malformed or unmappable.
function recode(from, to, bytes) {
  const { status, stdout, stderr } = spawnSync(program, [from, to], { input: bytes, maxBuffer: 1 << 30 });
  if (status !== 0 && status !== 1) throw new Error(`recode ${from} ${to}: ${status} ${stderr}`);
  return alterOutput ? alterOutput(from, to, stdout) : stdout;
}

const tests = new Tests(suite, library, recode);

// Runs the files that have a pattern, shows their lines, and returns the sums of their counts.
async function runFiles(pattern, show) {
  const sums = { passed: 0, failed: 0, explained: 0 };
  for (const file of tests.files().filter((it) => pattern.test(it))) {
    if (NOT_RUN.has(file)) {
      show(`${file}: not run: about ${NOT_RUN.get(file)}`);
      continue;
    }
    const began = library.count, subtests = await tests.run(file);
    const failures = subtests.filter(([, message]) => message !== null);
    const passed = subtests.length - failures.length;
    show(`${file}: ${passed} passed, ${failures.length} failed, ${library.count - began} questions`);
    sums.passed += passed;
    sums.failed += failures.length;
    for (const [subtest, message] of failures) {
      const cause = causeOf(copy, file, subtest, message);
      if (cause) sums.explained++;
      show(`  failed: ${subtest}: ${message}: ${cause ?? 'NOT EXPLAINED'}`);
    }
  }
  return sums;
}

async function run() {
  const { passed, failed, explained } = await runFiles(new RegExp(pattern), console.log);
  console.log(`subtests: ${passed} passed, ${failed} failed`);
  const swept = sweep(suite, recode, new RegExp(pattern), console.log);
  console.log(`sweeps: ${swept.passed} passed, ${swept.failed} failed`);
  const [allPassed, allFailed] = [passed + swept.passed, failed + swept.failed];
  console.log(`${copy}: ${allPassed} passed, ${allFailed} failed, ${explained} of them explained`);
}

// The number of failures that nothing explains, with a wrong answer or with none.
async function unexplained({ files, sweeps }, { answer = null, output = null }) {
  [library.alter, alterOutput] = [answer, output];
  const counts = files ? await runFiles(files, () => {}) : { explained: 0, ...sweep(suite, recode, sweeps, () => {}) };
  [library.alter, alterOutput] = [null, null];
  if (counts.passed + counts.failed === 0) throw new Error('nothing was compared');
  return counts.failed - counts.explained;
}

async function testItself() {
  let caught = 0;
  for (const it of ALTERED) {
    const before = await unexplained(it, {}), after = await unexplained(it, it);
    const isCaught = before === 0 && after > 0;
    if (isCaught) caught++;
    console.log(`${it.name}: ${isCaught ? 'caught' : 'NOT CAUGHT'}: ${before} failed before, and ${after} with it`);
  }
  console.log(`${copy}: ${ALTERED.length} answers altered, ${caught} caught`);
}

(mode === 'self-test' ? testItself : run)();
