// The failures that have a cause outside the library, and the test files that are not run.
'use strict';

// By the copy (any, if left out), the file, the subtests and their messages. `holds` is whether the cause is there.
const EXPLAINED = [
  {
    copy: 'bookworm', file: 'sharedarraybuffer.https.html', subtests: /^decoding SharedArrayBuffer$/,
    messages: /SharedArrayBuffer view should throw .* did not throw$/, holds: true,
    cause: 'the suite demands that a SharedArrayBuffer is refused, and in textdecoder-copy.any.js that it is decoded',
  },
  {
    file: 'encodeInto.any.js', subtests: /^Invalid encodeInto\(\) destination: Float16Array, backed by: /,
    messages: /^self\[type\] is not a constructor$/, holds: typeof Float16Array === 'undefined',
    cause: 'this Node lacks Float16Array',
  },
  {
    file: 'textencoder-constructor-non-utf.any.js', subtests: /^Encoding argument not considered for encode: /,
    messages: /expected "utf-8" but got/, holds: typeof window !== 'undefined',
    cause: 'TextEncoder of bindings/web takes a label, and encodes into its encoding',
  },
  {
    file: 'replacement-encodings.any.js', subtests: /input decodes to/, messages: /no encoding has the label/,
    holds: typeof window !== 'undefined',
    cause: 'TextDecoder refuses replacement, as the standard says, and bindings/web has no other decoder',
  },
];

// These decode and encode nothing.
exports.NOT_RUN = new Map([
  ['idlharness.any.js', 'the interfaces by Web IDL'],
  ['idlharness-shadowrealm.window.js', 'the interfaces by Web IDL'],
  ['streams/realms.window.js', 'the realms of objects'],
  ['streams/invalid-realm.window.js', 'the realms of objects'],
  ['streams/stringification-crash.html', 'a crash of a browser'],
]);

// The cause of a failure, or undefined.
exports.causeOf = function (copy, file, subtest, message) {
  const rules = EXPLAINED.filter((it) => it.holds && (it.copy ?? copy) === copy && it.file === file);
  return rules.find((it) => it.subtests.test(subtest) && it.messages.test(message))?.cause;
};
