// Questions to `conformance web-platform`: a line to its standard input, and the line that it answers.
//
// Both ends are file descriptors that scripts/web-platform-tests has opened, so a question is answered before the call
// returns. What stands in a line is in crates/conformance_calls/src/web_platform.rt.
'use strict';
const fs = require('fs');

// Opens the program by its descriptors. `alter`, if it is set, gets each question and its answer, and returns another.
exports.open = function (input, output) {
  const buffer = Buffer.alloc(1 << 16);

  function send(line) {
    for (let bytes = Buffer.from(line, 'latin1'); bytes.length;) bytes = bytes.subarray(fs.writeSync(input, bytes));
  }

  function receive() {
    let line = '';
    while (!line.endsWith('\n')) {
      const length = fs.readSync(output, buffer);
      if (length === 0) throw new Error('conformance has ended');
      line += buffer.latin1Slice(0, length);
    }
    return line.slice(0, -1);
  }

  return {
    alter: null,
    count: 0,
    ask(question) {
      this.count++;
      send(`${question}\n`);
      const answer = receive();
      return this.alter ? this.alter(question, answer) : answer;
    },
  };
};
