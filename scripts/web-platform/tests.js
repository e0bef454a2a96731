// Runs test files of the suite, each in a global scope of its own with the suite's testharness.js.
'use strict';
const fs = require('fs'), path = require('path'), vm = require('vm');

const SECONDS = 600; // for a file
const here = (name) => fs.readFileSync(path.join(__dirname, name), 'utf8');
const toHex = (bytes) => bytes.toString('hex').toUpperCase();

// `suite` is the folder of a copy, with `encoding` and `resources`. `recode` gives the text that the program writes for
// bytes of a label. `library` is what library.js opens.
exports.Tests = class {
  constructor(suite, library, recode) { Object.assign(this, { suite, library, recode }); }

  // The paths of all test files, below `encoding`.
  files() {
    const all = (folder) => fs.readdirSync(path.join(this.suite, folder), { withFileTypes: true }).flatMap((it) => (
      it.isDirectory() ? all(`${folder}/${it.name}`) : [`${folder}/${it.name}`]));
    return all('encoding').filter((it) => this.isTest(it)).map((it) => it.replace('encoding/', '')).sort();
  }

  // Whether a file is a test, and not a part of one.
  isTest(file) {
    if (/\.(any|window)\.js$/.test(file)) return true;
    const isPage = file.endsWith('.html') && !file.includes('/resources/');
    return isPage && /testharness\.js|rel=match/.test(this.read(file, 'latin1'));
  }

  // The file of an address that a file names.
  found(file, address) {
    const [name] = address.split('?');
    return path.join(this.suite, name.startsWith('/') ? name : path.join(path.dirname(file), name));
  }
  read(file, encoding = 'utf8') { return fs.readFileSync(path.join(this.suite, file), encoding); }

  // What a scope has of this realm: functions from strings to strings.
  host(file) {
    return {
      url: path.basename(file), isPage: file.endsWith('.html'),
      ask: (question) => this.library.ask(question),
      utf8: (text) => toHex(Buffer.from(text, 'utf8')),
      read: (address) => toHex(fs.readFileSync(this.found(file, address))),
      charset: (address) => {
        const headers = `${this.found(file, address)}.headers`;
        return fs.existsSync(headers) ? /charset=(\S+)/.exec(fs.readFileSync(headers, 'latin1'))?.[1] ?? null : null;
      },
      recoded: (label, hex) => this.recode(label, 'utf-8', Buffer.from(hex, 'hex')).toString('utf8'),
      percentDecode: (text) => {
        const bytes = text.replace(/%([0-9A-Fa-f]{2})/g, (_, it) => String.fromCharCode(parseInt(it, 16)));
        return toHex(Buffer.from(bytes, /[^\x00-\xFF]/.test(text) ? 'utf8' : 'latin1'));
      },
    };
  }

  scope(file) {
    const web = { setTimeout, clearTimeout, MessageChannel, ReadableStream, WritableStream, TransformStream };
    const scope = vm.createContext({ ...web, host: this.host(file) });
    scope.location = { search: '', href: `https://example.com/${file}` };
    scope.GLOBAL = { isWindow: () => true, isWorker: () => false, isShadowRealm: () => false };
    vm.runInContext('self = globalThis', scope);
    return scope;
  }
  define(scope) {
    for (const name of ['api.js', 'page.js']) vm.runInContext(here(name), scope, name);
  }

  // The scripts of a test, each as its name and its code.
  scripts(file, scope) {
    const named = (address) => [address, fs.readFileSync(this.found(file, address), 'utf8')];
    if (file.endsWith('.html')) {
      const isOwn = ({ address }) => !/testharness(report)?\.js$/.test(address ?? '');
      const scripts = JSON.parse(scope.host.pageScripts()).filter(isOwn);
      return scripts.map(({ address, code }) => (address ? named(address) : [file, code]));
    }
    const code = this.read(file);
    return [...Array.from(code.matchAll(/^\/\/ META: script=(.*)$/gm), ([, address]) => named(address)), [file, code]];
  }

  // Runs a test file, and returns its subtests, each as its name and its message, which is null if it has passed.
  async run(name) {
    const file = `encoding/${name}`;
    const isReftest = file.endsWith('.html') && !this.read(file, 'latin1').includes('testharness.js');
    try {
      return await (isReftest ? this.compare(file) : this.runHarness(file));
    } catch (error) {
      return [['the scripts', `${error}`]];
    }
  }

  async runHarness(file) {
    const scope = this.scope(file);
    let guard;
    const ended = new Promise((resolve, reject) => {
      guard = setTimeout(() => reject(new Error(`no end within ${SECONDS} seconds`)), SECONDS * 1000);
      scope.host.end = (json) => resolve(JSON.parse(json));
    });
    try {
      vm.runInContext(this.read('resources/testharness.js'), scope, 'testharness.js');
      vm.runInContext(here('report.js'), scope, 'report.js');
      this.define(scope);
      scope.host.pageElements();
      for (const [script, code] of this.scripts(file, scope)) vm.runInContext(code, scope, script);
      scope.host.pageLoads();
      const subtests = await ended;
      return subtests.length ? subtests : [['the harness', 'no subtests']];
    } finally {
      clearTimeout(guard);
    }
  }

  // Compares the text of a page with that of its reference.
  compare(file) {
    const scope = this.scope(file);
    this.define(scope);
    const textOf = (it) => JSON.stringify(scope.host.pageText(path.basename(it)));
    const [ours, theirs] = [textOf(file), textOf(file.replace('.html', '-ref.html'))];
    return [['the text of the reference', ours === theirs ? null : `${ours} is not ${theirs}`]];
  }
};
