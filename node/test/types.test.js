'use strict';
// index.d.ts names what index.js exports, and README.md shows what is so.

const assert = require('node:assert/strict');
const { readFileSync } = require('node:fs');
const path = require('node:path');
const { test } = require('node:test');
const textmodel = require('..');

const types = readFileSync(path.join(__dirname, '../index.d.ts'), 'utf8');

/** The members that a class has by its types: names, and whether each is static. */
function typedMembers(name) {
  const body = types.match(new RegExp(`^export class ${name}\\b.*?\\{\\n(.*?)^\\}`, 'ms'))[1];
  const found = [...body.matchAll(/^ {2}(static )?(?:readonly )?(?:\[Symbol\.)?(\w+)\]?\??[(:]/gm)];
  return found.map(([, isStatic, member]) => (isStatic ? `static ${member}` : member)).filter((it) => it !== 'constructor');
}

function members(made) {
  const named = (key) => (typeof key === 'symbol' ? key.description.replace('Symbol.', '') : key);
  const ownStatic = Object.getOwnPropertyNames(made).filter((it) => !['length', 'name', 'prototype'].includes(it));
  const own = Reflect.ownKeys(made.prototype).filter((it) => it !== 'constructor');
  return [...own.map(named), ...ownStatic.map((it) => `static ${it}`)];
}

test('what is exported has a type', () => {
  const named = [...types.matchAll(/^export (?:class|const) (\w+)/gm)].map(([, name]) => name);
  assert.deepEqual(named.sort(), Object.keys(textmodel).sort());
});

for (const name of ['Document', 'Session', 'Snapshot', 'TextDocument']) {
  test(`each member of ${name} has a type`, () => {
    assert.deepEqual(typedMembers(name).sort(), members(textmodel[name]).sort());
  });
}

test('README.md prints what it says', () => {
  const [, sample] = readFileSync(path.join(__dirname, '../README.md'), 'utf8').match(/```js\n(.*?)```/s);
  const wanted = [...sample.matchAll(/console\.log\(.*\); \/\/ (.*)/g)].map(([, line]) => line);
  const printed = [];
  const shows = { log: (...values) => printed.push(values.map((it) => require('node:util').inspect(it)).join(' ')) };
  new Function('require', 'console', sample)((name) => (name === 'textmodel' ? textmodel : require(name)), shows);
  assert.ok(wanted.length > 0);
  assert.deepEqual(printed, wanted);
});
