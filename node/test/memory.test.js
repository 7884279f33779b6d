'use strict';
// What is collected, closed, and used by several threads.

const assert = require('node:assert/strict');
const { test } = require('node:test');
const { Worker } = require('node:worker_threads');
const { Document, Session, TextDocument } = require('..');

const { gc } = globalThis;
const options = { skip: gc ? false : 'node runs without --expose-gc' };
const MB = 2 ** 20;
const TEXT = 'x(y)\n'.repeat(20000); // 200 KB as units

/** Collects, and lets finalizers run. */
async function collect() {
  for (let turn = 0; turn < 4; turn++) {
    gc();
    await new Promise(setImmediate);
  }
}

/** By how many MB the process grows. */
async function growth(work) {
  await collect();
  const before = process.memoryUsage().rss;
  await work();
  await collect();
  return (process.memoryUsage().rss - before) / MB;
}

test('sessions that nothing holds are freed', options, async () => {
  const grown = await growth(async () => {
    for (let count = 0; count < 2000; count++) {
      new Document(TEXT).edit(0, 1, 'z');
      if (count % 100 === 0) await collect();
    }
  });
  assert.ok(grown < 150, `${grown} MB of 400`);
});

test('the collector collects sessions by itself, since it is told what they hold', async () => {
  const before = process.memoryUsage().rss;
  let most = 0;
  for (let count = 0; count < 4000; count++) {
    new Document(TEXT);
    if (count % 10 === 0) await new Promise(setImmediate);
    most = Math.max(most, (process.memoryUsage.rss() - before) / MB);
  }
  assert.ok(most < 250, `${most} MB of 800`);
});

test('a document that is opened anew holds no more than before', options, async () => {
  const document = new Document();
  const grown = await growth(async () => {
    for (let count = 0; count < 500; count++) document.open(TEXT);
  });
  assert.ok(grown < 50, `${grown} MB of 100`);
  document.close();
});

test('a document keeps its session', options, async () => {
  const document = (() => new Session().document(3))();
  document.open('held');
  await collect();
  assert.equal(document.value, 'held');
});

test('snapshots that nothing holds are closed', options, async () => {
  const document = new Document(TEXT);
  for (let count = 0; count < 5000; count++) {
    document.snapshot();
    if (count % 500 === 499) await collect();
  }
  assert.equal(document.snapshot().read(4), 'x(y)');
});

test('a snapshot keeps its document', options, async () => {
  const snapshot = (() => new Document('held').snapshot())();
  await collect();
  assert.deepEqual([...snapshot], ['held']);
});

test('many documents at once', () => {
  const sessions = Array.from({ length: 100 }, () => new Session());
  const all = sessions.flatMap((session) => Array.from({ length: 64 }, (_, number) => session.document(number)));
  all.forEach((document, at) => document.open(`text ${at}`));
  all.forEach((document, at) => document.edit(0, 4, at % 2 ? 'odd' : 'even'));
  all.forEach((document, at) => assert.equal(document.value, `${at % 2 ? 'odd' : 'even'} ${at}`));
  for (const session of sessions) session.close();
});

test('many text documents at once', () => {
  const all = Array.from({ length: 1000 }, (_, at) => TextDocument.create(`file:///${at}`, 'c', 1, `f(${at})`));
  all.forEach((document, at) => assert.equal(document.getText(), `f(${at})`));
});

test('each thread has sessions of its own', async () => {
  const source = `
    const { parentPort, workerData } = require('node:worker_threads');
    const { Document } = require(workerData.module);
    const document = new Document();
    for (let count = 0; count < 2000; count++) document.edit(0, 0, workerData.text);
    parentPort.postMessage(document.value);
  `;
  const answers = ['a', 'b', 'c', 'd'].map((text) => {
    const worker = new Worker(source, { eval: true, workerData: { module: require.resolve('..'), text } });
    return new Promise((resolve, reject) => worker.once('message', resolve).once('error', reject));
  });
  assert.deepEqual(await Promise.all(answers), ['a', 'b', 'c', 'd'].map((it) => it.repeat(2000)));
});
