// The client over the built program, which PERSIST names, and over programs that behave badly. Where there is none they are skipped.
import assert from 'node:assert/strict';
import { spawnSync } from 'node:child_process';
import { chmodSync, mkdtempSync, rmSync, writeFileSync } from 'node:fs';
import { tmpdir } from 'node:os';
import { join } from 'node:path';
import { test } from 'node:test';
import { Ended, ImageRefused, NotCarriedOut, ProgramRefused, Session, UnknownReply, WrongText, must, splitInput, textOf, wordsOf } from './persist.mjs';

const LIST = `record Node 2 { val key: int; ptr next: Node; }
root first: Node;
proc add(key: int) {
  var n: Node;
  n = new Node;
  n.key = key;
  n.next = first;
  first = n;
}
query top() {
  print 1;
  print first.key;
}
query flood(n: int) { while n > 0 { print n; n = n - 1; } }
query spin() { while 0 == 0 { } }
`;
const built = { skip: process.env.PERSIST ? false : 'PERSIST names no program' };

/** Does something over a session on the list, which ends behind it. */
async function withList(work, options) {
  const session = await Session.start(LIST, options);
  try {
    await work(session);
  } finally {
    await session.kill();
  }
}

/** Does something with the path of a program of the shell. */
async function withProgram(text, work) {
  const folder = mkdtempSync(join(tmpdir(), 'persist-'));
  const path = join(folder, 'program');
  try {
    writeFileSync(path, `#!/bin/sh\n${text}\n`);
    chmodSync(path, 0o755);
    await work(path);
  } finally {
    rmSync(folder, { recursive: true });
  }
}

test('each command has its reply', built, () => withList(async (session) => {
  assert.deepEqual(await session.run(0, 'add', 5), { reply: 'version', number: 1, printed: [] });
  assert.deepEqual(await session.run(1, 'add', -(2n ** 63n)), { reply: 'version', number: 2, printed: [] });
  assert.deepEqual(await session.query(2, 'top'), { reply: 'answer', printed: [1n, -9223372036854775808n] });
  assert.deepEqual(await session.query(0, 'top'), { reply: 'trapped', kind: 'null', line: 12, printed: [1n] });
  assert.deepEqual(await session.open(2, 'add', 7), { reply: 'opened', run: 3 });
  assert.deepEqual(await session.call(3, 'add', -0), { reply: 'running', run: 3 });
  assert.deepEqual(await session.step(3, 1000), { reply: 'done', run: 3 });
  assert.deepEqual(await session.close(3), { reply: 'version', number: 3, printed: [] });
  assert.deepEqual(await session.open(3), { reply: 'opened', run: 4 });
  assert.deepEqual(await session.drop(4), { reply: 'dropped', run: 4 });
  assert.deepEqual(await session.versions(), { reply: 'versions', parents: [null, 0, 1, 2] });
  const stats = await session.stats();
  // The record of the roots is one too.
  assert.deepEqual([stats.reply, stats.records, stats.pointers, stats.values], ['stats', 5, 8, 4]);
  assert.deepEqual(await session.budget(500), { reply: 'budget', charges: 500 });
  assert.deepEqual(await session.run(9, 'add', 1), { reply: 'refused', kind: 'version' });
  assert.equal(await session.end(), 0);
}));

test('many commands are on their way at once, and each has its own reply', built, () => withList(async (session) => {
  const asked = [];
  for (let version = 0; version < 3000; version += 1) {
    asked.push(session.run(version, 'add', version), session.query(version, 'flood', version % 7));
    if (version % 1000 === 999) asked.push(session.versions());
  }
  const replies = await Promise.all(asked);
  const runs = replies.filter((it) => it.reply === 'version');
  assert.deepEqual(runs.map((it) => it.number), Array.from({ length: 3000 }, (_, at) => at + 1));
  assert.deepEqual(replies.filter((it) => it.reply === 'answer').map((it) => it.printed.length), Array.from({ length: 3000 }, (_, at) => at % 7));
  assert.deepEqual(replies.filter((it) => it.reply === 'versions').map((it) => it.parents.length), [1001, 2001, 3001]);
  assert.equal((await session.query(0, 'flood', 65536)).printed.length, 65536);
}));

test('the end comes behind the replies that were asked for', built, () => withList(async (session) => {
  const asked = Promise.all([1, 2, 3].map((key) => session.run(0, 'add', key)));
  assert.equal(await session.end(), 0);
  assert.deepEqual((await asked).map((it) => it.number), [1, 2, 3]);
  await assert.rejects(session.stats(), Ended);
}));

test('lines, and what has no reply', built, () => withList(async (session) => {
  assert.equal(await session.command(' # nothing'), null);
  assert.equal(await session.command('\t\r'), null);
  assert.equal(textOf(await session.command('run 0 add 1\r')), 'version 1\n');
  assert.equal(textOf(await session.command('versions\r')), '0\n1 from 0\n');
  assert.deepEqual(await session.command('versions now'), { reply: 'refused', kind: 'line' });
  assert.deepEqual(await session.command('caf\u00e9 \ud800 \u0000'), { reply: 'refused', kind: 'line' });
  await assert.rejects(session.command('run 0 add 1\nrun 0 add 1'), WrongText);
  for (const wrong of [1.5, NaN, 2 ** 53, '1', undefined]) await assert.rejects(session.run(0, 'add', wrong), WrongText);
  await assert.rejects(session.run(0, 'add 1'), WrongText);
  await assert.rejects(session.run(0, ''), WrongText);
  assert.equal((await session.run(1, 'add', 1)).number, 2);
}));

test('must throws traps and refusals', built, () => withList(async (session) => {
  assert.equal(must(await session.run(0, 'add', 1)).number, 1);
  const trapped = await session.query(0, 'top');
  assert.throws(() => must(trapped), (error) => error instanceof NotCarriedOut && error.reply === trapped && error.message === 'trap null at 12');
}));

test('a refused program is told with its line', built, async () => {
  for (const more of [0, 100_000]) {
    await assert.rejects(Session.start(`root a: b;\n${'# more\n'.repeat(more)}`), (error) => (
      error instanceof ProgramRefused && error.kind === 'unknown' && error.line === 1 && error.text === 'root a: b;'));
  }
  await assert.rejects(Session.start('root a: int;\n%%\n'), WrongText);
});

test('a process that is killed fails those who wait and those who come', built, () => withList(async (session) => {
  await session.budget(1_000_000_000);
  const spun = assert.rejects(session.query(0, 'spin'), (error) => error instanceof Ended && error.status === 'SIGKILL');
  const behind = assert.rejects(session.stats(), Ended);
  process.kill(session.pid, 'SIGKILL');
  await Promise.all([spun, behind]);
  await assert.rejects(session.stats(), Ended);
  assert.equal(await session.end(), 'SIGKILL');
}));

test('the patience of the end has an end', built, () => withList(async (session) => {
  await session.budget(1_000_000_000);
  const spun = assert.rejects(session.query(0, 'spin'), Ended);
  assert.equal(await session.end(), 'SIGKILL');
  await spun;
}, { patience: 50 }));

test('programs that are none, end or write nonsense', async () => {
  await assert.rejects(Session.start('', { path: '/no/such/program' }), { code: 'ENOENT' });
  await withProgram('exit 7', (path) => assert.rejects(Session.start('', { path }), (error) => error instanceof Ended && error.status === 7));
  await withProgram('echo hello; cat > /dev/null', (path) => (
    assert.rejects(Session.start('', { path }), (error) => error instanceof UnknownReply && error.text === 'hello')));
  await withProgram("echo 'refused line'; echo 'version x'; exec cat > /dev/null", async (path) => {
    const session = await Session.start('', { path });
    await assert.rejects(session.run(0, 'add', 1), UnknownReply);
    await session.kill();
  });
});

test('an input is split, and its lines have words', () => {
  assert.deepEqual(splitInput('a\r\n%%\r\nb\r\n\r\n'), { program: 'a\r\n', script: ['b\r', '\r'] });
  assert.deepEqual(splitInput('a\n%%'), { program: 'a\n', script: [] });
  assert.deepEqual(splitInput('%%x\n'), { program: '%%x\n', script: [] });
  assert.deepEqual(['run\t0 add', '# run', '', ' \r'].map(wordsOf), [['run', '0', 'add'], [], [], []]);
});

test('an image is gone on from', built, async () => {
  const image = spawnSync(process.env.PERSIST, ['pack'], { input: `${LIST}%%\nrun 0 add 5\nrun 1 add 7\n` }).stdout;
  const folder = mkdtempSync(join(tmpdir(), 'persist-'));
  try {
    writeFileSync(join(folder, 'image'), image);
    for (const given of [image, new Uint8Array(image), join(folder, 'image')]) {
      const session = await Session.behind(given);
      assert.deepEqual(await session.dump(2), { reply: 'dump', records: [
        { number: 0, type: 'root', contents: [{ record: 1 }] },
        { number: 1, type: 'Node', contents: [7n, { record: 2 }] },
        { number: 2, type: 'Node', contents: [5n, null] }] });
      assert.equal(textOf(await session.dump(1)), '0 root: @1\n1 Node: 5 null\nok\n');
      assert.deepEqual(await session.changed(2, 'first.next'), { reply: 'changed', version: 2 });
      assert.deepEqual(await session.changed(0, 'first'), { reply: 'changed', version: null });
      assert.deepEqual([await session.dump(9), await session.changed(2, 'last')],
        [{ reply: 'refused', kind: 'version' }, { reply: 'refused', kind: 'path' }]);
      assert.deepEqual(await session.run(2, 'add', 9), { reply: 'version', number: 3, printed: [] });
      assert.equal(await session.end(), 0);
    }
    for (const length of [0, 7, 12, 100, image.length - 1]) {
      await assert.rejects(Session.behind(image.subarray(0, length)), (error) => error instanceof ImageRefused && error.rule === 0);
    }
    await assert.rejects(Session.behind(Buffer.concat([image, Buffer.from('stats\n')])), WrongText);
  } finally {
    rmSync(folder, { recursive: true });
  }
});

test('a session on a program says that it tells of no image', built, () => withList(async (session) => {
  await assert.rejects(session.dump(0), (error) => error instanceof WrongText && /behind an image/.test(error.message));
  await assert.rejects(session.changed(0, 'first'), WrongText);
}));
