/**
 * Drives the program `persist` from Node: one process, and a promise of one typed reply to each command. Many commands may be on their
 * way at once; they are carried out in the order in which they were called. Tested (node --test), not proved.
 *
 *     const session = await Session.start(program);
 *     const { number } = must(await session.run(0, 'key', 104));
 *     await session.query(number, 'text');            // { reply: 'answer', printed: [104n] }
 *     await session.end();
 */
import { spawn } from 'node:child_process';
import { readFile } from 'node:fs/promises';

/** A line of no form. Its reply shows the end of what was written before it. */
const MARK = '.';
const MARKED = 'refused line';
const SEPARATOR = /^%%[ \t\r]*$/m;

// What goes wrong.

/** What every error of this module is. */
export class PersistError extends Error {
  constructor(text) {
    super(text);
    this.name = new.target.name;
  }
}

/** The program has a fault: its kind, its line from 1, and what stands in that line. */
export class ProgramRefused extends PersistError {
  constructor(kind, line, text) {
    super(`refused ${kind} at ${line}${text && `: ${text}`}`);
    Object.assign(this, { kind, line, text });
  }
}

/** The program refuses an image: the number of the first rule that it breaks. */
export class ImageRefused extends PersistError {
  constructor(rule) {
    super(`refused image ${rule}`);
    this.rule = rule;
  }
}

/** The process ended before it replied: its status, or the name of the signal that ended it. */
export class Ended extends PersistError {
  constructor(status) {
    super(`the program ended ${typeof status === 'number' ? `with status ${status}` : `by ${status}`}`);
    this.status = status;
  }
}

/** A text that is no reply to what was sent. The process is ended, since what follows can't be told apart. */
export class UnknownReply extends PersistError {
  constructor(text) {
    super(`${JSON.stringify(text.slice(0, 200))} is no reply to what was sent`);
    this.text = text;
  }
}

/** A command of several lines, an argument that is no whole number, or a program that has a separator line. Nothing was sent. */
export class WrongText extends PersistError {}

/** `must` was handed a trap or a refusal. */
export class NotCarriedOut extends PersistError {
  constructor(reply) {
    super(lastLine(reply));
    this.reply = reply;
  }
}

/** The reply itself; traps and refusals are thrown as `NotCarriedOut`. */
export function must(reply) {
  if (reply && (reply.reply === 'trapped' || reply.reply === 'refused')) throw new NotCarriedOut(reply);
  return reply;
}

// Texts.

/** The program text of an input, and the lines of its script. */
export function splitInput(text) {
  const found = SEPARATOR.exec(text);
  if (!found) return { program: text, script: [] };
  const script = text.slice(found.index + found[0].length + 1).split('\n');
  if (script[script.length - 1] === '') script.pop();
  return { program: text.slice(0, found.index), script };
}

/** The words of a script line; none where the line has no reply. */
export function wordsOf(line) {
  const words = line.split(/[ \t\r]+/).filter(Boolean);
  return words.length && words[0].startsWith('#') ? [] : words;
}

/** A reply as the program writes it; null, of a line without one, is nothing. */
export function textOf(reply) {
  return reply === null ? '' : [...(reply.printed ?? []).map((number) => `| ${number}`), lastLine(reply), ''].join('\n');
}

function lastLine(it) {
  switch (it.reply) {
    case 'version': return `version ${it.number}`;
    case 'answer': return 'ok';
    case 'trapped': return `trap ${it.kind} at ${it.line}`;
    case 'refused': return `refused ${it.kind}`;
    case 'opened': return `run ${it.run}`;
    case 'running': return `run ${it.run} running`;
    case 'done': return `run ${it.run} done`;
    case 'dropped': return `dropped ${it.run}`;
    case 'budget': return `budget ${it.charges}`;
    case 'versions': return it.parents.map((parent, version) => (parent === null ? '0' : `${version} from ${parent}`)).join('\n');
    case 'stats': return `records ${it.records} pointers ${it.pointers} values ${it.values} bound ${it.bound}`;
    case 'dump': return [...it.records.map(recordText), 'ok'].join('\n');
    case 'changed': return it.version === null ? 'never' : `changed ${it.version}`;
    default: throw new TypeError(`${it.reply} is no reply`);
  }
}

function recordText({ number, type, contents }) {
  const words = contents.map((it) => (it === null ? 'null' : typeof it === 'bigint' ? String(it) : `@${it.record}`));
  return [`${number} ${type}:`, ...words].join(' ');
}

// The last lines of replies, the commands that they may answer, and what they make of their parts.
const FORMS = [
  [/^version (\d+)$/, ['run', 'close'], ([number], printed) => ({ reply: 'version', number: +number, printed })],
  [/^ok$/, ['query'], (_, printed) => ({ reply: 'answer', printed })],
  [/^trap ([a-z]+) at (\d+)$/, ['run', 'query', 'close'], ([kind, line], printed) => ({ reply: 'trapped', kind, line: +line, printed })],
  [/^refused ([a-z]+)$/, null, ([kind]) => ({ reply: 'refused', kind })],
  [/^changed (\d+)$/, ['changed'], ([version]) => ({ reply: 'changed', version: +version })],
  [/^never$/, ['changed'], () => ({ reply: 'changed', version: null })],
  [/^run (\d+)$/, ['open'], ([run]) => ({ reply: 'opened', run: +run })],
  [/^run (\d+) running$/, ['call', 'step'], ([run]) => ({ reply: 'running', run: +run })],
  [/^run (\d+) done$/, ['call', 'step'], ([run]) => ({ reply: 'done', run: +run })],
  [/^dropped (\d+)$/, ['drop'], ([run]) => ({ reply: 'dropped', run: +run })],
  [/^budget (\d+)$/, ['budget'], ([charges]) => ({ reply: 'budget', charges: +charges })],
  [/^records (\d+) pointers (\d+) values (\d+) bound (\d+)$/, ['stats'], ([records, pointers, values, bound]) => (
    { reply: 'stats', records: +records, pointers: +pointers, values: +values, bound: +bound })],
];

function readReply(command, printed, last) {
  for (const [form, commands, make] of FORMS) {
    const found = form.exec(last);
    if (found && (commands === null || commands.includes(command))) {
      const made = make(found.slice(1), printed);
      if (made.printed || !printed.length) return made;
    }
  }
  throw new UnknownReply(last);
}

function readVersions(lines) {
  if (lines[0] !== '0') throw new UnknownReply(lines[0] ?? '');
  const parents = [null];
  for (const line of lines.slice(1)) {
    const found = /^(\d+) from (\d+)$/.exec(line);
    if (!found || +found[1] !== parents.length || +found[2] >= parents.length) throw new UnknownReply(line);
    parents.push(+found[2]);
  }
  return { reply: 'versions', parents };
}

function readRecord(line) {
  const found = /^(\d+) (\w+):((?: (?:-?\d+|null|@\d+))*)$/.exec(line);
  if (!found) throw new UnknownReply(line);
  const held = (word) => (word === 'null' ? null : word.startsWith('@') ? { record: +word.slice(1) } : BigInt(word));
  return { number: +found[1], type: found[2], contents: found[3].split(' ').slice(1).map(held) };
}

/** How many bytes an image has by its sizes; null where they promise more than there is. */
function imageLength(data) {
  const number = (at) => Number(data.readBigUInt64BE(at));
  try {
    // Behind the text six numbers, four of each version, and of each node its slots and stamped values.
    let at = 64 + number(8);
    at += 8 + 32 * number(at);
    const nodes = number(at);
    at += 8;
    for (let node = 0; node < nodes; node++) {
      at += 56 + 8 * number(at + 48);
      at += 8 + 24 * number(at);
    }
    return at <= data.length ? at : null;
  } catch (error) {
    if (error instanceof RangeError) return null;
    throw error;
  }
}

/** A command that was sent, and the lines of its reply that have come. */
class Sent {
  constructor(words, resolve, reject) {
    Object.assign(this, { command: words[0], many: words.length === 1 && words[0] === 'versions', lines: [], printed: [], resolve, reject });
  }

  /** Takes a line; the reply, where it is the last one. */
  take(line) {
    if (this.many) {
      if (line === MARKED) return readVersions(this.lines);
      this.lines.push(line);
      return undefined;
    }
    if (this.command === 'dump') {
      if (line === 'ok') return { reply: 'dump', records: this.lines };
      if (!/^\d/.test(line)) return readReply(this.command, this.lines, line);
      this.lines.push(readRecord(line));
      return undefined;
    }
    if (!line.startsWith('| ')) return readReply(this.command, this.printed, line);
    if (!/^\| -?\d+$/.test(line)) throw new UnknownReply(line);
    this.printed.push(BigInt(line.slice(2)));
    return undefined;
  }
}

// The process.

/** A program that runs. Each of its commands sends one line, and gives a promise of the reply to it. */
export class Session {
  #child;
  #patience;
  #waiting = [];
  #begin = 0;
  #rest = '';
  #fault = null;
  #ended;
  #word;

  constructor(path, patience, word) {
    this.#patience = patience;
    this.#word = word;
    this.#child = spawn(path, [word], { stdio: ['pipe', 'pipe', 'inherit'] });
    this.#child.stdout.setEncoding('latin1');
    this.#child.stdout.on('data', (data) => this.#take(data));
    // What is written to a process that has ended is lost; its end is told to those who wait.
    this.#child.stdin.on('error', () => {});
    this.#ended = new Promise((resolve) => {
      this.#child.on('error', (error) => {
        this.#fail(error);
        if (this.#child.pid === undefined) resolve(null);
      });
      this.#child.on('close', (status, signal) => {
        this.#fail(new Ended(status ?? signal));
        resolve(status ?? signal);
      });
    });
  }

  /**
   * Starts a process on a program text. `path` is the program: else what PERSIST names, or `persist` on the PATH. `patience` is how many
   * milliseconds `end` waits before it ends the process by a signal.
   */
  static async start(program, options) {
    if (SEPARATOR.test(program)) throw new WrongText('the program has a separator line, which splitInput takes out');
    const end = program === '' || program.endsWith('\n') ? '' : '\n';
    return Session.#started('run', `${program}${end}%%\n`, true, (line) => {
      const found = /^refused ([a-z-]+) at (\d+)$/.exec(line);
      return found && new ProgramRefused(found[1], +found[2], (program.split('\n')[found[2] - 1] ?? '').trim());
    }, options);
  }

  /** Starts a process on an image, given as the path of its file or as bytes. Such a session also has `dump` and `changed`. */
  static async behind(image, options) {
    const data = typeof image === 'string' ? await readFile(image) : Buffer.from(image.buffer, image.byteOffset, image.byteLength);
    const length = imageLength(data);
    const session = await Session.#started('serve', data.subarray(0, length ?? data.length), length !== null, (line) => {
      const found = /^refused image (\d)$/.exec(line);
      return found && new ImageRefused(+found[1]);
    }, options);
    if (length === data.length) return session;
    await session.end();
    throw new WrongText(`${data.length - length} bytes stand behind the image`);
  }

  /** Starts a process and gives it what comes first. Where that is cut off nothing may follow: it would be taken for the rest. */
  static async #started(word, front, isWhole, faultIn, { path = process.env.PERSIST || 'persist', patience = 10_000 } = {}) {
    const session = new Session(path, patience, word);
    try {
      // What is accepted is answered by nothing, so the reply to a line of no form tells that it was accepted.
      await new Promise((resolve, reject) => {
        const first = new Sent([MARK], resolve, reject);
        first.take = (line) => {
          if (line === MARKED) return true;
          throw faultIn(line) ?? new UnknownReply(line);
        };
        session.#send(first, front);
        if (isWhole) session.#child.stdin.write(`${MARK}\n`);
        else session.#child.stdin.end();
      });
    } catch (error) {
      await session.end();
      throw error;
    }
    return session;
  }

  /** The number of the process. */
  get pid() {
    return this.#child.pid;
  }

  /** Closes the input, and waits for the replies that are still to come and for the end; gives the status, or the name of a signal. */
  async end() {
    this.#child.stdin.end();
    this.#fault ??= new WrongText('the session was ended');
    const timer = setTimeout(() => this.#child.kill('SIGKILL'), this.#patience);
    try {
      return await this.#ended;
    } finally {
      clearTimeout(timer);
    }
  }

  /** Ends the process at once, also in the midst of a command; those without a reply fail with `Ended`. */
  async kill() {
    this.#child.kill('SIGKILL');
    return this.#ended;
  }

  #send(sent, text) {
    this.#waiting.push(sent);
    this.#child.stdin.write(text);
  }

  /** Takes what the process has written. */
  #take(data) {
    const lines = (this.#rest + data).split('\n');
    this.#rest = lines.pop();
    for (const line of lines) {
      const sent = this.#waiting[this.#begin];
      let reply;
      try {
        if (!sent) throw new UnknownReply(line);
        reply = sent.take(line);
        if (reply === undefined) continue;
        sent.resolve(reply);
      } catch (error) {
        if (sent) sent.reject(error);
        if (error instanceof UnknownReply) {
          this.#advance(sent);
          this.#fail(error);
          this.#child.kill('SIGKILL');
          return;
        }
      }
      this.#advance(sent);
    }
  }

  #advance(sent) {
    if (!sent) return;
    this.#waiting[this.#begin++] = undefined;
    if (this.#begin > 1024 && 2 * this.#begin > this.#waiting.length) {
      this.#waiting.splice(0, this.#begin);
      this.#begin = 0;
    }
  }

  /** Tells all who wait, and all who come later, that there is no reply. */
  #fail(error) {
    this.#fault = error;
    const left = this.#waiting.slice(this.#begin);
    this.#waiting = [];
    this.#begin = 0;
    for (const sent of left) sent.reject(error);
  }

  /** Sends a line of the script; the reply, or null for a line that has none, which is not sent. */
  async command(line) {
    const words = wordsOf(line);
    if (line.includes('\n')) throw new WrongText('a command is one line');
    if (!words.length) return null;
    if (this.#fault) throw this.#fault;
    return new Promise((resolve, reject) => {
      const sent = new Sent(words, resolve, reject);
      // A list of versions has no last line of its own, so a mark is sent behind it.
      this.#send(sent, sent.many ? `${line}\n${MARK}\n` : `${line}\n`);
    });
  }

  async #words(command, name, numbers) {
    for (const number of numbers) {
      if (typeof number !== 'bigint' && !Number.isSafeInteger(number)) {
        throw new WrongText(`${number} is no whole number of JavaScript that is exact; beyond 2^53 a bigint is`);
      }
    }
    if (name !== undefined && !/^[^\s#]+$/.test(name)) throw new WrongText(`${JSON.stringify(name)} is no name`);
    const [first, ...rest] = numbers.map((number) => String(number === 0 ? 0 : number));
    return this.command([command, first, name, ...rest].filter((word) => word !== undefined).join(' '));
  }

  /** Runs a procedure on a version: `version`, `trapped` or `refused`. */
  run(version, procedure, ...args) {
    return this.#words('run', String(procedure), [version, ...args]);
  }

  /** Asks a version: `answer`, `trapped` or `refused`. */
  query(version, query, ...args) {
    return this.#words('query', String(query), [version, ...args]);
  }

  /** Opens a run on a version, with a procedure and its arguments or without: `opened` or `refused`. */
  open(version, procedure, ...args) {
    return this.#words('open', procedure, [version, ...args]);
  }

  /** Adds a call to an open run: `running`, `done` or `refused`. */
  call(run, procedure, ...args) {
    return this.#words('call', String(procedure), [run, ...args]);
  }

  /** Grants an open run so many more charges: `running`, `done` or `refused`. */
  step(run, charges) {
    return this.#words('step', undefined, [run, charges]);
  }

  /** Carries an open run to its end and publishes it: `version`, `trapped` or `refused`. The session itself is ended by `end`. */
  close(run) {
    return this.#words('close', undefined, [run]);
  }

  /** Gives an open run up: `dropped` or `refused`. */
  drop(run) {
    return this.#words('drop', undefined, [run]);
  }

  /** Sets the charges that later runs and queries may take: `budget` or `refused`. */
  budget(charges) {
    return this.#words('budget', undefined, [charges]);
  }

  /** The version tree: `versions`. */
  versions() {
    return this.command('versions');
  }

  /** What all runs made and wrote: `stats`. */
  stats() {
    return this.command('stats');
  }

  /** The records of a version that its roots lead to: `dump` or `refused`. Behind an image alone. */
  dump(version) {
    return this.#behindImage('dump', undefined, version);
  }

  /** The version, on the way from this one to version 0, that changed what a path reads: `changed` or `refused`. Behind an image alone. */
  changed(version, path) {
    return this.#behindImage('changed', String(path), version);
  }

  async #behindImage(command, name, version) {
    if (this.#word !== 'serve') throw new WrongText(`${command} is answered behind an image alone: Session.behind begins with one`);
    return this.#words(command, name, [version]);
  }
}

// `await using session = await Session.start(program)`, where the language has it.
if (Symbol.asyncDispose) {
  Session.prototype[Symbol.asyncDispose] = async function dispose() {
    await this.end();
  };
}
