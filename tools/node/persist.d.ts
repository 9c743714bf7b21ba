/** The types of persist.mjs. Tested (node --test), not proved. */

/** A run was published as this version (`run`, `close`). Printed numbers have 64 bits, so they are bigints. */
export interface Version { readonly reply: 'version'; readonly number: number; readonly printed: readonly bigint[] }
/** A query came to its end (`query`). */
export interface Answer { readonly reply: 'answer'; readonly printed: readonly bigint[] }
/** A run or query trapped at this line of the program, and nothing was published (`run`, `query`, `close`). */
export interface Trapped { readonly reply: 'trapped'; readonly kind: string; readonly line: number; readonly printed: readonly bigint[] }
/** The command was refused and changed nothing. */
export interface Refused { readonly reply: 'refused'; readonly kind: string }
/** A run was opened under this number (`open`). */
export interface Opened { readonly reply: 'opened'; readonly run: number }
/** The open run has more to do than the charges granted so far reach for (`call`, `step`). */
export interface Running { readonly reply: 'running'; readonly run: number }
/** The open run has ended or trapped, or its whole budget was granted (`call`, `step`). */
export interface Done { readonly reply: 'done'; readonly run: number }
/** The open run was given up (`drop`). */
export interface Dropped { readonly reply: 'dropped'; readonly run: number }
/** Runs and queries that come now may take so many charges (`budget`). */
export interface Budget { readonly reply: 'budget'; readonly charges: number }
/** The version tree: `parents[v]` is the version that v was made from, and null for version 0 (`versions`). */
export interface Versions { readonly reply: 'versions'; readonly parents: readonly (number | null)[] }
/** How many records were made and pointers and values written by all runs, and the bound on the store (`stats`). */
export interface Stats { readonly reply: 'stats'; readonly records: number; readonly pointers: number; readonly values: number; readonly bound: number }
/** A record of a dump: its numbers as bigints, and then its pointers. Record 0 is that of the roots. */
export interface Record { readonly number: number; readonly type: string; readonly contents: readonly (bigint | null | { readonly record: number })[] }
/** The records of a version that its roots lead to (`dump`). */
export interface Dump { readonly reply: 'dump'; readonly records: readonly Record[] }
/** The version that changed what a path reads, and null where none did (`changed`). */
export interface Changed { readonly reply: 'changed'; readonly version: number | null }

export type Reply = Version | Answer | Trapped | Refused | Opened | Running | Done | Dropped | Budget | Versions | Stats | Dump | Changed;
/** An argument: a bigint, or a number that is whole and exact. */
export type Argument = number | bigint;

export class PersistError extends Error {}
/** The program has a fault: its kind, its line from 1, and what stands in that line. */
export class ProgramRefused extends PersistError { readonly kind: string; readonly line: number; readonly text: string }
/** The program refuses an image: the number of the first rule that it breaks. */
export class ImageRefused extends PersistError { readonly rule: number }
/** The process ended before it replied: its status, or the name of the signal that ended it. */
export class Ended extends PersistError { readonly status: number | string }
/** A text that is no reply to what was sent. */
export class UnknownReply extends PersistError { readonly text: string }
/** What can't be sent, or comes behind `end`; nothing was sent. */
export class WrongText extends PersistError {}
/** `must` was handed a trap or a refusal. */
export class NotCarriedOut extends PersistError { readonly reply: Trapped | Refused }

/** The reply itself; traps and refusals are thrown as `NotCarriedOut`. */
export function must<R extends Reply | null>(reply: R): Exclude<R, Trapped | Refused>;
/** The program text of an input, and the lines of its script. */
export function splitInput(text: string): { program: string; script: string[] };
/** The words of a script line; none where the line has no reply. */
export function wordsOf(line: string): string[];
/** A reply as the program writes it. */
export function textOf(reply: Reply | null): string;

export interface Options {
  /** The program: else what PERSIST names, or `persist` on the PATH. */
  path?: string;
  /** How many milliseconds `end` waits before it ends the process by a signal; 10,000 unless said. */
  patience?: number;
}

/** A program that runs. Many commands may be on their way at once; they are carried out in the order in which they were called. */
export class Session {
  private constructor();
  static start(program: string, options?: Options): Promise<Session>;
  /** On an image: the path of its file, or its bytes. */
  static behind(image: string | Uint8Array, options?: Options): Promise<Session>;
  /** The number of the process. */
  readonly pid: number | undefined;
  run(version: number, procedure: string, ...args: Argument[]): Promise<Version | Trapped | Refused>;
  query(version: number, query: string, ...args: Argument[]): Promise<Answer | Trapped | Refused>;
  open(version: number, procedure?: string, ...args: Argument[]): Promise<Opened | Refused>;
  call(run: number, procedure: string, ...args: Argument[]): Promise<Running | Done | Refused>;
  step(run: number, charges: number): Promise<Running | Done | Refused>;
  /** Carries an open run to its end and publishes it. The session itself is ended by `end`. */
  close(run: number): Promise<Version | Trapped | Refused>;
  drop(run: number): Promise<Dropped | Refused>;
  budget(charges: number): Promise<Budget | Refused>;
  versions(): Promise<Versions>;
  stats(): Promise<Stats>;
  /** Behind an image alone, as `changed`. */
  dump(version: number): Promise<Dump | Refused>;
  changed(version: number, path: string): Promise<Changed | Refused>;
  /** Sends a line of the script; null for a line that has no reply, which is not sent. */
  command(line: string): Promise<Reply | null>;
  /** Waits for the replies that are still to come and for the end; the status, or the name of a signal. */
  end(): Promise<number | string | null>;
  /** Ends the process at once; the status, or the name of a signal. */
  kill(): Promise<number | string | null>;
}
