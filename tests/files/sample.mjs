#!/usr/bin/env node
// A module with nodes of each family.
import fs, { join as joined } from "path";
export default class Café extends Array {
  #size = 0x10n;
  static { Café.made = new Map(); }
  get size() { return this.#size; }
  async *each({ a, b: [c = 1, ...rest] }, ...others) {
    for await (const x of others) yield* [c, , ...rest, `x${x}y`];
  }
}
export const total = (list) => list.reduce((sum, x) => sum + x?.[0] ?? -1, 0);
label: do {
  if (fs) break label;
  else if (/[/]\d+/g.test(joined)) throw new Error("one\ntwo");
  else delete globalThis.gone, await total([.5e3, 0b11]);
} while (typeof fs === 'undefined');
