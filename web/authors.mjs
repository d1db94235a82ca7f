// Who wrote what of a piece that somebody changed since it was put in.
import { difference } from './difference.mjs';

/**
 * @typedef {{ piece: string, user: number }} Written a piece, and who put it in or changed it to that
 * @typedef {{ length: number, user: number }} Run so many letters of one user
 */

/**
 * The first so many units of a row of runs.
 *
 * @param {Run[]} runs
 * @param {number} length
 */
function front(runs, length) {
  const kept = [];
  let rest = length;
  for (const it of runs) {
    if (rest > 0) kept.push({ length: Math.min(rest, it.length), user: it.user });
    rest -= it.length;
  }
  return kept;
}

/**
 * What stands behind the first so many units.
 *
 * @param {Run[]} runs
 * @param {number} length
 */
function behind(runs, length) {
  const kept = [];
  let rest = length;
  for (const it of runs) {
    if (rest < it.length) kept.push({ length: it.length - Math.max(0, rest), user: it.user });
    rest -= it.length;
  }
  return kept;
}

/**
 * Runs of which no two beside each other are of one user, and none is empty.
 *
 * @param {Run[]} runs
 */
function closed(runs) {
  /** @type {Run[]} */
  const all = [];
  for (const it of runs) {
    const last = all.at(-1);
    if (last?.user === it.user) last.length += it.length;
    else if (it.length) all.push({ ...it });
  }
  return all;
}

/**
 * Whose the letters of a piece are, by how it was put in and then changed, the last of which shows. Who changes a piece has written what
 * differs from what stood there; who changes it back to what once stood there has written nothing.
 *
 * @param {Written[]} rows
 * @returns {Run[]}
 */
export function authorsOf([first, ...changes]) {
  let text = first.piece;
  let runs = [{ length: text.length, user: first.user }];
  const before = new Map([[text, runs]]);
  for (const { piece, user } of changes) {
    const { start, end, text: put } = difference(text, piece);
    runs = before.get(piece) ?? [...front(runs, start), { length: put.length, user }, ...behind(runs, end)];
    text = piece;
    before.set(text, runs);
  }
  return closed(runs);
}
