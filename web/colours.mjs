// The colours by which people are told apart: eight grounds, each plain, then with a dotted and then with a solid line below.
import { directory } from './directory.mjs';

export const COLOURS = 24;

/**
 * The name of the colour of a person.
 *
 * @param {number} person
 */
export function colourOfPerson(person) {
  return `by-${(person + COLOURS - 1) % COLOURS}`;
}

/**
 * The name of the colour of a user of the rules, who is a device of a person.
 *
 * @param {number} user
 */
export function colourOf(user) {
  return colourOfPerson(directory.personOf(user) ?? user);
}
