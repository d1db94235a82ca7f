// Who this browser was before an invitation made it somebody else's. Whoever uses it may go back, with all that it kept of that person, or have it
// forget.
import { deviceAt, forgetFormer, formersAt, replaceDevice } from './device.mjs';
import { directory } from './directory.mjs';
import { button, hide, item, of } from './elements.mjs';
import { formerTold, forgetting } from './told.mjs';
import { isolated } from './words.mjs';

/**
 * @typedef {import('./device.mjs').Device} Device
 * @typedef {import('./device.mjs').Former} Former
 */

/**
 * The name of whose a device is, as far as it is known; else what it was.
 *
 * @param {number} site
 * @param {string} [before]
 */
function nameOf(site, before = '') {
  return directory.nameOf(directory.personOf(site) ?? 0) ?? before;
}

/**
 * Has this browser be another device from now on. The one that it was stays beside it.
 *
 * @param {string} base
 * @param {Device} device
 * @param {() => Promise<boolean>} leave keeps all that the page has, and gives whether that was done
 */
export async function become(base, device, leave) {
  if (!(await leave())) return;
  replaceDevice(base, device, nameOf(deviceAt(base)?.site ?? 0));
  location.reload();
}

/**
 * What brings this browser back to who it was, where it can't open the page as who it is.
 *
 * @param {string} base
 */
export function waysBack(base) {
  return formersAt(base).map((it) => ({ word: formerTold(nameOf(it.site, it.name)), act: () => become(base, it, async () => true) }));
}

export class Formers {
  /**
   * @param {string} base
   * @param {() => Promise<boolean>} leave keeps all that the page has, and gives whether that was done
   */
  constructor(base, leave) {
    this.base = base;
    this.leave = leave;
    this.said = ''; // of what the list was made
    this.show();
  }

  // A device that an owner closed is of no use any more, and forgotten.
  show() {
    const all = formersAt(this.base);
    const closed = all.filter(({ site }) => directory.closed.has(site));
    for (const { site } of closed) forgetFormer(this.base, site);
    const open = all.filter((it) => !closed.includes(it)).map((it) => ({ ...it, name: nameOf(it.site, it.name) }));
    const said = JSON.stringify(open.map(({ site, name }) => [site, name]));
    if (said === this.said) return;
    this.said = said;
    hide('former-part', !open.length);
    of('formers').replaceChildren(...open.map((it) => this.item(it)));
  }

  /** @param {Former} former */
  item(former) {
    const told = formerTold(former.name);
    const name = isolated(former.name || 'whoever it was');
    return item(button(told, told, () => become(this.base, former, this.leave)), ' ', button('Forget', `Forget ${name}`, () => this.forget(former, name)));
  }

  /**
   * @param {Former} former
   * @param {string} name
   */
  forget(former, name) {
    if (!confirm(forgetting(name))) return;
    forgetFormer(this.base, former.site);
    this.show();
    (of('formers').querySelector('button') ?? of('people-title')).focus();
  }
}
