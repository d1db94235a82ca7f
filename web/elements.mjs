// What the page's parts do with its HTML. Nothing that comes by a link is ever markup: all of it goes in as text.

/**
 * The element of an id, which the page has, of a kind.
 *
 * @template {HTMLElement} T
 * @param {string} id
 * @param {new () => T} [kind]
 */
export function of(id, kind) {
  const found = document.getElementById(id);
  if (!(found instanceof (kind ?? HTMLElement))) throw new Error(`the page has no such ${id}`);
  return /** @type {T} */ (found);
}

/**
 * What the button says by which a form was sent.
 *
 * @param {SubmitEvent} event
 */
export function sentBy({ submitter }) {
  return submitter instanceof HTMLButtonElement ? submitter.value : '';
}

/**
 * @param {string} id
 * @param {string} text
 */
export function say(id, text) {
  if (of(id).textContent !== text) of(id).textContent = text;
}

/** @param {(Node | string)[]} parts */
export function item(...parts) {
  const line = document.createElement('li');
  line.append(...parts);
  return line;
}

/**
 * @param {string} text
 * @param {string} label
 * @param {() => void} action
 */
export function button(text, label, action) {
  const made = document.createElement('button');
  made.type = 'button';
  made.textContent = text;
  made.setAttribute('aria-label', label);
  made.addEventListener('click', action);
  return made;
}

/**
 * Gives bytes to the person as a file.
 *
 * @param {Uint8Array} bytes
 * @param {string} name
 */
export function download(bytes, name) {
  const link = document.createElement('a');
  link.href = URL.createObjectURL(new Blob([bytes], { type: 'application/octet-stream' }));
  link.download = name;
  link.click();
  setTimeout(() => URL.revokeObjectURL(link.href), 60000);
}

/**
 * An element with a class and what stands in it.
 *
 * @param {string} tag
 * @param {string} className
 * @param {(Node | string)[]} parts
 */
export function made(tag, className, ...parts) {
  const it = document.createElement(tag);
  it.className = className;
  it.append(...parts);
  return it;
}

/**
 * Hides an element, or shows it, where it isn't so already.
 *
 * @param {string} id
 * @param {boolean} isHidden
 */
export function hide(id, isHidden) {
  if (of(id).hidden !== isHidden) of(id).hidden = isHidden;
}

/**
 * Who stands in a list with the keyboard stands at what has the same name afterwards, or at the list's heading.
 *
 * @param {string} id
 * @param {() => void} action
 */
export function staying(id, action) {
  const stood = of(id).contains(document.activeElement) ? document.activeElement?.getAttribute('aria-label') : null;
  action();
  if (!stood) return;
  /** @type {NodeListOf<HTMLElement>} */
  const acts = of(id).querySelectorAll('button, select');
  ([...acts].find((it) => it.getAttribute('aria-label') === stood) ?? of(`${id}-title`)).focus();
}
