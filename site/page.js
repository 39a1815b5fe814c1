// Elements of the page, and words for what they hold.

export const byId = id => document.getElementById(id);

// An element of SVG.
export function drawn(parent, name, attributes) {
  const element = document.createElementNS("http://www.w3.org/2000/svg", name);
  for (const key of Object.keys(attributes || {})) element.setAttribute(key, attributes[key]);
  parent.appendChild(element);
  return element;
}

// An element of the page, with a text that is never read as HTML.
export function made(parent, name, text, kind) {
  const element = document.createElement(name);
  if (text !== undefined) element.textContent = text;
  if (kind) element.className = kind;
  parent.appendChild(element);
  return element;
}

export function many(count, word) {
  return count + " " + word + (count === 1 ? "" : "s");
}

export function interval({ start, end }) {
  return `[${start},${end})`;
}

// Whether the visitor wants no motion.
export function isCalm() {
  return window.matchMedia("(prefers-reduced-motion: reduce)").matches;
}
