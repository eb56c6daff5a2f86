// New elements of the page.

/** A new element with a class and children: elements and texts. */
export function make(kind, name = "", ...children) {
  const it = document.createElement(kind);
  if (name) it.className = name;
  it.append(...children.filter((child) => child !== null && child !== undefined && child !== ""));
  return it;
}

/** A button that does `call`. */
export function button(text, call, name = "") {
  const it = make("button", name, text);
  it.type = "button";
  it.onclick = call;
  return it;
}
