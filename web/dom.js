// Elements of the page.

export const $ = (id) => document.getElementById(id);

// An element with properties, and attributes for the names that begin with aria or are role or scope.
export function element(name, more = {}, ...inside) {
  const it = document.createElement(name);
  for (const [key, value] of Object.entries(more)) {
    if (/^(aria-|data-|role$|scope$|for$)/.test(key)) it.setAttribute(key, value);
    else it[key] = value;
  }
  it.append(...inside);
  return it;
}

// A small square of a colour, for a legend.
export function square(colour) {
  const it = element("i");
  it.style.background = colour;
  return it;
}

// A table of rows; a cell is text, an element, or [text, class].
export function table(head, rows) {
  const cell = (it) => (Array.isArray(it) ? element("td", { className: it[1] }, it[0]) : element("td", {}, it));
  const heads = head.map((it) => element("th", { scope: "col" }, it));
  return element("table", {},
    element("thead", {}, element("tr", {}, ...heads)),
    element("tbody", {}, ...rows.map((row) => element("tr", {}, ...row.map(cell)))));
}
