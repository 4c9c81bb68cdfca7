// Elements of the page. Text goes in as text nodes alone, so nobody's words are ever taken for HTML.

/** An element with properties, listeners (`onclick`), `class`, `data`, and children: elements or words. */
export function el(tag, properties = {}, ...children) {
  const node = document.createElement(tag);
  for (const [name, value] of Object.entries(properties)) {
    if (value === undefined || value === null) continue;
    if (name === "class") node.className = value;
    else if (name === "data") Object.assign(node.dataset, value);
    else if (name.startsWith("on")) node.addEventListener(name.slice(2), value);
    else if (name in node) node[name] = value;
    else node.setAttribute(name, value);
  }
  node.append(...children.flat().filter((child) => child !== undefined && child !== null && child !== false));
  return node;
}

export const by = (id) => document.getElementById(id);

/** Gives an element a property, where it has another one: what stays as it is is not laid out anew. */
export function put(node, name, value) {
  if (node[name] !== value) node[name] = value;
}

export function show(node, shown = true) {
  put(node, "hidden", !shown);
}

/** Words in an element, which is hidden where there are none. */
export function say(node, words) {
  put(node, "textContent", words ?? "");
  show(node, Boolean(words));
}

/** Lets the user keep a text as a file. */
export function keep(name, text, type = "text/plain") {
  const link = el("a", { href: URL.createObjectURL(new Blob([text], { type })), download: name });
  document.body.append(link);
  link.click();
  link.remove();
  setTimeout(() => URL.revokeObjectURL(link.href), 10_000);
}

/** Lets the user choose a file by a hidden input, and gives its name and its text. */
export function chooseBy(button, input, take) {
  button.addEventListener("click", () => input.click());
  input.addEventListener("change", async () => {
    const file = input.files[0];
    input.value = "";
    if (file) take(file.name, await file.text());
  });
}

/** Takes files that are dropped on a part of the page. */
export function dropBy(place, take) {
  place.addEventListener("dragover", (event) => event.preventDefault());
  place.addEventListener("drop", async (event) => {
    event.preventDefault();
    const file = event.dataTransfer.files[0];
    if (file) take(file.name, await file.text());
  });
}

/** A number as people read it: no more than six figures behind the point. */
export function figure(number) {
  return number === null || number === undefined ? "–" : String(Math.round(Number(number) * 1e6) / 1e6);
}
