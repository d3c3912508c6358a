// What the pages have in common: their data, elements, texts, and the words of rights. All text is textContent.
const data = JSON.parse(document.getElementById("data").textContent);
const LONG = 240; // Letters of a name or path in a row; a longer one is shown without its middle.
const REQUESTS = ["---", "--x", "-w-", "-wx", "r--", "r-x", "rw-", "rwx"];
// What the requests are called, of a directory and of another file; and the four levels that are counted and coloured.
const WORDS = [["nothing", "enters", "changes", "changes and enters", "reads", "reads and enters", "reads and changes", "reads, changes and enters"],
  ["nothing", "runs", "changes", "changes and runs", "reads", "reads and runs", "reads and changes", "reads, changes and runs"]];
const LEVELS = ["nothing", "enters", "reads", "changes"];

function byId(name) { return document.getElementById(name); }

function element(name, properties, ...inner) {
  const made = Object.assign(document.createElement(name), properties);
  made.append(...inner);
  return made;
}

function attributes(made, values) {
  for (const [name, value] of Object.entries(values))
    if (value === null) made.removeAttribute(name);
    else made.setAttribute(name, value);
  return made;
}

function button(id, text, act) {
  const made = element("button", {type: "button", textContent: text, onclick: act});
  if (id) made.id = id;
  return made;
}

function cell(name, ...inner) { return element("td", {className: name}, ...inner); }
function rowHead(text) { return attributes(element("th", {className: "name", textContent: text}), {scope: "row"}); }

function headRow(...titles) {
  return element("thead", {}, element("tr", {}, ...titles.map(it => attributes(element("th", {textContent: it}), {scope: "col"}))));
}

function factBox(name, text) { return element("div", {}, element("dt", {textContent: name}), element("dd", {textContent: text})); }
function levelOf(request) { return request & 2 ? 3 : request & 4 ? 2 : request; }

// A right as people say it, with its letters beside it.
function rightBox(name, words, letters) { return element("span", {className: name}, words + " ", element("small", {textContent: letters})); }

function numbered(count) { return String(count).replace(/\B(?=(?:...)+$)/g, ","); }
function counted(count, one, more = one + "s") { return numbered(count) + " " + (count === 1 ? one : more); }

// A text without its middle where it is longer than it may be.
function shortened(text, most) {
  if (text.length <= most) return text;
  const half = Math.floor(most / 2);
  return text.slice(0, half).replace(/[\ud800-\udbff]$/, "") + " \u2026 " + text.slice(-half).replace(/^[\udc00-\udfff]/, "");
}

// The files that a file is in and itself, from the top down, by what each is in.
function wayTo(file, parents) {
  const found = [];
  for (let it = file; it >= 0; it = parents[it]) found.push(it);
  return found.reverse();
}

function saveText(name, text, type) {
  const link = element("a", {download: name, href: URL.createObjectURL(new Blob([text], {type}))});
  link.click();
  setTimeout(() => URL.revokeObjectURL(link.href), 60000);
}
