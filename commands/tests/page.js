"use strict";
// Opens a page of facl-report with a stand-in for a browser's document, and prints what its side shows of each file, as JSON:
// by path the kind, the right in letters, the names, the reason and what is below, of each line; first of the files alone, then
// along their paths. For each user the tree has to say of each directory the same of what is below. With TEXT it searches for that, chooses the first file that is found, and prints what is shown then, as the page opens; `marks`
// are that of its row, and those beside the tree.
//
// usage: node page.js PAGE [TEXT]
const fs = require("fs");

class Element {
  constructor(name) { Object.assign(this, {name, children: [], className: "", own: "", values: {}, parentNode: null, style: {setProperty() {}}}); }
  get textContent() { return this.own + this.children.map(it => it instanceof Element ? it.textContent : it).join(""); }
  set textContent(text) { Object.assign(this, {own: text, children: []}); }
  append(...inner) { for (const it of inner) this.insertBefore(it, null); }
  insertBefore(made, next) {
    if (made instanceof Element) { made.remove(); made.parentNode = this; }
    const at = next === null ? this.children.length : this.children.indexOf(next);
    this.children.splice(at, 0, made);
  }
  remove() {
    if (this.parentNode) this.parentNode.children.splice(this.parentNode.children.indexOf(this), 1);
    this.parentNode = null;
  }
  replaceChildren(...inner) { this.children = []; this.append(...inner); }
  get firstChild() { return this.children[0] ?? null; }
  get nextSibling() { return this.parentNode.children[this.parentNode.children.indexOf(this) + 1] ?? null; }
  setAttribute(name, value) { this.values[name] = String(value); }
  removeAttribute(name) { delete this.values[name]; }
  getAttribute(name) { return this.values[name] ?? null; }
  closest(selector) { return "." + this.className === selector ? this : this.parentNode?.closest(selector) ?? null; }
  get classList() { return {toggle: (name, isSo) => { this.className = isSo ? name : ""; }, add() {}, remove() {}}; }
  focus() { document.activeElement = this; }
  scrollIntoView() {}
  all(fits) { return this.children.flatMap(it => it instanceof Element ? [...(fits(it) ? [it] : []), ...it.all(fits)] : []); }
}

const page = fs.readFileSync(process.argv[2], "utf8");
const body = new Element("body");
const data = Object.assign(new Element("script"), {id: "data", textContent: page.match(/<script type="application\/json" id="data">([^]*?)<\/script>/)[1]});
const byId = id => [data, ...body.all(it => it.id === id)].find(it => it.id === id);
const document = {body, activeElement: body, getElementById: byId, createElement: name => new Element(name)};
const location = {hash: ""}, setHash = (state, title, text) => { location.hash = text; };
const world = {document, location, history: {pushState: setHash, replaceState: setHash}, matchMedia: () => ({matches: false, addEventListener() {}}), addEventListener() {}};
new Function(...Object.keys(world), page.match(/<script>([^]*)<\/script>/)[1])(...Object.values(world));

const tree = byId("tree");
const isOf = name => it => it.className.split(" ")[0] === name;
const click = made => tree.onclick({target: made});
const partOf = (row, name) => row.all(isOf(name))[0];

function openAll() {
  for (;;) {
    const closed = tree.children.find(row => row.getAttribute("aria-expanded") === "false");
    if (!closed) return;
    click(partOf(closed, "open"));
  }
}

function side() {
  const lines = byId("side").all(it => it.name === "table").flatMap(table => {
    const [caption, , rows] = table.children;
    return rows.children.map(row => {
      const letters = row.all(it => it.name === "small")[0].textContent, names = row.children[0].textContent;
      const reason = row.all(isOf("reason"))[0].textContent, below = row.all(isOf("below"))[0]?.textContent ?? "";
      return [caption.textContent, letters === "---" ? "none" : letters, names === "everybody else" ? "" : names, reason, below];
    });
  });
  return [byId("side").all(it => it.name === "h2")[0].textContent, lines];
}

// What the tree says of what is below, by rows, for each user beside what the side says.
function checkBelow() {
  const options = byId("who").all(it => it.name === "option" && it.value !== "");
  const folders = tree.children.filter(row => /^file-/.test(row.getAttribute("data-key")) && row.getAttribute("aria-expanded") !== null);
  for (const {value, textContent} of options) {
    byId("who").value = value;
    byId("who").onchange();
    for (const row of folders) {
      click(partOf(row, "name"));
      const asked = byId("side").all(isOf("asked"))[0], [inTree, inSide] = [row, asked].map(it => partOf(it, "below").textContent);
      if (inTree !== inSide) throw new Error(side()[0] + ": " + textContent + ": " + inTree + " in the tree, " + inSide + " beside it");
    }
  }
}

function sides() {
  const rows = tree.children.filter(row => /^file-/.test(row.getAttribute("data-key")));
  return Object.fromEntries(rows.map(row => {
    click(partOf(row, "name"));
    return side();
  }));
}

function chooseAlongPaths(checked) {
  byId("along").checked = checked;
  byId("along").onchange();
}

function find(text) {
  byId("search").value = text;
  byId("search").oninput();
  const name = partOf(tree.children[0], "name"), row = name.textContent;
  click(name);
  const marks = [partOf(tree.children[0], "mark")?.textContent ?? "", ...byId("side").all(isOf("mark")).map(it => it.textContent)];
  return {row, rows: tree.children.length, last: tree.children.at(-1).textContent, count: byId("count").textContent, side: side(), marks};
}

if (process.argv.length > 3) console.log(JSON.stringify(find(process.argv[3])));
else {
  openAll();
  chooseAlongPaths(false);
  const alone = sides();
  checkBelow();
  chooseAlongPaths(true);
  checkBelow();
  console.log(JSON.stringify([alone, sides()]));
}
