// The head of the page, what is chosen and its address, what is saved as a file, and the start.
const NARROW = "(max-width: 700px)";
const fields = {
  who: element("select", {id: "who"}), along: element("input", {type: "checkbox", id: "along", checked: view.alongPaths}),
  alone: element("input", {type: "checkbox", id: "changed-alone"}),
  search: element("input", {type: "search", id: "search", placeholder: "a part of a path", autocomplete: "off", spellcheck: false}),
  count: attributes(element("span", {id: "count"}), {role: "status"}), word: attributes(element("p", {id: "word"}), {"aria-live": "polite"}),
};

function isUser([kind]) { return kind === "user" || kind === "account"; }
function whoText([kind, name]) { return isUser([kind]) ? name : kind === "group" ? "group " + name : "everybody else"; }

// The sentence of what is shown, or a word of what to do.
function wordText() {
  if (view.who < 0)
    return "Nobody is chosen yet. Choose a person, and each file shows what that person may do with it; or choose a file: "
      + "beside it is who may do what with it, and why.";
  const [kind, name] = data.whos[view.who];
  const who = isUser([kind]) ? name : kind === "group" ? "a user who has the group " + name + " alone" : "a user without any of the groups";
  return "Shown is what " + who + " may do "
    + (view.alongPaths ? "along paths: with the file, if all folders above it may be entered." : "with each file alone, whatever the folders above it grant.");
}

// Draws all that depends on what is chosen.
function draw(wanted = "") {
  if (shown.drawn !== [view.who, view.alongPaths].join()) {
    shown.drawn = [view.who, view.alongPaths].join();
    shown.levels = view.who < 0 ? null : levelsBelow(view.who);
  }
  fields.word.textContent = wordText();
  fields.count.textContent = view.search ? numbered(shown.found.length) + " found" : "";
  attributes(tree, {"aria-label": view.search ? "Files found" : "Files"});
  drawTree(wanted);
  drawSide();
  for (const it of [byId("head"), tree]) it.inert = view.file >= 0 && matchMedia(NARROW).matches; // What the answer covers.
}

function choose(file) {
  const isOther = file !== view.file;
  view.file = file;
  if (view.search && file >= 0) openPath(file);
  draw();
  writeAddress(isOther);
  if (file >= 0 && matchMedia(NARROW).matches) byId("back").focus();
}

// Leaves the answer, which on a small screen is in the place of the tree.
function goBack() {
  const key = "file-" + view.file;
  view.file = NONE;
  draw();
  writeAddress(false);
  focusRow(shown.byKey.has(key) ? key : shown.active);
}

function startSearch(text) {
  view.search = text;
  shown.found = text ? search(text) : null;
  room.delete("top");
  if (!text && view.file >= 0) openPath(view.file);
  draw(!text && view.file >= 0 ? "file-" + view.file : "");
  if (!text && view.file >= 0) shown.byKey.get("file-" + view.file)?.made.scrollIntoView({block: "center"});
  writeAddress(false);
}

function endSearch() {
  if (!view.search) return;
  fields.search.value = view.search = "";
  shown.found = null;
  room.delete("top");
  fields.count.textContent = "";
}

function showChangesAlone(isSo) {
  view.changesAlone = fields.alone.checked = isSo;
  items.clear();
  if (isSo) openChanges();
  if (view.search) shown.found = search(view.search);
}

// The address: u, g or e of whom, f the file, v how they are shown, q what is searched.
function addressText() {
  const [kind, name] = view.who < 0 ? [""] : data.whos[view.who], words = [], path = view.file < 0 ? "" : pathOf(view.file, Infinity);
  if (kind) words.push({user: "u", account: "u", group: "g", everybody: "e"}[kind] + "=" + (kind === "everybody" ? "1" : encodeURIComponent(name)));
  if (path) words.push("f=" + (path === "/" ? path : path.slice(1).split("/").map(encodeURIComponent).join("/")));
  const how = [view.alongPaths === data.alone ? (view.alongPaths ? "along" : "alone") : "", view.changesAlone ? "changes" : ""].filter(it => it);
  if (how.length) words.push("v=" + how.join(","));
  if (view.search) words.push("q=" + encodeURIComponent(view.search));
  return "#" + words.join("&");
}

// A new file is a place to go back to.
function writeAddress(isNew) {
  const text = addressText();
  if (text === (location.hash || "#")) return;
  isNew ? history.pushState(null, "", text) : history.replaceState(null, "", text);
}

function decoded(text) {
  try { return decodeURIComponent(text); } catch { return text; }
}

// Chooses what the address says, as far as it is there.
function readAddress() {
  const words = new Map(location.hash.slice(1).split("&").map(word => [word.split("=", 1)[0], decoded(word.slice(word.indexOf("=") + 1))]));
  const kind = words.has("u") ? "user" : words.has("g") ? "group" : words.has("e") ? "everybody" : "";
  view.who = data.whos.findIndex(it => (it[0] === kind || kind === "user" && isUser(it)) && (kind === "everybody" || it[1] === words.get(kind[0])));
  fields.who.value = view.who < 0 ? "" : String(view.who);
  const how = (words.get("v") ?? "").split(",");
  view.alongPaths = fields.along.checked = how.includes("alone") ? false : how.includes("along") || !data.alone;
  if (data.script && how.includes("changes") !== view.changesAlone) showChangesAlone(how.includes("changes"));
  view.search = fields.search.value = words.get("q") ?? "";
  shown.found = view.search ? search(view.search) : null;
  view.file = words.get("f") ? fileAt(words.get("f")) : NONE;
  if (view.file >= 0) openPath(view.file);
  draw(view.file >= 0 ? "file-" + view.file : "");
  if (view.file >= 0) shown.byKey.get("file-" + view.file)?.made.scrollIntoView({block: "center"});
}

// A field of a row: a name may have a tab; an apostrophe is before what a spreadsheet would compute, as in tables.py.
function field(text) { return String(text).replaceAll("\t", "\\011").replace(/^(?=[=+@'"\r]|-(?![w-][x-](?: [r-][w-][x-])*$))/, "'"); }

function save(name, rows) {
  saveText(name, rows.map(row => row.map(field).join("\t") + "\n").join(""), "text/tab-separated-values");
}

// The rows of the tree that are shown.
function treeTable() {
  const right = (file, isOld) => view.who < 0 ? [] : [wordsOf(rightOf(file, view.who, isOld), file), LETTERS[rightOf(file, view.who, isOld)]];
  const before = data.script ? ["BEFORE", "BEFORE IN LETTERS"] : [];
  const titles = ["PATH", "FILES", ...(view.who < 0 ? [] : [...before, "MAY", "IN LETTERS", "BELOW"]), ...(data.script ? ["CHANGED"] : [])];
  const rows = shown.rows.filter(row => row.file !== undefined).map(row => [
    pathOf(row.file, Infinity) + (row.group ? " .. " + nameOfFile(row.group.at(-1)) : ""), row.group ? row.group.length : sizes[row.file],
    ...(data.script ? right(row.file, true) : []), ...right(row.file, false),
    ...(shown.levels ? [levelsText(shown.levels.map(it => it[row.file]))] : []), ...(data.script ? [changedText(row.file)] : [])]);
  return [titles, ...rows];
}

function sideTable() {
  const titles = ["PATH", "KIND", "WHO", ...(data.script ? ["BEFORE", "BEFORE IN LETTERS", "BEFORE WHY"] : []), "MAY", "IN LETTERS", "WHY", "BELOW"];
  const of = ({byte, reason}) => [wordsOf(byte, view.file), LETTERS[byte], reason];
  const rows = Object.keys(KINDS).flatMap(kind => linesOf(kind).flatMap(line => line.names.map(name => [pathOf(view.file, Infinity), kind, name,
    ...(data.script ? of(line.before) : []), ...of(line.now), line.below ? levelsText(line.below) : ""])));
  return [titles, ...rows];
}

function saveTree() { save("facl-files.tsv", treeTable()); }
function saveSide() { save("facl-answer.tsv", sideTable()); }

function fact(name, texts) {
  const [before, now] = [texts[0], texts.at(-1)];
  const text = before === now ? now : (before || "?") + " \u2192 " + (now || "?");
  return text ? [factBox(name, text)] : [];
}

function factsBox() {
  const all = data.heads, users = data.whos.filter(isUser).length;
  const counts = counted(files, "file") + ", " + counted(users, "user") + (data.without.length ? " (without " + data.without.join(", ") + ")" : "")
    + (data.script ? ", " + counted(Object.keys(data.files.changed).length, "file") + " changed" : "");
  return element("dl", {id: "facts"}, ...fact("host", all.map(it => it.host)), ...fact("date", all.map(it => it.date)), ...fact("folders", all.map(it => it.folders.join(", "))),
    ...fact("snapshot", all.map(it => it.name)), ...fact("facl", all.map(it => it.version)), ...fact("here", [counts]), ...fact("judge", [data.judge]),
    ...fact("beside lists", [[...data.beside, ...data.unknown].join("; ")]));
}

function fillWhos() {
  const groups = {user: "Users", group: "Groups: a user who has the group alone", everybody: "Others", account: "Accounts of the system"};
  fields.who.append(element("option", {value: "", textContent: "\u2014 choose a person \u2014"}));
  for (const [kind, label] of Object.entries(groups)) {
    const options = data.whos.flatMap((it, place) => it[0] === kind ? [element("option", {value: String(place), textContent: whoText(it)})] : []);
    if (options.length) fields.who.append(element("optgroup", {label}, ...options));
  }
  attributes(fields.who, {"aria-label": "the person of whom is asked"});
}

function headBox() {
  const texts = ["may change it", "may read it", "may enter it (a folder) or run it", "may do nothing with it"];
  const levels = [...LEVELS].reverse().map((name, place) => [name, texts[place]]);
  const legend = element("ul", {id: "legend"}, ...levels.map(([name, text]) =>
    element("li", {}, element("span", {className: "right " + name, textContent: name}), " " + text)));
  attributes(legend, {"aria-label": "What the colours mean"});
  const bar = attributes(element("div", {id: "bar"}, element("label", {}, "Find ", fields.search), fields.count,
    ...(data.script ? [element("label", {}, fields.alone, " changes alone")] : []), button("save", "save the list (TSV)", saveTree)),
    {role: "search", "aria-label": "Find files, and save the list"});
  const question = element("p", {id: "question"}, "What may ", fields.who, " do, ", element("label", {}, fields.along, " along paths"), "?");
  return element("header", {id: "head"}, element("h1", {textContent: "Who may do what"}), factsBox(), question, fields.word, legend, bar);
}

function listen() {
  fields.who.onchange = () => { view.who = fields.who.value === "" ? NONE : Number(fields.who.value); draw(); writeAddress(false); };
  fields.along.onchange = () => { view.alongPaths = fields.along.checked; draw(); writeAddress(false); };
  fields.alone.onchange = () => { showChangesAlone(fields.alone.checked); draw(); writeAddress(false); };
  fields.search.oninput = () => startSearch(fields.search.value.trim());
  fields.search.onkeydown = event => {
    if (event.key === "Escape" && view.search) { fields.search.value = ""; startSearch(""); }
    else if (!["ArrowDown", "Enter"].includes(event.key) || !shown.rows.length) return;
    else focusRow(shown.rows[0].key);
    event.preventDefault();
  };
  side.onkeydown = event => { if (event.key === "Escape" && matchMedia(NARROW).matches) goBack(); };
  addEventListener("popstate", readAddress);
  matchMedia(NARROW).addEventListener("change", () => draw());
}

function start() {
  findAlike();
  openFirst(FIRST);
  fillWhos();
  listen();
  attributes(tree, {role: "tree"});
  attributes(side, {"aria-label": "The answer", tabindex: "0"});
  if (data.findings) fillFindings();
  document.body.append(headBox(), element("main", {}, ...(data.findings ? [findings] : []), tree, side));
  readAddress();
}

start();
