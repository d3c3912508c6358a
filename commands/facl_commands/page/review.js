// The page of one folder for its owner: who may do what there, the entries of its lists with a box at each that can go, and the
// lines of edits that take the ticked ones away.
const {parents, names, lists} = data.files; // By file, in path order: what it is in, its name, the number of its list.
const FIRST = 3; // Names of files, and
const FEW = 12; // names of people, that are shown at once;
const MOST = 1000; // names of files that can be shown,
const LISTS = 200; // and lists, until a person has more shown.
const ROOM = 60000; // Bytes of entries and names in a line of a script, which may have 65,536;
const KEYS_ROOM = 20000; // and of entries alone.
const FOR_PLAN = "# for facl plan, not for a shell"; // As in findings.py.
const filesOf = data.lists.map(() => []);
const ticked = new Set(); // Boxes, as LIST.ENTRY.
let shownLists = 0;

// The path of a file as a script has it: its names are printable, and escapes in them are those of scripts.
function pathOf(file) { return wayTo(file, parents).map(it => names[it]).filter(it => it).join("/") || "."; }

function shownPath(file) {
  const path = pathOf(file);
  return shortened(path === "." ? data.prefix || path : data.prefix + path, LONG);
}

// --- lines of a script

// A word with this text: in quotes where it needs them, or where a shell would make something else of it, and then bytes
// that are not printable ASCII as escapes.
function wordOf(text) {
  if (/^[A-Za-z0-9_.\/:=@%+,-]+$/.test(text)) return text;
  const escaped = byte => byte < 0x20 || byte > 0x7e || byte === 0x27 ? "\\" + byte.toString(8).padStart(3, "0") : String.fromCharCode(byte);
  return "'" + Array.from(new TextEncoder().encode(text), escaped).join("") + "'";
}

function fileWord(file) {
  const path = pathOf(file);
  if (data.prefix) return wordOf(path === "." ? data.prefix : data.prefix + path);
  return wordOf(path[0] === "-" ? "./" + path : path);
}

// Words in their order, as many in each part as it has room for.
function partsOf(words, room) {
  const parts = [];
  let size = room;
  for (const word of words) {
    size += word.length + 1;
    if (size > room) {
      parts.push([]);
      size = word.length + 1;
    }
    parts[parts.length - 1].push(word);
  }
  return parts;
}

function tickedOf(list) { return data.lists[list].entries.filter((_, entry) => ticked.has(list + "." + entry)).map(it => it.key); }

// The files of lists from which the same entries go, by these entries.
function editedFiles() {
  const found = new Map();
  for (let list = 0; list < data.lists.length; list++) {
    const keys = tickedOf(list).join(",");
    if (keys) found.set(keys, [...found.get(keys) ?? [], list]);
  }
  return new Map(Array.from(found, ([keys, those]) => [keys, those.flatMap(it => filesOf[it]).sort((one, other) => one - other)]));
}

function linesOf(edited) {
  const lines = [];
  for (const [keys, files] of edited)
    for (const part of partsOf(keys.split(","), KEYS_ROOM))
      for (const words of partsOf(files.map(fileWord), ROOM - part.join(",").length)) lines.push("setfacl -n -x " + part.join(",") + " " + words.join(" "));
  return lines;
}

function drawLines() {
  const edited = editedFiles(), lines = linesOf(edited);
  const files = [...edited.values()].reduce((sum, it) => sum + it.length, 0);
  byId("lines").textContent = lines.length ? [FOR_PLAN, ...lines].join("\n") : "";
  byId("count").textContent = !ticked.size ? "Nothing is ticked." : counted(ticked.size, "entry", "entries") + " of "
    + counted(edited.size && new Set([...ticked].map(it => it.split(".")[0])).size, "list") + ", in " + counted(files, "file") + ": "
    + counted(lines.length, "line");
  for (const name of ["copy", "save", "clear"]) byId(name).disabled = !ticked.size;
  history.replaceState(null, "", ticked.size ? "#t=" + [...ticked].join(",") : "#");
}

// --- boxes

function setTick(name, isOn) {
  if (isOn) ticked.add(name);
  else ticked.delete(name);
  const box = byId("box-" + name);
  if (box) box.checked = isOn;
}

// The boxes of entries that name somebody.
function boxesOf(who) {
  return data.lists.flatMap((list, place) => list.entries.flatMap((it, entry) => it.key && it.who === who ? [place + "." + entry] : []));
}

// A button that ticks all entries of somebody, or none where all are ticked.
function tickAll(who, boxes) {
  const button = element("button", {type: "button", className: "all", textContent: "tick " + counted(boxes.length, "entry", "entries")});
  button.setAttribute("aria-label", button.textContent + " of " + who);
  button.onclick = () => {
    const isOn = !boxes.every(it => ticked.has(it));
    for (const it of boxes) setTick(it, isOn);
    drawLines();
  };
  return button;
}

// --- what is shown

function rightOf(permissions, isFolder) {
  const request = REQUESTS.indexOf(permissions);
  return rightBox("right " + LEVELS[levelOf(request)], WORDS[isFolder ? 0 : 1][request], permissions);
}

function fewNames(places) {
  const shown = places.slice(0, FEW).map(it => data.people[it].name).join(", ");
  return places.length > FEW ? shown + " and " + numbered(places.length - FEW) + " more" : shown;
}

function personRow(it) {
  const boxes = boxesOf("user " + it.name);
  return element("tr", {}, rowHead(it.name), cell("", ...boxes.length ? [tickAll("user " + it.name, boxes)] : []),
    ...[it.reads, it.changes, it.enters].map(count => cell("number", count ? numbered(count) : "\u2013")), cell("name", it.by.join(", ") || "nothing"));
}

// A group that entries name, or a user who is no person or has no row.
function otherRow(who) {
  const boxes = boxesOf(who), places = new Set(boxes.flatMap(it => {
    const [list, entry] = it.split(".");
    return data.sets[data.lists[list].entries[entry].people];
  }));
  const people = fewNames([...places].sort((one, other) => one - other)) || "nobody here";
  return element("tr", {}, rowHead(who), cell("", tickAll(who, boxes)), cell("name", people));
}

function drawPeople() {
  const box = element("section", {id: "people"}, element("h2", {textContent: "People"}));
  const named = new Set(data.lists.flatMap(list => list.entries.filter(it => it.key).map(it => it.who)));
  const hasRow = it => it.by.length > 0 || it.reads + it.changes + it.enters > 0 || named.has("user " + it.name);
  const table = element("table", {className: "counts"}, headRow("Person", "Entries", "Reads", "Changes", "Enters", "By"),
    element("tbody", {}, ...data.people.filter(hasRow).map(personRow)));
  const nobody = data.people.slice(1).filter(it => !hasRow(it)).map(it => it.name); // Everybody else is the first.
  box.append(element("p", {textContent: "How many of the files and folders each person may read and change, and how many of the folders enter"
    + (data.alone ? ", each judged alone." : ", along paths.")}), element("div", {className: "wide"}, table));
  if (nobody.length) box.append(element("p", {id: "nobody", textContent: "Nothing: " + (nobody.length > 50 ? counted(nobody.length, "other person", "other people") : nobody.join(", "))}));
  for (const it of data.people) named.delete("user " + it.name);
  const others = [...named].sort(), hasUsers = others.some(it => it.startsWith("user "));
  if (others.length)
    box.append(element("h3", {textContent: hasUsers ? "Groups and other users that entries name" : "Groups that entries name"}),
      element("div", {className: "wide"}, element("table", {}, headRow("Name", "Entries", "Gives something to"), element("tbody", {}, ...others.map(otherRow)))));
  return box;
}

// The names of the files of a list: the first ones, and all of them once a person opens the rest.
function namesOf(files) {
  const first = files.slice(0, FIRST).map(shownPath);
  const box = element("div", {className: "files"}, element("span", {className: "name", textContent: first.join(", ")}));
  if (files.length <= FIRST) return box;
  const rest = element("ul"), all = element("details", {}, element("summary", {textContent: "all " + numbered(files.length)}), rest);
  all.ontoggle = () => {
    if (!all.open || rest.children.length) return;
    rest.append(...files.slice(0, MOST).map(it => element("li", {className: "name", textContent: shownPath(it)})));
    if (files.length > MOST) rest.append(element("li", {textContent: "and " + numbered(files.length - MOST) + " more"}));
  };
  box.append(" .. ", all);
  return box;
}

function entryRow(list, entry) {
  const it = data.lists[list].entries[entry], name = list + "." + entry;
  const first = cell("tick"), who = rowHead(it.who);
  if (it.key) {
    const box = element("input", {type: "checkbox", id: "box-" + name, checked: ticked.has(name)});
    box.setAttribute("aria-label", (it.isDefault ? "default " : "") + it.who + ", of " + counted(filesOf[list].length, data.lists[list].folder ? "folder" : "file"));
    box.onchange = () => {
      setTick(name, box.checked);
      drawLines();
    };
    first.append(box);
    who.replaceChildren(element("label", {htmlFor: box.id, textContent: it.who}));
  }
  const may = cell("", rightOf(it.effective, it.isDefault || data.lists[list].folder));
  if (it.effective !== it.permissions) may.append(" ", element("span", {className: "cut", textContent: "of " + it.permissions + ", as the mask cuts it"}));
  return element("tr", {}, first, who, may, cell("name", it.isDefault ? "" : fewNames(data.sets[it.people])));
}

function listBox(list) {
  const it = data.lists[list], files = filesOf[list];
  const box = element("fieldset", {id: "list-" + list}, element("legend", {textContent: counted(files.length, it.folder ? "folder" : "file")}), namesOf(files));
  box.append(element("p", {className: "owner name", textContent: "owner " + it.owner + ", group " + it.group + (it.flags ? ", flags " + it.flags : "")}));
  for (const isDefault of [false, true]) {
    const rows = it.entries.flatMap((each, entry) => each.isDefault === isDefault ? [entryRow(list, entry)] : []);
    if (rows.length)
      box.append(element("table", {}, element("caption", {textContent: isDefault ? "What new files in it get" : "Who may"}), element("tbody", {}, ...rows)));
  }
  return box;
}

function drawMore() {
  const end = Math.min(shownLists + LISTS, data.lists.length), button = byId("more");
  for (; shownLists < end; shownLists++) button.before(listBox(shownLists));
  button.hidden = shownLists === data.lists.length;
  button.textContent = "show more of " + counted(data.lists.length, "list");
}

function copyLines() {
  const said = () => { byId("done").textContent = "copied"; };
  const selected = () => {
    getSelection().selectAllChildren(byId("lines"));
    if (document.execCommand("copy")) said();
  };
  if (navigator.clipboard) navigator.clipboard.writeText(byId("lines").textContent + "\n").then(said, selected);
  else selected();
}

function saveLines() { saveText("edits", byId("lines").textContent + "\n", "text/plain"); }

function clearTicks() {
  for (const it of [...ticked]) setTick(it, false);
  drawLines();
}

function drawEdits() {
  const lines = element("pre", {id: "lines", tabIndex: 0});
  lines.setAttribute("aria-label", "Lines of edits");
  const count = element("p", {id: "count"}), done = element("span", {id: "done"});
  for (const it of [count, done]) it.setAttribute("role", "status");
  return element("section", {id: "edits"}, element("h2", {textContent: "Edits"}), count, lines,
    element("p", {className: "bar"}, button("copy", "copy", copyLines), button("save", "save as edits", saveLines), button("clear", "clear all ticks", clearTicks), done),
    element("p", {}, "The administrator looks at what they change, and for whom, by ", element("code", {textContent: "facl plan -s " + data.snapshot + " edits"})));
}

function drawHead() {
  const facts = element("dl", {id: "facts"}, ...data.facts.map(([name, text]) => factBox(name, text)));
  return element("header", {id: "head"}, element("h1", {textContent: "Who may do what in " + shownPath(0)}), facts,
    element("p", {id: "word", textContent: "Is all of this still right? Tick each entry that is to go. The lines at the end take the ticked entries away and change nothing else."}));
}

// Takes the ticks that the address has.
function readAddress() {
  const wanted = /^#t=([0-9.,]+)$/.exec(location.hash);
  for (const name of wanted ? wanted[1].split(",") : []) {
    const [list, entry] = name.split(".");
    if (data.lists[list]?.entries[entry]?.key) ticked.add(Number(list) + "." + Number(entry));
  }
}

function start() {
  lists.forEach((list, file) => filesOf[list].push(file));
  readAddress();
  const more = button("more", "", drawMore), entries = element("section", {id: "entries"}, element("h2", {textContent: "Entries"}));
  entries.append(element("p", {textContent: "Files with the same owner, group and entries are one list. Entries of the owner, the owning group, the mask and others cannot go."}), more);
  document.body.append(drawHead(), element("main", {}, drawPeople(), entries, drawEdits()));
  drawMore();
  drawLines();
}

start();
