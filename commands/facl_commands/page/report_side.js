// The answer beside the tree: who may do what with the chosen file, by which entries, and its list; before and after the
// script side by side where they differ.
const ASKED = data.heads.length ? data.heads.at(-1).asked : 0; // The users of a directory service whom the snapshot has.
const KINDS = {user: "Users", group: "A user who has the group alone",
  everybody: "A user without any of these groups" + (ASKED ? ", whom the snapshot does not have; it has " + counted(ASKED, "user") + " of a directory service" : ""),
  account: "System accounts"};
const LINES = 50; // Of a table that are shown at once.
const side = element("section", {id: "side"});

// The entries of a file by which a user is judged.
function entriesOf(file, place, isOld) {
  const record = recordOf(file, isOld);
  const decision = (isOld && data.before[record]) || data.decisions[record];
  return decision ? data.entries[decision[1][place] ?? decision[0]].replaceAll("\n", ", ") : "";
}

// The first directory on the way to a file that a user may not search; NONE where there is none.
function closedFolder(file, place, isOld) {
  if (reaches[aboveOf(file, isOld)][place]) return NONE;
  const into = isOld ? innerBefore : inner;
  let it = parents[file];
  while (it >= 0 && (aboveOf(it, isOld) === into[it] || !reaches[aboveOf(it, isOld)][place])) it = parents[it];
  return it;
}

// By which entries a user has a right: those of the file, or along its path those of the first directory that the user may
// not search.
function reasonOf(file, place, isOld) {
  if (!byteOf(file, place, isOld)) return "";
  const closed = view.alongPaths ? closedFolder(file, place, isOld) : NONE;
  const entries = entriesOf(closed >= 0 ? closed : file, place, isOld);
  if (!entries) return "";
  return "by " + (closed >= 0 ? entries + " of " + pathOf(closed, LONG) : entries);
}

// Users, or groups, of whom all is alike: their names, right and reason before and after, and what is below; those first who
// may do the most.
function linesOf(kind) {
  const file = view.file, found = new Map(), levels = sizes[file] > 1 ? levelsOfAll(file) : null;
  data.whos.forEach(([itsKind, name], place) => {
    if (itsKind !== kind) return;
    const [before, now] = [true, false].map(isOld => ({byte: rightOf(file, place, isOld), reason: reasonOf(file, place, isOld)}));
    const below = levels && levels[place];
    const key = [before.byte, now.byte, before.reason, now.reason, below].join("\n");
    if (!found.has(key)) found.set(key, {before, now, below, names: [], places: []});
    found.get(key).names.push(name);
    found.get(key).places.push(place);
  });
  const rank = ({now, places}) => (places.includes(view.who) ? 100 : 0) + (now.byte === 0 ? -1 : 10 * LEVEL[now.byte] + now.byte / 256);
  return [...found.values()].sort((one, other) => rank(other) - rank(one));
}

function reasonText(text) { return element("span", {className: "reason", textContent: text}); }

function lineRow(line, kind, isChange) {
  const name = rowHead(kind === "everybody" ? "everybody else" : line.names.join(", "));
  const row = element("tr", {className: line.places.includes(view.who) ? "asked" : ""}, name);
  const below = line.below ? [belowOf(line.below)] : [];
  if (isChange)
    row.append(cell("before", badge(line.before.byte, view.file), " ", reasonText(line.before.reason)),
      cell("after", badge(line.now.byte, view.file), " ", reasonText(line.now.reason), ...below));
  else row.append(cell("may", badge(line.now.byte, view.file), ...below), cell("why", reasonText(line.now.reason)));
  return row;
}

function isSame(line) { return line.before.byte === line.now.byte && line.before.reason === line.now.reason; }

// The rows of the first lines, and a last one that shows the others.
function rowsOf(lines, make) {
  const first = lines.length <= LINES + 1 ? lines : lines.slice(0, LINES), left = lines.length - first.length;
  if (!left) return lines.map(make);
  const cell = attributes(element("td", {}), {colspan: 3}), more = element("tr", {}, cell);
  cell.append(button("", numbered(left) + " more: show them", () => more.replaceWith(...lines.slice(LINES).map(make))));
  return [...first.map(make), more];
}

// A table of users or groups; with what was before where that differs for one of them.
function tableOf(kind) {
  const lines = linesOf(kind);
  if (!lines.length) return [];
  const isChange = lines.some(line => !isSame(line)), titles = isChange ? ["Who", "Before", "After"] : ["Who", "May", "Why"];
  const body = element("tbody", {}, ...rowsOf(lines, line => lineRow(line, kind, isChange)));
  return [element("table", {className: "whos"}, element("caption", {textContent: KINDS[kind]}), headRow(...titles), body)];
}

// A list; the lines that another one lacks are marked.
function listBox(title, record, other) {
  const others = new Set(other >= 0 ? data.lists[other].split("\n") : []);
  const lines = record >= 0 ? data.lists[record].split("\n") : ["not there"];
  const inner = lines.flatMap((line, place) => {
    const text = (place ? "\n" : "") + line;
    return [other !== NONE - 1 && line && !others.has(line) ? element("strong", {textContent: text}) : text];
  });
  return element("div", {}, element("h3", {textContent: title}), element("pre", {}, ...inner));
}

function listsOf(file) {
  const before = recordOf(file, true), now = recordOf(file, false);
  if (before === now) return element("div", {className: "lists"}, listBox("List", now, NONE - 1));
  return element("div", {className: "lists"}, listBox("List before", before, now), listBox("List after", now, before));
}

// What is shown of the chosen file: its path, who may do what with it, and its list.
function drawSide() {
  const {file} = view, box = element("div", {className: "answer"});
  if (file < 0) box.append(element("p", {textContent: "Choose a file or a folder: here is who may do what with it, and why."}));
  else {
    const count = isFolder(file) ? "a folder, " + (sizes[file] > 1 ? numbered(sizes[file] - 1) : "nothing") + " below" : "a file";
    box.append(button("back", "\u2190 back to the files", goBack), element("h2", {className: "name", textContent: pathOf(file, LONGEST)}),
      element("p", {className: "what"}, count + (changedText(file) ? ", " + changedText(file) : "") + ". " + (view.alongPaths ? "Along paths." : "Each file alone."),
        ...(view.search ? [" ", button("show", "show it in the tree", () => reveal(file))] : [])),
      ...marksOf(file).map(text => element("p", {className: "mark", textContent: text})), ...findingsOf(file), ...Object.keys(KINDS).flatMap(tableOf), listsOf(file), button("save-side", "save this table (TSV)", saveSide));
  }
  side.replaceChildren(box);
  document.body.classList.toggle("chosen", file >= 0);
}
