// The tree: its rows, how they are drawn, and the keys. A row is a treeitem; one of them can be reached by Tab.
const FIRST = 120; // Rows of the tree at the start, about.
const PIECE = 200; // Rows of a directory, of equal files or of a search that are shown at once.
const ROWS = 3000; // Rows of the tree that are shown at once.
const FEW = 3; // So many equal files of a directory are rows of their own.
const PAUSE = 700; // Milliseconds between two letters of one name that is typed.
const opens = new Uint8Array(files); // Directories that are open.
const openGroups = new Set(), room = new Map(); // By keys: equal files that are shown one by one; how many rows are shown.
const items = new Map(); // What is in a directory, as it is shown.
const tree = element("div", {id: "tree"});
const shown = {rows: [], byKey: new Map(), found: null, levels: null, most: ROWS, active: ""};
const typed = {text: "", at: 0};

// Whether all files below a directory are alike for everybody, files with files and directories with directories.
const alike = new Uint8Array(files);

function both(one, other) { return one === NONE || one === other ? other : other === NONE ? one : SEVERAL; }

function findAlike() {
  const below = new Int32Array(files).fill(NONE), folders = new Int32Array(files).fill(NONE);
  for (let file = files - 1; file >= 0; file--) {
    const parent = parents[file], row = rowOfKind[kindOf[file]];
    folders[file] = isFolder(file) ? both(folders[file], row) : NONE;
    alike[file] = isFolder(file) && sizes[file] > 1 && !changes[file] && below[file] !== SEVERAL && folders[file] !== SEVERAL ? 1 : 0;
    if (parent < 0) continue;
    below[parent] = both(below[parent], isFolder(file) ? below[file] : row);
    folders[parent] = both(folders[parent], folders[file]);
  }
}

// Opens directories from the top down, as long as that makes at most `left` rows.
function openFirst(left) {
  const coming = inside(NONE, files);
  for (const file of coming) {
    if (!isFolder(file) || alike[file]) continue;
    const found = inside(file, Math.max(left, 0) + 1);
    if (parents[file] >= 0 && found.length > left) continue;
    opens[file] = 1;
    left -= found.length;
    for (const it of found) coming.push(it);
  }
}

// Opens the directories that have changed files below them.
function openChanges() { for (let file = 0; file < files; file++) if (isFolder(file) && changes[file]) opens[file] = 1; }

function groupOf(file) {
  const kind = isChanged(file) ? kindBefore[file] + " " + kindOf[file] : kindOf[file];
  return data.marks[file] || data.mounts[file] ? kind + " " + ownMarks(file) : kind;
}

// What is in a directory: directories, files, and files that are equal and changed alike as one item.
function itemsOf(folder) {
  if (items.has(folder)) return items.get(folder);
  const found = [], inIt = inside(folder, files).filter(isShown), sizesOfGroups = new Map(), many = new Map();
  for (const file of inIt) if (!isFolder(file)) sizesOfGroups.set(groupOf(file), (sizesOfGroups.get(groupOf(file)) ?? 0) + 1);
  for (const file of inIt) {
    const group = groupOf(file);
    if (isFolder(file) || sizesOfGroups.get(group) <= FEW) found.push(itemOf(file));
    else if (many.has(group)) many.get(group).push(file);
    else {
      many.set(group, [file]);
      found.push({file, group: many.get(group), key: "files-" + file});
    }
  }
  items.set(folder, found);
  return found;
}

function itemOf(file) { return {file, key: "file-" + file}; }
function frameOf(key, inIt, level, make = item => item) { return {key, inIt, level, make, at: 0, room: room.get(key) ?? PIECE}; }

// The frame of what is in a row, where that is open.
function frameIn(row) {
  if (row.group) return openGroups.has(row.key) ? frameOf(row.key, row.group, row.level + 1, itemOf) : null;
  return opens[row.file] && sizes[row.file] > 1 ? frameOf(row.key, itemsOf(row.file), row.level + 1) : null;
}

// The rows to show, from the top down: of a search those that were found, and else of the tree. A wanted row is among them.
function listRows(wanted) {
  const found = [], isTree = !view.search;
  const stack = [isTree ? frameOf("top", itemsOf(NONE), 1) : frameOf("top", shown.found, 1, itemOf)];
  while (stack.length) {
    const frame = stack[stack.length - 1], size = frame.inIt.length;
    if (found.length >= shown.most && !wanted) return [...found, {key: "more-rows", level: 1, size: 1, place: 1}];
    if (frame.at >= Math.min(size, frame.room)) {
      if (frame.at < size) found.push({key: "more-" + frame.key, of: frame.key, left: size - frame.at, level: frame.level, size, place: frame.at + 1});
      stack.pop();
      continue;
    }
    const row = {...frame.make(frame.inIt[frame.at++]), level: frame.level, size, place: frame.at};
    const next = isTree ? frameIn(row) : null;
    row.isOpen = isTree && (row.group || sizes[row.file] > 1) ? next !== null : null;
    found.push(row);
    if (row.key === wanted) wanted = "";
    if (next) stack.push(next);
  }
  return found;
}

function badge(byte, file) {
  return rightBox("right " + (LEVELS[LEVEL[byte]] ?? "absent"), wordsOf(byte, file), LETTERS[byte]);
}

// The right of the chosen user on a file, and before it the one that it was.
function badgesOf(file) {
  if (view.who < 0) return [];
  const now = rightOf(file, view.who, false), before = rightOf(file, view.who, true);
  return before === now ? [badge(now, file)] : [badge(before, file), element("span", {className: "to", textContent: "\u2192"}), badge(now, file)];
}

// How many files of each level are below.
function belowOf(counts) {
  const found = LEVELS.map((name, level) => [counts[level], level, name]).filter(([count]) => count);
  return element("span", {className: "below"}, found.length ? "below: " : "below: not there", ...found.flatMap(([count, level, name], place) => {
    const badge = element("span", {className: "level " + name, textContent: numbered(count) + " " + name}), isLast = place === found.length - 1;
    return [element("span", {className: "part"}, badge, isLast ? "" : ","), isLast ? "" : " "];
  }));
}

function changedText(file) {
  if (isChanged(file)) return recordOf(file, false) < 0 ? "removed" : recordOf(file, true) < 0 ? "new" : "changed";
  return "";
}

function nameText(row) {
  if (row.group) return shortened(nameOfFile(row.file), LONG / 2) + " .. " + shortened(nameOfFile(row.group.at(-1)), LONG / 2);
  const slash = isFolder(row.file) && parents[row.file] >= 0 ? "/" : "";
  return view.search ? pathOf(row.file, LONG) : shortened(nameOfFile(row.file), LONG) + slash;
}

// What a row shows after its arrow.
function partsOf(row) {
  const {file} = row;
  if (file === undefined) return [element("span", {className: "name", textContent: row.of ? counted(row.left, "more row") + ": show the next" : "more rows: show the next"})];
  const parts = [element("span", {className: "name", textContent: nameText(row)}), element("span", {className: "rights"}, ...badgesOf(file))];
  if (row.group) parts.push(element("span", {className: "below", textContent: counted(row.group.length, "file") + ", alike for everybody"}));
  else if (sizes[file] > 1)
    parts.push(shown.levels ? belowOf(shown.levels.map(it => it[file])) : element("span", {className: "below", textContent: numbered(sizes[file] - 1) + " below"}));
  const below = changes[file] - (isChanged(file) ? 1 : 0);
  const own = row.group && changedText(file) ? row.group.length + " " + changedText(file) : changedText(file);
  const texts = [own, isFolder(file) && below ? numbered(below) + " changed below" : ""];
  if (texts.join("")) parts.push(element("span", {className: "changed", textContent: texts.filter(it => it).join(", ")}));
  const marks = ownMarks(file).map(text => text.split(":")[0]);
  if (marks.length) parts.push(element("span", {className: "mark", textContent: marks.join(", ")}));
  return parts;
}

// The element of a row, which is the one that shows it already, where there is one.
function madeOf(row, old) {
  const made = old?.made ?? element("div", {className: "row"});
  row.made = made;
  row.text = [view.who, view.alongPaths, view.search !== "", shown.levels?.number ?? ""].join();
  attributes(made, {
    role: "treeitem", "data-key": row.key, tabindex: row.key === shown.active ? "0" : "-1", "aria-level": row.level, "aria-setsize": row.size,
    "aria-posinset": row.place, "aria-expanded": row.isOpen === null || row.isOpen === undefined ? null : String(row.isOpen),
    "aria-selected": String(row.file === view.file && !row.group && row.file !== undefined)});
  made.style.setProperty("--deep", row.level - 1);
  if (!old || old.text !== row.text || old.left !== row.left)
    made.replaceChildren(attributes(element("span", {className: "open"}), {"aria-hidden": "true"}), ...partsOf(row));
  made.children[0].textContent = row.isOpen === true ? "\u25be" : row.isOpen === false ? "\u25b8" : "";
  return made;
}

// Shows the rows; what stays keeps its element, so that the focus stays too.
function drawTree(wanted = "") {
  const rows = listRows(wanted), byKey = new Map(rows.map(row => [row.key, row])), before = shown.byKey;
  const hadFocus = document.activeElement?.parentNode === tree;
  if (!byKey.has(shown.active)) shown.active = byKey.has("file-" + view.file) ? "file-" + view.file : rows.length ? rows[0].key : "";
  for (const [key, old] of before) if (!byKey.has(key)) old.made.remove();
  let next = tree.firstChild;
  for (const row of rows) {
    const made = madeOf(row, before.get(row.key));
    if (made === next) next = next.nextSibling;
    else tree.insertBefore(made, next);
  }
  Object.assign(shown, {rows, byKey});
  if (hadFocus && document.activeElement?.parentNode !== tree) focusRow(shown.active);
}

function focusRow(key) {
  const row = shown.byKey.get(key);
  if (!row) return;
  attributes(shown.byKey.get(shown.active)?.made ?? row.made, {tabindex: "-1"});
  shown.active = key;
  attributes(row.made, {tabindex: "0"});
  row.made.focus();
}

// Opens or closes what is in a row.
function toggle(row) {
  if (row.group) openGroups.has(row.key) ? openGroups.delete(row.key) : openGroups.add(row.key);
  else opens[row.file] = 1 - opens[row.file];
  drawTree();
}

// Shows the next rows, and goes to the first of them.
function showMore(row) {
  const {place} = row, at = shown.rows.indexOf(row);
  if (row.of) room.set(row.of, place - 1 + PIECE);
  else shown.most += ROWS;
  drawTree();
  focusRow(shown.rows[at]?.key);
}

function act(row) {
  if (row.file === undefined) showMore(row);
  else if (row.group) toggle(row);
  else choose(row.file);
}

// Makes sure that a file has a row of its own, in open directories and within their room.
function openPath(file) {
  if (!isShown(file)) showChangesAlone(false);
  for (let it = file; it >= 0; it = parents[it]) {
    if (it !== file) opens[it] = 1;
    const above = parents[it] < 0 ? "top" : "file-" + parents[it], inIt = itemsOf(parents[it]);
    let place = inIt.findIndex(item => item.group ? groupOf(item.file) === groupOf(it) && !isFolder(it) : item.file === it);
    room.set(above, Math.max(room.get(above) ?? PIECE, place + 1));
    const {group, key} = inIt[place];
    if (!group) continue;
    openGroups.add(key);
    room.set(key, Math.max(room.get(key) ?? PIECE, group.indexOf(it) + 1));
  }
}

// Shows a file in the tree, and goes to it.
function reveal(file) {
  openPath(file);
  endSearch();
  drawTree("file-" + file);
  focusRow("file-" + file);
}

// The row that one is in: the nearest before it of a lower level.
function rowAbove(at) {
  let above = at - 1;
  while (above >= 0 && shown.rows[above].level >= shown.rows[at].level) above -= 1;
  return above;
}

// The next row, from one on and around, whose name begins with what was typed.
function rowTyped(at, letter) {
  const now = Date.now(), isNext = now - typed.at > PAUSE;
  Object.assign(typed, {text: (isNext ? "" : typed.text) + letter.toLowerCase(), at: now});
  const {length} = shown.rows, names = Array.from({length}, (_, k) => (at + k + (isNext ? 1 : 0)) % length);
  const found = names.find(k => shown.rows[k].file !== undefined && nameOfFile(shown.rows[k].file).toLowerCase().startsWith(typed.text));
  return found ?? at;
}

// The row that a key leads to from one; the row itself where the key did something else; NONE where it is no key of the tree.
function rowOfKey(key, at) {
  const row = shown.rows[at], last = shown.rows.length - 1;
  if (key === "ArrowDown") return Math.min(at + 1, last);
  if (key === "ArrowUp") return Math.max(at - 1, 0);
  if (key === "Home") return 0;
  if (key === "End") return last;
  if (key === "ArrowRight" && row.isOpen) return Math.min(at + 1, last);
  if (key === "ArrowRight" && view.search && row.file !== undefined) reveal(row.file);
  else if (key === "ArrowRight" && row.isOpen === false || key === "ArrowLeft" && row.isOpen) toggle(row);
  else if (key === "ArrowLeft") return Math.max(rowAbove(at), 0) === 0 && row.level === 1 ? at : rowAbove(at);
  else if (key === "Enter" || key === " " && Date.now() - typed.at > PAUSE) act(row);
  else if (key.length === 1) return rowTyped(at, key);
  else if (key !== "ArrowRight") return NONE;
  return SEVERAL;
}

tree.onkeydown = event => {
  const at = shown.rows.findIndex(row => row.key === shown.active);
  if (at < 0 || event.ctrlKey || event.altKey || event.metaKey) return;
  const found = rowOfKey(event.key, at);
  if (found === NONE) return;
  event.preventDefault();
  if (found >= 0) focusRow(shown.rows[found].key);
};

tree.onclick = event => {
  const key = event.target.closest(".row")?.getAttribute("data-key"), row = shown.byKey.get(key);
  if (!row) return;
  focusRow(key);
  if (event.target.className === "open" && typeof row.isOpen === "boolean") toggle(row);
  else act(row);
};
