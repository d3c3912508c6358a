// The data of the page: files, rights and their words, paths, and the search. A file is a number, in path order: the files in
// a directory, and in these, follow it. A right is a byte of `index`: bit N says whether the request N of acl(5) is granted.
const files = data.files.count, SEVERAL = -2, NONE = -1;
const LONGEST = 2000; // Letters of the path beside the tree.
const ABSENT = 4; // A level beside those of page.js.
// What is chosen: the place of a user or group, a file, and how they are shown.
const view = {who: NONE, file: NONE, alongPaths: !data.alone, changesAlone: false, search: ""};

// The numbers of a column: seven bits a byte, the lowest first.
function unpacked(text) {
  const bytes = atob(text), found = new Int32Array(files);
  for (let place = 0, file = 0; file < files; file++) {
    let byte = bytes.charCodeAt(place++), number = byte & 127;
    for (let shift = 7; byte > 127; shift += 7) {
      byte = bytes.charCodeAt(place++);
      number |= (byte & 127) << shift;
    }
    found[file] = number;
  }
  return found;
}

// What each of the shown users has, of which most have the same.
function spread([most, others]) {
  const found = new Uint8Array(data.whos.length).fill(most);
  for (const place in others) found[place] = others[place];
  return found;
}

const rows = data.rows.map(spread), reaches = data.reaches.map(spread), kinds = data.kinds;
const folderOfKind = Uint8Array.from(kinds, it => it[0]), rowOfKind = Int32Array.from(kinds, it => it[1]);
const kindOf = unpacked(data.files.kind), depths = unpacked(data.files.depth), isOther = new Uint8Array(files);
const kindBefore = data.script ? Int32Array.from(kindOf) : kindOf; // Before the script.
const nameOf = unpacked(data.files.name), parents = new Int32Array(files), sizes = new Int32Array(files), changes = new Int32Array(files);
const nameEnds = ends(data.files.names);

// Where each name of a text of names ends.
function ends(text) {
  const found = [];
  for (let end = text.indexOf("\n"); end >= 0; end = text.indexOf("\n", end + 1)) found.push(end);
  found.push(text.length);
  return Int32Array.from(found);
}

function nameAt(names, ends, number) { return names.slice(number ? ends[number - 1] + 1 : 0, ends[number]); }
function nameOfFile(file) { return nameAt(data.files.names, nameEnds, nameOf[file]); }

// The names of files, which are written as how many names before the next new one they are; what each file is in; how many
// files there are from it on; and how many of these are changed.
(() => {
  const last = [];
  for (let file = 0, known = 0; file < files; file++) {
    nameOf[file] = nameOf[file] ? known - nameOf[file] : known++;
    parents[file] = depths[file] ? last[depths[file] - 1] : NONE;
    last[depths[file]] = file;
  }
  for (const file in data.files.changed) {
    kindBefore[file] = data.files.changed[file];
    isOther[file] = changes[file] = 1;
  }
  for (let file = files - 1; file >= 0; file--) {
    sizes[file] += 1;
    if (parents[file] < 0) continue;
    sizes[parents[file]] += sizes[file];
    changes[parents[file]] += changes[file];
  }
})();

const {now: inner, before: innerBefore} = allInner();

// Who can get to what is in each directory, as a number of data.reaches: now, and before the script.
function allInner() {
  const inside = new Map(data.insides.map(([reach, row, found]) => [reach * rows.length + row, found]));
  const found = isOld => {
    const inner = new Int32Array(files).fill(NONE), its = isOld ? kindBefore : kindOf;
    for (let file = 0; file < files; file++)
      if (folderOfKind[its[file]]) inner[file] = inside.get((parents[file] < 0 ? data.start : inner[parents[file]]) * rows.length + rowOfKind[its[file]]);
    return inner;
  };
  const now = found(false);
  return {now, before: data.script ? found(true) : now};
}

// What Linux looks at beside the list of a file: what is said of it alone or with all below it, and what is said of it in all.
function ownMarks(file) { return [...(data.marks[file] ?? []), ...(data.mounts[file] ?? [])]; }
function marksOf(file) {
  let it = file;
  while (it >= 0 && !data.mounts[it]) it = parents[it];
  return [...(data.marks[file] ?? []), ...(data.mounts[it] ?? [])];
}

function isFolder(file) { return folderOfKind[kindOf[file]] === 1; }
function isChanged(file) { return isOther[file] === 1; }
function kindAt(file, isOld) { return (isOld ? kindBefore : kindOf)[file]; }
function recordOf(file, isOld) { return kinds[kindAt(file, isOld)][2]; }
function aboveOf(file, isOld) { return parents[file] < 0 ? data.start : (isOld ? innerBefore : inner)[parents[file]]; }

// What the user of a place may do on a file alone, now or before the script; 0 if the file or the user is not there.
function byteOf(file, place, isOld) { return rows[rowOfKind[kindAt(file, isOld)]][place]; }

// The same along the path of the file, where that is asked: 1 is nothing but to be there.
function rightOf(file, place, isOld) {
  const byte = byteOf(file, place, isOld);
  return byte && view.alongPaths && !reaches[aboveOf(file, isOld)][place] ? 1 : byte;
}

// The greatest requests that a byte grants; none where it is 0.
const GREATEST = Array.from({length: 256}, (_, byte) => {
  if (!byte) return [];
  const found = [0, 1, 2, 3, 4, 5, 6, 7].filter(it => byte >> it & 1);
  return found.filter(it => !found.some(other => other !== it && (it & other) === it));
});
const LETTERS = GREATEST.map(found => found.map(it => REQUESTS[it]).join(" ") || "absent");
const LEVEL = GREATEST.map(found => found.length ? Math.max(...found.map(levelOf)) : ABSENT);

function wordsOf(byte, file) { return GREATEST[byte].map(it => WORDS[isFolder(file) ? 0 : 1][it]).join(", or ") || "not there"; }

// How many files of each level are below each directory, for the user of a place.
function levelsBelow(place) {
  const ofKind = Uint8Array.from(rowOfKind, row => LEVEL[rows[row][place]]), open = Uint8Array.from(reaches, it => it[place] || !view.alongPaths ? 1 : 0);
  const found = [0, 1, 2, 3, ABSENT].map(() => new Int32Array(files));
  for (let file = files - 1; file >= 0; file--) {
    const parent = parents[file];
    if (parent < 0) continue;
    const level = ofKind[kindOf[file]];
    found[open[inner[parent]] || level === ABSENT ? level : 0][parent] += 1;
    if (sizes[file] > 1) for (const counts of found) counts[parent] += counts[file];
  }
  return found;
}

// How many files of each kind are below a directory, for each number of who can get to what they are in.
function kindsBelow(folder) {
  const numbers = new Map(), end = folder + sizes[folder];
  for (let file = folder + 1, reach = NONE, counts; file < end; file++) {
    if (inner[parents[file]] !== reach) {
      reach = inner[parents[file]];
      if (!numbers.has(reach)) numbers.set(reach, new Int32Array(kinds.length));
      counts = numbers.get(reach);
    }
    counts[kindOf[file]] += 1;
  }
  return numbers;
}

// How many files of each level are below a directory, for the users of all places.
function levelsOfAll(folder) {
  const found = data.whos.map(() => [0, 0, 0, 0, 0]);
  for (const [reach, counts] of kindsBelow(folder))
    counts.forEach((count, kind) => {
      if (count) found.forEach((levels, place) => {
        const level = LEVEL[rows[rowOfKind[kind]][place]];
        levels[view.alongPaths && !reaches[reach][place] && level !== ABSENT ? 0 : level] += count;
      });
    });
  return found;
}

// The levels that occur, with their counts, the lowest first.
function levelsText(counts) {
  return LEVELS.map((name, level) => [counts[level], name]).filter(([count]) => count).map(([count, name]) => numbered(count) + " " + name).join(", ");
}

// The files in a directory, or for NONE those that no directory is above; at most `most`.
function inside(folder, most) {
  const found = [], end = folder < 0 ? files : folder + sizes[folder];
  for (let file = folder + 1; file < end && found.length < most; file += sizes[file]) found.push(file);
  return found;
}

// The path of a file; of many components those that are shown at least.
function pathOf(file, most) {
  const all = wayTo(file, parents).filter(it => parents[it] >= 0 || nameOfFile(it) !== "/"); // Without the root directory.
  const kept = all.length <= most ? all : [...all.slice(0, most / 2), ...all.slice(-most / 2)];
  return shortened("/" + kept.map(nameOfFile).join("/"), most);
}

// The file of a path that pathOf gives, with or without its first slash; NONE where there is none.
function fileAt(path) {
  let rest = path.replace(/^\/+|\/+$/g, ""), folder = files && nameOfFile(0) === "/" ? 0 : NONE, found = rest ? NONE : folder;
  while (rest) {
    found = inside(folder, files).find(it => rest === nameOfFile(it) || rest.startsWith(nameOfFile(it) + "/")) ?? NONE;
    if (found < 0) return NONE;
    rest = rest.slice(nameOfFile(found).length + 1);
    folder = found;
  }
  return found;
}

// The names in small letters, with their ends, which the search makes once.
const small = {};

// The end of the path of what is in a directory, in small letters, with at least `slashes` slashes.
function endOfPath(folder, slashes) {
  let path = "", it = folder;
  for (let count = 0; it >= 0 && count <= slashes; it = parents[it]) {
    const name = nameAt(small.names, small.ends, nameOf[it]);
    path = (name === "/" ? "" : name) + "/" + path;
    count += name.split("/").length;
  }
  return it < 0 && path[0] !== "/" ? "/" + path : path;
}

// Those of some files whose path has a text that ends in the file's own name, or in the slash after that of a directory: what
// is below a directory that was found is not found again.
function withText(found, text, slashes) {
  let folder = SEVERAL, above = "";
  return found.filter(file => {
    if (parents[file] !== folder) above = endOfPath(folder = parents[file], slashes);
    const path = above + nameAt(small.names, small.ends, nameOf[file]) + (isFolder(file) ? "/" : ""), place = path.lastIndexOf(text);
    return place >= 0 && place + text.length > above.length;
  });
}

// The files whose path has a text, without regard to capital letters.
function search(text) {
  if (!small.names) {
    small.names = data.files.names.toLowerCase();
    small.ends = ends(small.names);
  }
  const wanted = text.toLowerCase(), slashes = wanted.split("/").length - 1;
  const part = wanted.replace(/\/$/, "").split("/").pop(), has = new Uint8Array(small.ends.length), found = [], all = !view.changesAlone;
  for (let place = small.names.indexOf(part), name = 0; place >= 0 && name < has.length; place = small.names.indexOf(part, small.ends[name++] + 1)) {
    while (small.ends[name] < place + part.length) name++;
    has[name] = 1;
  }
  for (let file = 0; file < files; file++)
    if (has[nameOf[file]] && (all || changes[file])) found.push(file);
  return slashes ? withText(found, wanted, slashes) : found;
}

function isShown(file) { return !view.changesAlone || changes[file] > 0; }
