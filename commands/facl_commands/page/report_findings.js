// The findings of facl-audit, where the page has them: a list beside the tree, each with its files, which it opens.
const findings = element("nav", {id: "findings"});
const findingsByPath = new Map();

// Shows a file in the tree, with the answer of it.
function showFound(path) {
  const file = fileAt(path);
  if (file < 0) return;
  reveal(file);
  choose(file);
}

function weightOf(weight) { return element("span", {className: "weight " + weight, textContent: weight}); }

function foundFile([path, detail]) {
  const open = element("button", {className: "name", type: "button", textContent: shortened(path, LONG), onclick: () => showFound(path)});
  return element("li", {}, open, ...(detail ? [" ", element("span", {className: "detail", textContent: detail})] : []));
}

function findingBox({name, weight, meaning, count, files: found}) {
  const all = element("ul"), rest = count - found.length;
  const head = element("summary", {}, weightOf(weight), " " + name + " ", element("span", {className: "detail", textContent: counted(count, "file")}));
  const box = element("details", {}, head, element("p", {className: "detail", textContent: meaning}), all);
  box.ontoggle = () => {
    if (!box.open || all.children.length) return;
    all.append(...found.map(foundFile));
    if (rest) all.append(element("li", {textContent: "and " + numbered(rest) + " more: facl audit --list " + name}));
  };
  return box;
}

// What is found of a file, with the line of a script that mends it, or a comment that says what to decide.
function findingsOf(file) {
  const found = findingsByPath.get(pathOf(file, Infinity)) ?? [];
  if (!found.length) return [];
  const rows = found.map(([{name, weight, meaning}, detail, edit]) => element("li", {}, weightOf(weight), " " + name + ": " + meaning + (detail ? " (" + detail + ")" : ""),
    ...(edit ? [element("br"), element("span", {className: "reason", textContent: edit.startsWith("#") ? edit.slice(2) : "for facl plan: " + edit})] : [])));
  return [element("h3", {textContent: "Findings"}), element("ul", {className: "found"}, ...rows)];
}

function fillFindings() {
  for (const kind of data.findings)
    for (const [path, detail, edit] of kind.files) {
      if (!findingsByPath.has(path)) findingsByPath.set(path, []);
      findingsByPath.get(path).push([kind, detail, edit]);
    }
  const head = element("h2", {textContent: data.findings.length ? counted(data.findings.length, "finding") : "No findings"});
  attributes(findings, {"aria-label": "Findings"}).append(head, ...data.findings.map(findingBox));
  document.body.classList.add("audited");
}
