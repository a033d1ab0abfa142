
// The sheet: the place looked at, its leaf and the crossing lit, folded branches covered.

const [field, sheet, lights, covers, status] = ["field", "sheet", "lights", "covers", "status"].map(element);

const HINT = "Point at the sheet, click it, or use the arrow keys there.";

/** The branches that are folded, by their nodes. */
const folded = new Set();

/** The place of the cursor: at first the sheet's first place inside its margin. */
let [line, column] = data.nodes[0].area ?? [0, 0];

/** Puts an element over an area of the sheet. */
function put(it, [top, left, lines, columns]) {
  it.style.top = `${(100 * top) / data.lines}%`;
  it.style.left = `${(100 * left) / data.columns}%`;
  it.style.height = `${(100 * lines) / data.lines}%`;
  it.style.width = `${(100 * columns) / data.columns}%`;
  return it;
}

/** The crossings of a leaf, with what to say of each. */
function crossings(node) {
  const { above, beside } = data.nodes[node];
  return [
    ...(above ? [[...above, "its right side, at", "is under"]] : []),
    ...(beside ? [[...beside, "its lower side, at", "is right of"]] : []),
  ];
}

/** Lights a node's area and the leaves at its crossings, none where there is no node. */
function light(node) {
  lights.querySelectorAll(".hit, .above").forEach((it) => it.remove());
  if (node === undefined) return;
  const lit = [[node, "hit"], ...crossings(node).map((crossing) => [crossing[2], "above"])];
  for (const [it, className] of lit) {
    const { area } = data.nodes[it];
    if (area) lights.append(put(made("div", "", className), area));
  }
}

/** Shows some lines, the first as the heading of the others. A screen reader reads them out, unless they only come from a pointer that passes. */
function say(lines, isQuiet = false) {
  status.replaceChildren(...lines.map((words, at) => made("div", words, at ? "" : "first")));
  if (!isQuiet) element("said").textContent = lines.join(". ");
}

/** What is known of a node. */
function about(node) {
  const { natural, allotted, flags, pair, area } = data.nodes[node];
  const size = `${allotted[0]} wide, ${allotted[1]} high; needs ${natural[0]} by ${natural[1]}`;
  const lines = [`node ${node}: ${label(node)}`, area ? size : `${size}; has no place in the sheet`];
  if (!flags) return lines;
  lines[1] += `; flags: ${flags.join(" ") || "none"}; cut: ${pair[0]} taken, ${pair[1]} left of the next`;
  for (const [top, left, other, side, where] of crossings(node))
    lines.push(`${side} line ${top}, column ${left}, ${where} node ${other}: ${label(other)}`);
  return lines;
}

/** Shows a place: lights its leaf, and says what is known. */
function look(top, left, isQuiet) {
  const found = find(top, left);
  const place = `line ${top}, column ${left}`;
  light(found.node);
  select(found.node, isQuiet);
  if (found.refused) return say([place, `${found.refused}: ${data.refusals[found.refused]}`], isQuiet);
  say([`${place}: line ${found.line}, column ${found.column} of its block`, ...about(found.node)], isQuiet);
}

/** Looks where the cursor is, or nowhere as long as there is none. */
function lookBack() {
  if (element("cursor")) return look(line, column, true);
  light();
  select();
  say([HINT], true);
}

/** Moves the cursor to a place of the sheet and looks there. */
function go(top, left) {
  line = Math.max(0, Math.min(data.lines - 1, top));
  column = Math.max(0, Math.min(data.columns - 1, left));
  const cursor = element("cursor") ?? covers.appendChild(made("div"));
  cursor.id = "cursor";
  put(cursor, [line, column, 1, 1]).scrollIntoView({ block: "nearest", inline: "nearest" });
  look(line, column);
}

/** Moves to the first place of a node, and tells whether it has one. */
function goTo(node) {
  const { area } = data.nodes[node];
  if (area) go(area[0], area[1]);
  return area !== null;
}

/** The next leaf that has a place, this many steps on, and none past the ends. */
function goOn(step) {
  const { node } = find(line, column);
  const placed = leaves.filter((leaf) => data.nodes[leaf].area);
  const next = node === undefined ? placed[0] : placed[placed.indexOf(node) + step];
  if (next !== undefined) goTo(next);
}

/** Folds the innermost branch around the cursor's leaf that is not covered yet. */
function foldAround() {
  let branch = find(line, column).node;
  const isCovered = (node) => [...folded].some((it) => isWithin(node, it));
  do branch = data.nodes[branch]?.parent ?? undefined;
  while (branch !== undefined && isCovered(branch));
  if (branch !== undefined) fold(branch);
}

/** Folds a branch or unfolds it, here and in the outline. */
function fold(branch, isFolded = !folded.has(branch)) {
  if (isFolded) folded.add(branch);
  else folded.delete(branch);
  drawFolds();
  say([`${isFolded ? "folded" : "unfolded"}: node ${branch}: ${label(branch)}`]);
}

function unfoldAll() {
  folded.clear();
  drawFolds();
  say(["all unfolded"]);
}

/** Covers the branches that are folded and stand in no other such one. */
function drawFolds() {
  covers.querySelectorAll(".fold").forEach((it) => it.remove());
  const isOuter = (node) => ![...folded].some((it) => it !== node && isWithin(node, it));
  for (const node of [...folded].filter(isOuter)) {
    const { area } = data.nodes[node];
    if (!area) continue;
    const cover = put(made("button", "", "fold"), area);
    cover.type = "button";
    cover.append(made("b", `\u25b8 ${node}: ${label(node)}`));
    cover.setAttribute("aria-label", `unfold node ${node}: ${label(node)}`);
    cover.onclick = () => {
      field.focus();
      fold(node, false);
    };
    covers.append(cover);
  }
  drawOutline();
}

/** The place under the pointer. */
function under(event) {
  const { top, left, width, height } = sheet.getBoundingClientRect();
  const at = (offset, size, count) => Math.max(0, Math.min(count - 1, Math.floor((offset / size) * count)));
  return [at(event.clientY - top, height, data.lines), at(event.clientX - left, width, data.columns)];
}
