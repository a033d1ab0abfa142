
// The outline: a line for each node, in the order of their numbers, so that a branch is a line and as many more as are below it.

const outline = element("outline");

/** The depth of each node. A parent comes before its children. */
const levels = [];
for (const { parent } of data.nodes) levels.push(parent === null ? 1 : levels[parent] + 1);

const items = data.nodes.map((node, number) => {
  const item = made("li");
  item.setAttribute("role", "treeitem");
  item.setAttribute("aria-level", levels[number]);
  item.style.paddingLeft = `${levels[number] - 1}em`;
  item.tabIndex = number ? -1 : 0;
  const twist = made("span", "", "twist");
  twist.setAttribute("aria-hidden", "true");
  item.append(made("span", number, "number"), twist, made("span", "", "label"));
  item.addEventListener("click", (event) => {
    if (event.target === twist && node.below) fold(number);
    else focusItem(number);
  });
  return item;
});

/** The node whose line the Tab key leads to. */
let reached = 0;

function reach(node) {
  items[reached].tabIndex = -1;
  items[node].tabIndex = 0;
  reached = node;
}

/** Shows each node's line or hides it under a folded branch. */
function drawOutline() {
  let next = 0;
  items.forEach((item, node) => {
    const { below } = data.nodes[node];
    item.hidden = node < next;
    item.querySelector(".label").textContent = label(node);
    if (!below) return;
    item.setAttribute("aria-expanded", !folded.has(node));
    item.querySelector(".twist").textContent = folded.has(node) ? "\u25b8" : "\u25be";
    if (item.hidden || !folded.has(node)) return;
    next = node + below + 1;
    if (isWithin(reached, node)) reach(node);
  });
}

/** Marks the line of a node, and brings it into sight unless that is only hovered over. */
function select(node, isQuiet) {
  const item = items[node];
  outline.querySelector('[aria-selected="true"]')?.setAttribute("aria-selected", "false");
  item?.setAttribute("aria-selected", "true");
  if (!item || item.hidden || isQuiet) return;
  const over = item.offsetTop - outline.scrollTop;
  const under = over + item.offsetHeight - outline.clientHeight;
  if (over < 0) outline.scrollTop += over;
  else if (under > 0) outline.scrollTop += under;
}

/** Looks at a node: at its first place if it is a leaf that has one, else at the whole branch. */
function choose(node) {
  if (data.nodes[node].flags && goTo(node)) return;
  light(node);
  select(node);
  say(about(node));
}

/** Moves the focus to a node's line, and looks at the node. */
function focusItem(node) {
  if (!items[node]) return;
  reach(node);
  items[node].focus();
  choose(node);
}

/** The nearest line in sight, up or down from a node. */
function visible(node, step) {
  do node += step;
  while (items[node]?.hidden);
  return node;
}

const outlineKeys = {
  ArrowUp: (node) => focusItem(visible(node, -1)),
  ArrowDown: (node) => focusItem(visible(node, 1)),
  Home: () => focusItem(0),
  End: () => focusItem(visible(items.length, -1)),
  ArrowLeft: (node) => {
    if (data.nodes[node].below && !folded.has(node)) fold(node);
    else focusItem(data.nodes[node].parent);
  },
  ArrowRight: (node) => {
    if (folded.has(node)) fold(node);
    else if (data.nodes[node].below) focusItem(node + 1);
  },
  Enter: (node) => goTo(node) && field.focus(),
  " ": choose,
};

outline.addEventListener("keydown", (event) => {
  const key = outlineKeys[event.key];
  const node = items.indexOf(event.target);
  if (!key || node < 0 || event.ctrlKey || event.altKey || event.metaKey) return;
  event.preventDefault();
  key(node);
});
outline.append(...items);
