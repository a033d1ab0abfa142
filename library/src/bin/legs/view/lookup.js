// The page looks up what legs wrote into it, by the proved calls. It lays out nothing, and puts texts into the page as text alone.

const data = JSON.parse(document.getElementById("data").textContent);

const element = (id) => document.getElementById(id);

/** For each line of the sheet the leaf of each column, -1 in the margin. */
const owners = data.owners.map((runs) => runs.flatMap(([node, count]) => Array(count).fill(node)));

const leaves = data.nodes.flatMap((node, number) => (node.flags ? [number] : []));

/** Which of the sheets is shown. */
let shown = 0;

/** What `legs place` answers: the leaf of a place and the place inside its block, or the number of the refusal. */
function find(line, column) {
  const node = owners[line]?.[column];
  if (node === undefined) return { refused: 12 };
  if (node < 0) return { refused: 13 };
  const [top, left] = data.nodes[node].area;
  return { node, line: line - top, column: column - left };
}

/** A node's text on one line, or what it is. */
function label(node) {
  const { kind, below, flags } = data.nodes[node];
  if (kind === "cell") return data.sheets[shown].texts[node].replaceAll("\n", " / ") || "(empty cell)";
  return flags ? `(empty ${kind})` : `${kind}, ${below} below`;
}

/** Whether the node is that branch or is in it: a branch is its node and as many as are below. */
function isWithin(node, branch) {
  return branch <= node && node <= branch + data.nodes[branch].below;
}

/** A new element with a text. */
function made(name, text = "", className = "") {
  const it = document.createElement(name);
  it.textContent = text;
  it.className = className;
  return it;
}
