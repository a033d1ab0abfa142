
// The marker's field: an answer sheet, and the leaf of each of its places, or why that has none.

const [places, answers, copied] = ["places", "answers", "copied"].map(element);

/** The answers to the field's lines, without comments, which # begins: for each what was said, its place, what was found. */
function marked() {
  const lines = places.value.split("\n").map((said) => said.split("#")[0].trim());
  return lines.filter((said) => said).map(markedLine);
}

function markedLine(said) {
  const numbers = said.match(/^(\d+)[\s,]+(\d+)$/);
  if (!numbers) return { said, wrong: "no line and column" };
  const place = numbers.slice(1).map(Number);
  const found = find(...place);
  const wrong = found.refused && `${found.refused}: ${data.refusals[found.refused]}`;
  return { said, place, wrong, ...found };
}

/** A row of the table: the place leads to the sheet. */
function row({ said, place, wrong, node, line: top, column: left }) {
  const it = made("tr", "", wrong ? "wrong" : "");
  const first = made("th");
  first.scope = "row";
  const link = made("button", place ? place.join(" ") : said);
  link.type = "button";
  link.onclick = () => (wrong ? say([link.textContent, wrong]) : go(...place));
  first.append(link);
  it.append(first);
  if (wrong) {
    const cell = made("td", wrong);
    cell.colSpan = 3;
    it.append(cell);
  } else it.append(made("td", node), made("td", `${top} ${left}`), made("td", label(node)));
  return it;
}

/** Lists the answers, and lights the leaves that were found. */
function drawMarked() {
  const list = marked();
  const found = list.filter((answer) => !answer.wrong);
  answers.tBodies[0].replaceChildren(...list.map(row));
  answers.hidden = !list.length;
  copied.hidden = true;
  lights.querySelectorAll(".marked").forEach((it) => it.remove());
  const nodes = new Set(found.map((answer) => answer.node));
  for (const node of nodes) lights.prepend(put(made("div", "", "marked"), data.nodes[node].area));
  const count = list.length === 1 ? "1 place" : `${list.length} places`;
  element("marked").textContent = list.length ? `${count}, ${list.length - found.length} wrong` : "";
}

/** A text in one field of a table: line feeds and backslashes as in typed lists. */
const inField = (text) => text.replaceAll("\\", "\\\\").replaceAll("\n", "\\n");

/** The answers, a line each, their fields separated by tabs: the fields of a place that has none are empty but for the refusal's number. */
function tsv() {
  const lines = marked().map(({ said, place, wrong, refused, node, line: top, column: left }) => {
    const text = wrong ? "" : data.sheets[shown].texts[node];
    const fields = [...(place ?? [said, ""]), node ?? "", top ?? "", left ?? "", text, refused ?? wrong ?? ""];
    return fields.map((it) => inField(String(it)).replaceAll("\t", " ")).join("\t");
  });
  return ["line\tcolumn\tnode\tblock_line\tblock_column\ttext\trefused", ...lines, ""].join("\n");
}

/** Copies the answers; where the browser does not allow it, shows them to be copied by hand. */
async function copy() {
  const text = tsv();
  try {
    await navigator.clipboard.writeText(text);
    element("marked").textContent = "copied";
  } catch {
    copied.value = text;
    copied.hidden = false;
    copied.select();
    element("marked").textContent = "the browser does not allow it: copy the text below";
  }
}

/** Puts the cursor's place behind the others. */
function add() {
  const before = places.value && !places.value.endsWith("\n") ? `${places.value}\n` : places.value;
  places.value = `${before}${line} ${column}\n`;
  drawMarked();
}

function clear() {
  places.value = "";
  drawMarked();
}
