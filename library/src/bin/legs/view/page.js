
// The page's controls, and its beginning.

const rulers = element("rulers");

/** Shows a key or its question paper: the same places, other texts. */
function show(which) {
  shown = which;
  const { name, sheet: text } = data.sheets[which];
  sheet.textContent = text;
  element("name").textContent = name;
  document.title = `${name}: leg sheet`;
  element("sheets").querySelectorAll("input").forEach((it, at) => (it.checked = at === which));
  drawFolds();
  drawMarked();
  lookBack();
}

/** A choice for each sheet, where there are two. */
function drawSheets() {
  data.sheets.forEach(({ name }, which) => {
    const choice = made("input");
    choice.type = "radio";
    choice.name = "shown";
    choice.onchange = () => show(which);
    const it = made("label");
    it.append(choice, ` ${name}`);
    element("sheets").append(it);
  });
}

/** The place typed into the field beside 'go to'. */
function goTyped(event) {
  event.preventDefault();
  const { said, place, wrong } = markedLine(element("place").value.trim());
  if (wrong) return say([said, wrong]);
  go(...place);
  field.focus();
}

const sheetKeys = {
  ArrowUp: () => go(line - 1, column),
  ArrowDown: () => go(line + 1, column),
  ArrowLeft: () => go(line, column - 1),
  ArrowRight: () => go(line, column + 1),
  Home: (event) => go(event.ctrlKey ? 0 : line, 0),
  End: (event) => go(event.ctrlKey ? data.lines - 1 : line, data.columns - 1),
  PageUp: () => go(line - 10, column),
  PageDown: () => go(line + 10, column),
  n: () => goOn(1),
  p: () => goOn(-1),
  u: () => {
    const { node } = find(line, column);
    const [crossing] = node === undefined ? [] : crossings(node);
    if (crossing) goTo(crossing[2]);
  },
  f: foldAround,
  Escape: unfoldAll,
  Enter: add,
  g: () => element("place").focus(),
  m: () => places.focus(),
  k: () => {
    show((shown + 1) % data.sheets.length);
    element("said").textContent = data.sheets[shown].name;
  },
  r: () => (rulers.checked = !rulers.checked),
};

/** What the browser does with its own keys stays; those on a folded branch are its button's. */
field.addEventListener("keydown", (event) => {
  const key = sheetKeys[event.key];
  const isOwn = event.target === field && !event.altKey && !event.metaKey;
  const isEnd = event.key === "Home" || event.key === "End";
  if (!key || !isOwn || (event.ctrlKey && !isEnd)) return;
  event.preventDefault();
  key(event);
});
// A click goes where it points, and not to the cursor first.
field.addEventListener("focus", () => field.matches(":focus-visible") && go(line, column));
field.addEventListener("mousemove", (event) => look(...under(event), true));
field.addEventListener("mouseleave", lookBack);
field.addEventListener("click", (event) => {
  if (!event.target.closest(".fold")) go(...under(event));
});
field.addEventListener("dblclick", (event) => {
  if (!event.target.closest(".fold")) add();
});

element("go").onsubmit = goTyped;
element("print").onclick = () => print();
places.oninput = drawMarked;
element("add").onclick = add;
element("copy").onclick = copy;
element("clear").onclick = clear;

field.tabIndex = 0;
field.setAttribute("role", "application");
field.setAttribute("aria-roledescription", "leg sheet");
field.setAttribute("aria-label", "Sheet: arrow keys move by places, n and p by cells");
field.setAttribute("aria-describedby", "status");
document.querySelectorAll(".scripted").forEach((it) => (it.hidden = false));
element("sheets").hidden = data.sheets.length < 2;
drawSheets();
show(0);
