// Makes the tables of the machine behind a step, from what each step changed. Without this those of the end are there.
const tables = (() => {
  "use strict";
  const byId = (id) => document.getElementById(id);
  const box = byId("tables");
  if (!box) return { show() {} };
  const SIGNS = { came: "+ came", changed: "± changed", went: "− went" };
  const [MOST_WAS, LONG_NAME, ABOVE] = [60, 40, 4];

  // The kinds of rows, each with the numbers that its rows have, and those that are there by number.
  let count = 0;
  const kinds = [...box.querySelectorAll(".rows")].map((details) => {
    const [heads, body, size] = ["thead th", "tbody", ".count"].map((it) => [...details.querySelectorAll(it)]);
    count += Number(details.dataset.rows);
    return { details, heads, body: body[0], size: size[0], rows: new Map(), end: count };
  });
  const kindOf = (number) => kinds.find((it) => number < it.end);

  // What each step changes: of each row the cells before and behind it, so that a step can be taken back as well.
  function read(steps) {
    const rows = new Map();
    return steps.map((step) =>
      step.map(([number, given]) => {
        const before = rows.get(number);
        const differs = before && given ? Object.keys(given).map(Number) : [];
        const behind = before && given ? Object.assign([...before], given) : given;
        rows.set(number, behind);
        const word = !before ? "came" : behind ? "changed" : "went";
        return { number, before, behind, differs, word, kind: kindOf(number) };
      }),
    );
  }
  const steps = read(JSON.parse(byId("steps").textContent));
  let at = -1;

  // Elements. All of a script stands in them as text.
  function make(name, kind, ...inner) {
    const it = document.createElement(name);
    if (kind) it.className = kind;
    it.append(...inner);
    return it;
  }
  const partsOf = (cell) => (typeof cell === "string" ? [cell] : cell);
  const textOf = (cell) => partsOf(cell).map((it) => (typeof it === "string" ? it : it[1])).join("");
  function link([number, text]) {
    const it = make("a", "", text);
    it.dataset.row = number;
    return it;
  }
  function was(cell) {
    const text = textOf(cell) || "nothing";
    return make("span", "was", "was " + (text.length > MOST_WAS ? text.slice(0, MOST_WAS - 3) + " .." : text));
  }

  function rowOf(number, cells, used, change) {
    const row = make("tr", change ? change.word : "");
    row.id = "row-" + number;
    row.tabIndex = -1;
    cells.forEach((cell, column) => {
      const differs = change && change.differs.includes(column);
      const it = make(column ? "td" : "th", differs ? "differs" : "");
      if (!column) it.scope = "row";
      if (!column && textOf(cell).length > LONG_NAME) it.className = "long";
      if (!column && change) it.append(make("span", "sign", SIGNS[change.word]), " ");
      it.append(...partsOf(cell).map((part) => (typeof part === "string" ? part : link(part))));
      if (differs) it.append(was(change.before[column]));
      it.hidden = !used[column];
      row.append(it);
    });
    return row;
  }

  // Draws the table of a kind: what is there, and what went in this step. A column with nothing in it takes no room.
  function draw(kind) {
    const changes = new Map(steps[at].filter((it) => it.kind === kind).map((it) => [it.number, it]));
    const rows = new Map(kind.rows);
    changes.forEach((it, number) => it.behind || rows.set(number, it.before));
    const numbers = [...rows.keys()].sort((one, other) => one - other);
    const isUsed = (number, column) =>
      rows.get(number)[column].length || (changes.has(number) && changes.get(number).differs.includes(column));
    const used = kind.heads.map((_, column) => numbers.some((it) => isUsed(it, column)));
    kind.heads.forEach((it, column) => (it.hidden = !used[column]));
    kind.body.replaceChildren(...numbers.map((it) => rowOf(it, rows.get(it), used, changes.get(it))));
    kind.size.textContent = kind.rows.size;
    kind.details.hidden = !numbers.length;
    kind.details.classList.toggle("marked", changes.size > 0);
  }

  // Goes to the rows behind a step, and returns the kinds that have to be drawn.
  function go(to) {
    const touched = new Set(at < 0 ? kinds : steps[at].map((it) => it.kind));
    const put = (change, cells) => {
      touched.add(change.kind);
      if (cells) change.kind.rows.set(change.number, cells);
      else change.kind.rows.delete(change.number);
    };
    for (; at < to; at++) steps[at + 1].forEach((it) => put(it, it.behind));
    for (; at > to; at--) steps[at].forEach((it) => put(it, it.before));
    steps[at].forEach((it) => touched.add(it.kind));
    return touched;
  }

  // Has the first row in sight that is marked, below the head of its table, with the first value that changed in it. It
  // moves nothing but the tables for that.
  function point() {
    const row = box.querySelector("tr.came, tr.changed, tr.went");
    if (!row) return;
    const cell = row.querySelector(".differs") || row.firstElementChild;
    const [outer, inner, name] = [box, cell, row.firstElementChild].map((it) => it.getBoundingClientRect());
    const top = outer.top + row.closest("table").tHead.offsetHeight;
    if (inner.top < top || inner.bottom > outer.bottom) box.scrollTop += inner.top - top - ABOVE;
    const left = cell === row.firstElementChild ? outer.left : outer.left + name.width;
    if (inner.left < left || inner.right > outer.right) box.scrollLeft += inner.left - left - ABOVE;
  }

  function show(to, step, line) {
    const focused = document.activeElement;
    const inside = box.contains(focused);
    go(to).forEach(draw);
    // (whose link was there isn't sent back to the top of the page)
    if (inside && !box.contains(focused)) box.focus({ preventScroll: true });
    const told = Object.keys(SIGNS).map((word) => [steps[at].filter((it) => it.word === word).length, word]);
    const counts = told.filter(([number]) => number).map((it) => it.join(" "));
    byId("behind").textContent = line;
    byId("changed").value = counts.join(", ") || "nothing changed";
    [box, step].forEach((part) => part.querySelectorAll("a[data-row]").forEach(lead));
    point();
  }

  // A link leads to its row where that is there.
  function lead(link) {
    const row = "row-" + link.dataset.row;
    if (byId(row)) link.href = "#" + row;
    else link.removeAttribute("href");
  }

  // To go to a row leaves the address as it is, which names the step.
  document.addEventListener("click", (event) => {
    const link = event.target.closest("a[data-row]");
    const row = link && link.href ? byId("row-" + link.dataset.row) : null;
    if (!row) return;
    event.preventDefault();
    // (among those that changed there may be no such row)
    if (!row.className) box.classList.remove("only");
    byId("marked").checked = box.classList.contains("only");
    row.closest("details").open = true;
    row.scrollIntoView({ block: "nearest" });
    row.focus({ preventScroll: true });
  });
  byId("marked").addEventListener("change", (event) => box.classList.toggle("only", event.target.checked));
  byId("only").hidden = false;
  return { show };
})();

