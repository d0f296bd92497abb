// Steps through the lines. The page is whole without this: here one step is shown at a time, and marked in the drawing.
(() => {
  "use strict";
  const byId = (id) => document.getElementById(id);
  const steps = [...document.querySelectorAll(".step")];
  const [lanes, slider, place] = ["lanes", "slider", "place"].map(byId);
  const [mark, veil] = ["mark", "veil"].map(byId);
  const SIDEWAYS = 60;
  let at = -1;

  // The step that a fragment names; of a line without an entry it is the next one that has any.
  function named(fragment) {
    if (fragment === "#end") return steps.length - 1;
    const line = /^#line-(\d+)$/.exec(fragment);
    if (!line) return -1;
    const found = steps.findIndex((it) => it.dataset.key === "end" || Number(it.dataset.key) >= Number(line[1]));
    return found < 0 ? steps.length - 1 : found;
  }

  // Puts the mark at a part of the drawing, hides what comes behind it, and has the part in sight.
  function point(part) {
    const { top, bottom, left, right } = Object.fromEntries(
      Object.entries(part.dataset).map(([key, value]) => [key, Number(value)]),
    );
    const height = veil.ownerSVGElement.height.baseVal.value;
    mark.setAttribute("y", top - 1);
    mark.setAttribute("height", Math.max(bottom - top, 3));
    veil.setAttribute("y", bottom + 2);
    veil.setAttribute("height", Math.max(height - bottom - 2, 0));
    const head = lanes.firstElementChild.clientHeight;
    const [wide, high] = [lanes.clientWidth, lanes.clientHeight - head];
    if (top < lanes.scrollTop || bottom > lanes.scrollTop + high) lanes.scrollTop = top - high / 2;
    if (left < lanes.scrollLeft || right > lanes.scrollLeft + wide) {
      lanes.scrollLeft = right - left > wide ? left - 30 : (left + right - wide) / 2;
    }
  }

  function show(number, remember) {
    const next = Math.max(0, Math.min(number, steps.length - 1));
    if (next === at) return;
    const parts = (step) => [step, byId("part-" + step.dataset.key)].filter(Boolean);
    if (at >= 0) parts(steps[at]).forEach((it) => it.classList.remove("current"));
    if (at >= 0) steps[at].removeAttribute("aria-current");
    at = next;
    const step = steps[at];
    parts(step).forEach((it) => it.classList.add("current"));
    step.setAttribute("aria-current", "step");
    const line = step.dataset.key === "end" ? "the end" : "line " + step.dataset.key;
    slider.value = at + 1;
    slider.setAttribute("aria-valuetext", line);
    place.value = "step " + (at + 1) + " of " + steps.length + ": " + line;
    // (a button that is disabled would lose the focus)
    const ended = { first: at === 0, back: at === 0, next: at === steps.length - 1, last: at === steps.length - 1 };
    Object.entries(ended).forEach(([id, is]) => byId(id).setAttribute("aria-disabled", is));
    const part = byId("part-" + step.dataset.key);
    if (part) point(part);
    tables.show(at, step, line);
    step.scrollIntoView({ block: "nearest" });
    if (remember) keep("#" + step.id);
  }

  // A browser may refuse to keep many addresses in a short time; the step is shown all the same.
  function keep(fragment) {
    try {
      history.replaceState(null, "", fragment);
    } catch (refused) {}
  }

  const keys = {
    ArrowLeft: () => at - 1,
    ArrowRight: () => at + 1,
    Home: () => 0,
    End: () => steps.length - 1,
  };
  document.addEventListener("keydown", (event) => {
    const region = event.shiftKey && /^Arrow(Left|Right)$/.test(event.key) && event.target.closest("[role=region]");
    if (region) {
      event.preventDefault();
      region.scrollLeft += event.key === "ArrowRight" ? SIDEWAYS : -SIDEWAYS;
    }
    const known = keys[event.key];
    if (!known || event.altKey || event.ctrlKey || event.metaKey || event.shiftKey || event.target === slider) return;
    event.preventDefault();
    show(known(), true);
  });
  [["first", "Home"], ["back", "ArrowLeft"], ["next", "ArrowRight"], ["last", "End"]].forEach(([id, key]) =>
    byId(id).addEventListener("click", () => show(keys[key](), true)),
  );
  slider.addEventListener("input", () => show(slider.valueAsNumber - 1, true));
  lanes.addEventListener("click", (event) => {
    const part = event.target.closest(".part");
    const number = part ? steps.findIndex((it) => "part-" + it.dataset.key === part.id) : -1;
    if (number >= 0) show(number, true);
  });
  window.addEventListener("hashchange", () => {
    const number = named(location.hash);
    if (number >= 0) show(number, false);
  });

  document.documentElement.classList.add("stepping");
  byId("controls").hidden = false;
  show(Math.max(0, named(location.hash)), false);
})();
