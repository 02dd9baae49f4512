"use strict";
// The map: laid out by the server, coloured by what a step tells, with zoom and pan.
Course.map = (() => {
  const at = Course.at, LEAST = 0.05, MOST = 6, OVERVIEW = 0.24, TIP = 60, SVG = "http://www.w3.org/2000/svg";
  let drawn = null, view = null, size = [1, 1], looks = {}, whole = true, last = null;
  let paths = new Map(), nodes = new Map();
  // How references and objects look now, the numbers that stand on references, and the rows of a store that is too large.
  let edges = new Map(), fills = new Map(), badges = new Map(), table = null;
  // What looks strong lies above: a group for each, in this order.
  const LAYERS = ["other", "followed", "carried", "front", "now"];
  let layers = {};
  const room = () => [Math.max(at("map").clientWidth, 1), Math.max(at("map").clientHeight, 1)];

  function element(name, values) {
    const one = document.createElementNS(SVG, name);
    for (const [key, value] of Object.entries(values)) one.setAttribute(key, value);
    return one;
  }

  // The window on the map, in its units; `scale` is how many pixels a unit has.
  function apply() {
    if (!drawn) return;
    const box = [view.x, view.y, room()[0] / view.scale, room()[1] / view.scale];
    if (drawn.getAttribute("viewBox") === box.join(" ")) return;
    drawn.setAttribute("viewBox", box.join(" "));
    ["x", "y", "width", "height"].forEach((side, place) => overview.frame.setAttribute(side, box[place]));
    overview.toggleAttribute("hidden", [0, 1].every((axis) => box[axis] < 1 && box[axis] + box[axis + 2] > size[axis] - 1));
  }

  // All objects, small, with a frame round those that the window shows; a click moves the window.
  let overview = null;
  function survey() {
    const words = { role: "group", "aria-label": Course.say("page", "map-whole"), "aria-hidden": "true" };
    overview = element("svg", { class: "overview", viewBox: `0 0 ${size[0]} ${size[1]}`, ...words });
    overview.objects = new Map([...nodes].map(([v, node]) => {
      const one = element("rect", { fill: "#fff", stroke: "#4b5563", "vector-effect": "non-scaling-stroke" }), seen = node.querySelector("rect");
      for (const side of ["x", "y", "width", "height"]) one.setAttribute(side, seen.getAttribute(side));
      return [v, one];
    }));
    overview.frame = element("rect", { class: "frame", "vector-effect": "non-scaling-stroke" });
    overview.append(...overview.objects.values(), overview.frame);
    overview.addEventListener("pointerdown", (event) => {
      event.stopPropagation();
      const edge = overview.getBoundingClientRect();
      whole = false;
      centre((event.clientX - edge.left) / edge.width * size[0], (event.clientY - edge.top) / edge.height * size[1], view.scale);
    });
    overview.toggleAttribute("hidden", true);
    at("map").append(overview);
  }

  function centre(x, y, scale) {
    const [w, h] = room();
    view = { scale, x: x - w / scale / 2, y: y - h / scale / 2 };
    // What fits is in the middle; else no margin is shown that the map does not have.
    for (const [axis, total, shown] of [["x", size[0], w / scale], ["y", size[1], h / scale]])
      view[axis] = total <= shown ? (total - shown) / 2 : Math.min(Math.max(view[axis], -10), total - shown + 10);
    apply();
  }

  const fits = () => Math.min(room()[0] / size[0], room()[1] / size[1]);

  // The whole map if its letters can be read then; else at the letters' own size, where something happens.
  function fit() {
    if (!drawn) return;
    const scale = OVERVIEW * fits();
    Object.assign(overview.style, { width: `${size[0] * scale}px`, height: `${size[1] * scale}px` });
    whole = fits() >= 1;
    centre(size[0] / 2, size[1] / 2, whole ? Math.min(fits(), 1.8) : 1);
    if (!whole) follow();
  }

  function showWhole() {
    if (!drawn) return;
    whole = true;
    centre(size[0] / 2, size[1] / 2, Math.min(fits(), 1.8));
  }

  // On paper the whole map, whatever shape its room has there.
  function paper() {
    if (drawn) drawn.setAttribute("viewBox", `0 0 ${size[0]} ${size[1]}`);
  }

  function zoom(by, x, y) {
    if (!drawn) return;
    whole = false;
    const [w, h] = room(), scale = Math.min(Math.max(view.scale * by, LEAST), MOST);
    // The point of the map below the pointer, or in the middle, stays where it is.
    const px = x ?? w / 2, py = y ?? h / 2;
    centre(view.x + px / view.scale + (w / 2 - px) / scale, view.y + py / view.scale + (h / 2 - py) / scale, scale);
  }

  function pan(dx, dy) {
    if (!drawn) return;
    view.x -= dx / view.scale;
    view.y -= dy / view.scale;
    whole = false;
    apply();
  }

  // Moves the window to the reference that the turn looks at, or to the first one that is carried; to its tip, where it is longer
  // than the window.
  function follow() {
    if (!drawn || whole || !at("map-follow").checked || !last || !last.edges) return;
    const one = last.edges.find(([, look]) => look.startsWith("now")) || last.edges.find(([, look]) => look.startsWith("front"));
    const path = one && paths.get(one[0]);
    if (!path) return;
    let box = path.getBBox();
    const [w, h] = room();
    if (box.width > w / view.scale || box.height > h / view.scale) {
      const tip = path.getPointAtLength(path.getTotalLength());
      box = { x: tip.x - TIP, y: tip.y - TIP, width: 2 * TIP, height: 2 * TIP };
    }
    const inside = (first, length, shown, room) => first >= shown && first + length <= shown + room / view.scale;
    if (!inside(box.x, box.width, view.x, w) || !inside(box.y, box.height, view.y, h)) centre(box.x + box.width / 2, box.y + box.height / 2, view.scale);
    // The overview stands in a corner where the path is not.
    const beyond = (end, shown, room, taken) => (end - shown) * view.scale > room - taken - 12;
    const right = beyond(box.x + box.width, view.x, w, overview.clientWidth), low = beyond(box.y + box.height, view.y, h, overview.clientHeight);
    overview.classList.toggle("left", right && low);
  }

  function paint(path, look) {
    const [ink, thick, dash, tip] = looks[look];
    layers[look.replace(/\d+$/, "")].append(path);
    path.setAttribute("stroke", ink);
    path.setAttribute("stroke-width", thick);
    path.setAttribute("marker-end", `url(#${tip})`);
    if (dash) path.setAttribute("stroke-dasharray", dash);
    else path.removeAttribute("stroke-dasharray");
  }

  function fill(node, colour, owner) {
    node.querySelector("rect").setAttribute("fill", colour);
    node.lastElementChild.textContent = owner;
    overview.objects.get(Number(node.dataset.v)).setAttribute("fill", colour);
  }

  // Whose reference it is, half way along.
  function badge(e, box) {
    const path = paths.get(e), at = path.getPointAtLength(path.getTotalLength() / 2), one = document.createElementNS(SVG, "g");
    one.setAttribute("class", "badge");
    one.dataset.of = e;
    one.setAttribute("transform", `translate(${at.x} ${at.y})`);
    one.innerHTML = `<circle r="11" fill="#fff" stroke="${path.getAttribute("stroke")}" stroke-width="2.5"/>`
      + `<text y="5" font-size="14" text-anchor="middle" font-weight="bold">${box}</text>`;
    return one;
  }

  // What a step tells of objects and references; a store that is too large comes as numbers.
  function look(step) {
    last = step;
    at("map-text").textContent = step.map;
    if (drawn && !document.body.classList.contains("printing")) apply();
    if (step.sums) return sum(step);
    if (!drawn) return;
    edges = change(edges, new Map(step.edges), (e, name) => paint(paths.get(e), name ?? "other"));
    fills = change(fills, new Map(step.nodes.map(([v, ...look]) => [v, look.join("\n")])), (v, look) => fill(nodes.get(v), ...(look ?? "#fff\n").split("\n")));
    const numbered = step.edges.filter(([, name]) => /^(front|now)/.test(name)).map(([e, name]) => [e, name.match(/\d+/)[0]]);
    badges = change(badges, new Map(numbered), (e, box) => {
      drawn.querySelector(`.badge[data-of="${e}"]`)?.remove();
      if (box !== undefined) drawn.append(badge(e, box));
    });
    follow();
  }

  // Does the work where the new values differ from the old ones; the new ones.
  function change(old, now, work) {
    for (const key of old.keys()) if (!now.has(key)) work(key);
    for (const [key, value] of now) if (old.get(key) !== value) work(key, value);
    return now;
  }

  // A store that is too large to be drawn, in numbers.
  function sum(step) {
    if (!table?.isConnected || table.rows.length !== step.sums.length) {
      at("mapbar").hidden = true;
      table = document.createElement("table");
      table.createCaption().textContent = step.title;
      for (const [words] of step.sums) {
        const row = table.insertRow(), name = document.createElement("th");
        name.textContent = words;
        name.scope = "row";
        row.append(name);
        row.insertCell();
      }
      at("map").replaceChildren(table);
    }
    step.sums.forEach(([, count], place) => {
      const cell = table.rows[place].cells[1];
      if (cell.textContent !== String(count)) cell.textContent = count;
    });
  }

  // Asks for the map of a run that can be drawn.
  async function load(run) {
    [drawn, table] = [null, null];
    [edges, fills, badges] = [new Map(), new Map(), new Map()];
    at("mapbar").hidden = !run.drawn;
    if (!run.drawn) return;
    at("map").textContent = Course.say("page", "map-working");
    const [w, h] = room();
    let answer;
    try {
      answer = await Course.ask(`/map/${run.run}?wide=${w}&high=${h}&language=${Course.language}`);
    } catch (refused) {
      if (run === Course.run) at("map").textContent = refused.message;
      return;
    }
    if (run !== Course.run) return;
    looks = answer.looks;
    at("map").innerHTML = answer.svg;
    drawn = at("map").firstElementChild;
    paths = new Map([...drawn.querySelectorAll("path[data-e]")].map((one) => [Number(one.dataset.e), one]));
    nodes = new Map([...drawn.querySelectorAll("g[data-v]")].map((one) => [Number(one.dataset.v), one]));
    const first = drawn.querySelector("g[data-v]");
    layers = Object.fromEntries(LAYERS.map((name) => [name, element("g", { class: name })]));
    for (const group of Object.values(layers)) drawn.insertBefore(group, first);
    layers.other.append(...paths.values());
    size = answer.size;
    survey();
    fit();
    if (last) look(last);
  }

  let grip = null;
  at("map").addEventListener("pointerdown", (event) => {
    grip = [event.clientX, event.clientY];
    at("map").setPointerCapture(event.pointerId);
  });
  at("map").addEventListener("pointermove", (event) => {
    if (!grip) return;
    pan(event.clientX - grip[0], event.clientY - grip[1]);
    grip = [event.clientX, event.clientY];
  });
  for (const name of ["pointerup", "pointercancel"]) at("map").addEventListener(name, () => { grip = null; });
  at("map").addEventListener("wheel", (event) => {
    if (!drawn) return;
    event.preventDefault();
    const edge = at("map").getBoundingClientRect();
    zoom(event.deltaY < 0 ? 1.2 : 1 / 1.2, event.clientX - edge.left, event.clientY - edge.top);
  }, { passive: false });
  at("map").addEventListener("keydown", (event) => {
    const by = { ArrowLeft: [60, 0], ArrowRight: [-60, 0], ArrowUp: [0, 60], ArrowDown: [0, -60] }[event.key];
    if (!by) return;
    event.preventDefault();
    event.stopPropagation();
    pan(...by);
  });
  const forget = () => { last = null; };
  return { load, look, fit, zoom, paper, whole: showWhole, follow, forget, path: (e) => drawn && paths.get(e), scale: () => view && view.scale };
})();
