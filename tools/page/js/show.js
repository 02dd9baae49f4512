"use strict";
// One turn: its sentence, the boxes, the map and the bounds, all at once when they have come.
{
  const at = Course.at;
  const LEAST_MAP = 250, MAP_PART = 0.3, TALL_MAP = 640, MOST_SCALE = 2.2, NARROW = 860, GAP = 10, SUMMARY = 50, LEAST_LIST = 120;

  // How many boxes stand side by side, so that they are as large as can be. Letters are never smaller than they are drawn: what
  // does not fit then is scrolled.
  Course.fit = () => {
    const wide = at("drawing").clientWidth, narrow = wide < NARROW;
    at("drawing").classList.toggle("narrow", narrow);
    const high = Math.max(300, window.innerHeight - at("drawing").getBoundingClientRect().top - window.scrollY - 6);
    // The map has its part of the width, or less where the boxes would not fit otherwise.
    let room, chosen, scale;
    for (const map of narrow ? [-GAP] : [Math.max(LEAST_MAP, MAP_PART * wide), LEAST_MAP]) {
      room = wide - map - GAP;
      const ways = Course.run.sizes.map(([w, h], place) => ({ across: place + 1, w, h, whole: Math.min(room / w, high / h, MOST_SCALE) }));
      chosen = ways.reduce((best, way) => (way.whole > best.whole ? way : best));
      scale = chosen.whole;
      if (!narrow && scale >= 1) break;
      chosen = ways.filter(({ w }) => w <= room).pop() ?? ways[0];
      scale = Math.min(room / chosen.w, narrow ? MOST_SCALE : 1);
    }
    at("boxes").style.width = `${chosen.w * scale}px`;
    at("mapside").style.height = narrow ? "" : `${Math.max(Math.min(Math.max(chosen.h * scale, TALL_MAP), high), 300)}px`;
    // The list of turns stands below the boxes where there is room for it.
    const below = high - chosen.h * scale - SUMMARY;
    if (!narrow && below >= LEAST_LIST) at("left").append(at("turns-part"));
    else at("below").prepend(at("turns-part"));
    at("turns").style.height = !narrow && below >= LEAST_LIST ? `${below}px` : "";
    const changed = chosen.across !== Course.across;
    Course.across = chosen.across;
    return changed;
  };

  function bar(name, value, most, words) {
    at(`bar-${name}`).max = Math.max(most, 1);
    at(`bar-${name}`).value = value;
    at(`told-${name}`).textContent = words;
  }

  function bars(run, step) {
    const { counts, rounds } = step, r = run.reached, of = (value, most) => Course.say("page", "bar-of", { value, most });
    bar("followed", counts.followed, r, of(counts.followed, r));
    bar("handed", counts.handed * run.cutoff, 3 * r, of(counts.handed * run.cutoff, 3 * r));
    bar("moved", counts.moved, 7 * r + run.workers, of(counts.moved, 7 * r + run.workers));
    const values = { value: rounds, most: run.bound, left: Math.max(run.bound - rounds, 0) };
    const over = run.done && run.finished && step.number === run.known;
    bar("rounds", rounds, run.bound, Course.say("page", over ? "bar-over" : "bar-left", values));
  }

  // Draws the boxes. Parts that are as they were stay, so that a step costs what it changes; `replaced` counts the others.
  const PARTS = /(?=<g class="(?:box|arrows|loads)")/, SVG = "http://www.w3.org/2000/svg";
  let standing = null;

  Course.draw = (svg) => {
    const [head, ...parts] = svg.replace(/<\/svg>$/, "").split(PARTS), drawn = at("boxes").firstElementChild;
    if (!drawn || standing?.head !== head || standing.parts.length !== parts.length) {
      at("boxes").innerHTML = svg;
      Course.replaced = parts.length;
    } else {
      const changed = parts.map((part, place) => [part, place]).filter(([part, place]) => part !== standing.parts[place]);
      const holder = document.createElementNS(SVG, "svg");
      for (const [part, place] of changed) {
        holder.innerHTML = part;
        drawn.children[place].replaceWith(holder.firstElementChild);
      }
      Course.replaced = changed.length;
    }
    standing = { head, parts };
  };

  let asked = 0;
  const ahead = new Map(), idle = window.requestIdleCallback ?? ((work) => setTimeout(work, 50));

  // What the server tells of a turn; the last answers are kept.
  function step(run, number) {
    const path = `/step/${run.run}/${number}?across=${Course.across}&language=${Course.language}`;
    if (!ahead.has(path)) {
      ahead.set(path, Course.ask(path));
      while (ahead.size > 16) ahead.delete(ahead.keys().next().value);
      ahead.get(path).catch(() => ahead.delete(path));
    }
    return ahead.get(path);
  }

  // Draws the state after so many turns. Sentence and drawing change together, or not at all.
  Course.show = async (number, moving = true) => {
    const run = Course.run;
    if (!run) return;
    const wanted = Math.min(Math.max(number, 0), run.known), mine = ++asked;
    let told;
    try {
      told = await step(run, wanted);
    } catch (refused) {
      if (run !== Course.run || mine !== asked) return;
      if (refused.fault.key === "forgotten") return Course.again(wanted);
      return Course.notice(refused.message);
    }
    if (run !== Course.run || mine !== asked) return;
    const came = wanted === Course.turn + 1;
    Course.fresh();
    Course.turn = wanted;
    at("sentence").textContent = told.sentence;
    at("slider").value = wanted;
    at("slider").setAttribute("aria-valuetext", told.sentence);
    at("where").textContent = `${wanted} / ${run.known}`;
    Course.draw(told.boxes);
    Course.drawn = told;
    Course.map.look(told);
    bars(run, told);
    at("end").textContent = wanted === run.known && run.done ? ending(run) : "";
    at("drawing").dataset.turn = wanted;
    Course.turns.mark();
    Course.hand.mark();
    Course.pick.arm();
    if (moving && came) Course.motion.go(told);
    Course.keep();
    // The turns beside it are asked for before anybody wants them.
    if (wanted < run.known) step(run, wanted + 1).catch(() => {});
    idle(() => { if (wanted && run === Course.run && mine === asked) step(run, wanted - 1).catch(() => {}); });
  };

  function ending(run) {
    const words = [];
    if (run.finished) words.push(Course.say("page", "dead", { dead: run.dead, freed: run.freed }));
    if (run.left) words.push(Course.say("page", run.finished ? "behind-end" : "not-drawn", { left: run.left }));
    if (run.fault) words.push(run.fault);
    return words.join(" ");
  }

  Course.redraw = () => {
    if (!Course.run) return;
    if (Course.fit()) return Course.show(Course.turn, false);
    Course.map.fit();
  };
}
