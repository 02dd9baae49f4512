"use strict";
// For a room: the list of turns, what will happen next, turns that the trainer picks, cards, and what the signs mean.

// The list of turns. Only the rows that are seen are asked for.
Course.turns = (() => {
  const at = Course.at, MORE = 20, rows = new Map(), narrow = matchMedia("(max-width: 52rem)");
  let waiting = false, ROW = 28;

  async function fill() {
    const run = Course.run;
    if (!run || waiting) return;
    // As the style sheet has it: a sentence has one line, or three where the page is narrow.
    const high = narrow.matches ? 64 : 28;
    if (high !== ROW) {
      ROW = high;
      for (const [number, row] of rows) row.style.top = `${ROW * number}px`;
    }
    at("rows").style.height = `${ROW * (run.known + 1)}px`;
    const all = document.body.classList.contains("printing");
    const first = all ? 0 : Math.max(0, Math.floor(at("turns").scrollTop / ROW) - MORE);
    const end = all ? Math.min(run.known + 1, 400) : Math.min(run.known + 1, first + Math.ceil(at("turns").clientHeight / ROW) + 2 * MORE);
    for (const [number, row] of rows) {
      if (number < first || number >= end) {
        row.remove();
        rows.delete(number);
      }
    }
    const missing = Array.from({ length: end - first }, (_, place) => first + place).filter((number) => !rows.has(number));
    if (missing.length) {
      waiting = true;
      const from = missing[0], count = missing[missing.length - 1] - from + 1;
      const told = await Course.ask(`/turns/${run.run}?from=${from}&count=${count}&language=${Course.language}`).catch(() => null);
      waiting = false;
      if (!told || run !== Course.run) return;
      told.turns.forEach(([kind, sentence], place) => add(from + place, kind, sentence));
      at("rows").replaceChildren(...[...rows].sort(([one], [other]) => one - other).map(([, row]) => row));
    }
    mark(false);
  }

  function add(number, kind, sentence) {
    if (rows.has(number)) return;
    const row = document.createElement("div");
    row.id = `turn-${number}`;
    row.setAttribute("role", "option");
    row.setAttribute("aria-posinset", number + 1);
    row.setAttribute("aria-setsize", Course.run.known + 1);
    row.className = kind;
    row.said = sentence;
    row.style.top = `${ROW * number}px`;
    row.addEventListener("click", () => Course.show(number));
    rows.set(number, row);
  }

  // Marks the turn that is shown, and brings it into sight. What will be asked about is not told before.
  function mark(scroll = true) {
    for (const [number, row] of rows) {
      const selected = String(number === Course.turn);
      const words = at("quiz").checked && number > Course.turn ? Course.say("page", "quiz-row", { number }) : row.said;
      if (row.getAttribute("aria-selected") !== selected) row.setAttribute("aria-selected", selected);
      if (row.title !== words) row.textContent = row.title = words;
    }
    at("turns").setAttribute("aria-activedescendant", `turn-${Course.turn}`);
    if (!scroll) return;
    const top = ROW * Course.turn, list = at("turns");
    if (top < list.scrollTop || top + ROW > list.scrollTop + list.clientHeight) list.scrollTop = top - list.clientHeight / 2;
    fill();
  }

  function reset() {
    for (const row of rows.values()) row.remove();
    rows.clear();
    waiting = false;
    fill();
  }

  at("turns").addEventListener("scroll", fill);
  narrow.addEventListener("change", fill);
  at("turns").addEventListener("keydown", (event) => {
    const by = { ArrowUp: -1, ArrowDown: 1, PageUp: -8, PageDown: 8 }[event.key];
    if (!by) return;
    event.preventDefault();
    event.stopPropagation();
    Course.show(Course.turn + by);
  });
  return { fill, mark, reset };
})();

// "What will happen next?", asked before a turn is shown.
Course.quiz = (() => {
  const at = Course.at;
  let asked = null;

  // The bar stays while turns are asked about, so that the drawing keeps its place.
  function close() {
    asked = null;
    at("quizbar").hidden = !at("quiz").checked;
    at("question").textContent = Course.say("page", "quiz-hint");
    at("guesses").replaceChildren();
  }

  // Whether the turn is asked about now, and so not shown yet.
  function ask(number) {
    const run = Course.run;
    if (!at("quiz").checked || !run || number > run.known) return false;
    if (asked === number) return true;
    asked = number;
    at("question").textContent = Course.say("page", "quiz-ask", { number, box: run.boxes[number - 1], asked: run.asked[number - 1] });
    at("guesses").replaceChildren(...Object.entries(Course.words.kinds).map(([kind, words]) => button(words, () => answer(kind))),
      button(Course.say("page", "quiz-show"), () => answer(null)));
    at("guesses").firstElementChild.focus();
    return true;
  }

  function button(words, action) {
    const one = document.createElement("button");
    one.type = "button";
    one.textContent = words;
    one.addEventListener("click", action);
    return one;
  }

  async function answer(kind) {
    const number = asked;
    await Course.show(number);
    if (Course.turn !== number) return;
    asked = null;
    const sentence = at("sentence").textContent;
    const right = kind === Course.run.kinds[number - 1] ? "quiz-right" : "quiz-wrong";
    at("question").textContent = kind === null ? sentence : Course.say("page", right, { sentence });
    at("guesses").replaceChildren();
    at("forward").focus();
  }

  at("quiz").addEventListener("change", () => {
    close();
    Course.turns.mark();
    Course.redraw();
  });
  return { ask, close, button };
})();

// The trainer picks whose turn is next, and whom it names: the case grows by that turn.
Course.pick = (() => {
  const at = Course.at, before = [];
  let on = false, box = null;

  function arm() {
    at("boxes").classList.toggle("picking", on);
    at("pickbar").hidden = !on;
    if (!on || !Course.run) return;
    const run = Course.run, left = run.known - Course.turn + run.left, words = [];
    if (run.done && run.finished && Course.turn === run.known) words.push(Course.say("page", "pick-over"));
    words.push(left ? Course.say("page", "pick-cut", { turn: Course.turn, left }) : Course.say("page", "pick-end"));
    words.push(box === null ? Course.say("page", "pick-box") : Course.say("page", "pick-asked", { box }));
    at("picked").textContent = words.join(" ");
    const choices = Array.from({ length: run.workers }, (_, b) => Course.quiz.button(Course.say("page", "pick-choice", { box: b }), () => choose(b)));
    const undo = Course.quiz.button(Course.say("page", "pick-undo"), takeBack);
    undo.id = "pick-undo";
    undo.disabled = !before.length;
    at("choices").replaceChildren(...choices, undo);
  }

  async function choose(b) {
    if (box === null) {
      box = b;
      arm();
      at("choices").firstElementChild.focus();
      return;
    }
    const picked = box, turn = Course.turn;
    box = null;
    before.push([at("text").value, turn]);
    at("text").value = grown(turn, picked, b);
    await Course.runCase({ turn: turn + 1, moving: true });
  }

  // The case with its first turns only, and one more.
  function grown(turn, picked, asked) {
    const run = Course.run, line = `turn ${picked} ${asked}\n`;
    let text = at("text").value.replace(/\s*$/, "\n");
    if (run.known - turn + run.left) {
      text = text.split("\n").filter((one) => !/^\s*(turns?|cards|seed)\b/.test(one)).join("\n");
      for (let first = 0, end; first < turn; first = end) {
        for (end = first + 1; end < turn && run.asked[end] === run.asked[first]; end++);
        text += `turns ${run.asked[first]}: ${run.boxes.slice(first, end).join(" ")}\n`;
      }
    }
    return text + line;
  }

  async function takeBack() {
    const [text, turn] = before.pop();
    box = null;
    at("text").value = text;
    await Course.runCase({ turn });
  }

  at("boxes").addEventListener("click", (event) => {
    const one = event.target.closest("[data-box]");
    if (on && one) choose(Number(one.dataset.box));
  });
  return {
    arm,
    toggle() {
      on = !on;
      box = null;
      at("pick").setAttribute("aria-pressed", String(on));
      arm();
      Course.redraw();
    },
  };
})();

// The cards that were dealt, each with the order of its boxes; the one whose round is shown is marked.
Course.hand = (() => {
  const at = Course.at;
  let faces = [], marked = null;

  function deal(run) {
    [faces, marked] = [[], null];
    at("hand-part").hidden = !run.deals.length;
    at("hand").replaceChildren(...run.deals.map(({ turn, card, boxes }, place) => {
      const [item, face, name, order] = ["li", "button", "b", "span"].map((tag) => document.createElement(tag));
      face.type = "button";
      name.textContent = card === null ? Course.say("page", "card-drawn", { round: place + 1 }) : Course.say("page", "card", { card });
      order.textContent = boxes.join(" ");
      face.append(name, order);
      face.setAttribute("aria-current", "false");
      faces.push({ face, first: turn, end: turn + boxes.length });
      face.addEventListener("click", () => Course.show(turn + 1));
      item.append(face);
      return item;
    }));
  }

  function mark() {
    const now = faces.find(({ first, end }) => Course.turn > first && Course.turn <= end)?.face ?? null;
    if (now === marked) return;
    marked?.setAttribute("aria-current", "false");
    now?.setAttribute("aria-current", "true");
    marked = now;
  }
  return { deal, mark };
})();

// What the signs mean: each beside a drawing of it, which the server has drawn with the same shapes.
Course.legend = (signs) => {
  Course.at("legend").replaceChildren(...signs.map(([key, drawing]) => {
    const item = document.createElement("li"), words = document.createElement("span");
    item.innerHTML = drawing;
    item.firstElementChild.setAttribute("aria-hidden", "true");
    words.textContent = Course.say("page", key);
    item.append(words);
    return item;
  }));
};
