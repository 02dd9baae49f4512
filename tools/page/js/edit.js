"use strict";
// The case as text: running it, its faults, cards and seeds, a layout, a link that holds it, and keeping it over a reload.
{
  const at = Course.at, KEPT = "kullneyra-course", LONGEST_LINK = 30000, LONGEST_CASE = 1 << 20, LINE = 19.5; // as the style sheet has lines

  // Numbers beside the lines; the one with a fault is marked.
  Course.number = (fault = 0) => {
    const lines = at("text").value.split("\n").length, numbers = [];
    for (let line = 1; line <= lines; line++) {
      const one = document.createElement(line === fault ? "mark" : "span");
      one.textContent = line;
      numbers.push(one, "\n");
    }
    at("gutter").replaceChildren(...numbers);
    const top = 4.8 + (fault - 1) * LINE, end = top + LINE;
    at("text").style.backgroundImage = fault ? `linear-gradient(transparent ${top}px, #fecaca ${top}px, #fecaca ${end}px, transparent ${end}px)` : "";
    at("gutter").scrollTop = at("text").scrollTop;
  };

  function complain(fault) {
    at("fault").textContent = fault ? (fault.line ? Course.say("faults", "line", fault) : fault.text) : "";
    at("text").setAttribute("aria-invalid", fault ? "true" : "false");
    Course.number(fault && fault.line ? fault.line : 0);
    if (!fault) return;
    at("writing").open = true;
    Course.notice([at("fault").textContent, ...(Course.run ? [Course.say("faults", "stale")] : [])].join("\n"));
    if (fault.line) at("text").scrollTop = Math.max(0, (fault.line - 4) * LINE);
  }

  let asked = 0;

  // Runs the case. It is shown after `turn` turns, or where the drawing stands.
  Course.runCase = async ({ turn = Course.turn, moving = false, said = "" } = {}) => {
    Course.stop();
    Course.nameSample();
    const mine = ++asked, soon = setTimeout(() => { at("progress").textContent = Course.say("page", "running"); }, 300);
    let answer;
    try {
      answer = await Course.ask("/run", { text: at("text").value, language: Course.language });
    } catch (refused) {
      if (mine === asked) complain(refused.fault);
      return;
    } finally {
      clearTimeout(soon);
      if (mine === asked) at("progress").textContent = "";
    }
    if (mine !== asked) return;
    complain(null);
    Course.run = { ...answer, kinds: [], boxes: [], asked: [], known: 0, done: false };
    await grow(Course.run, turn);
    if (mine !== asked) return;
    Course.turn = moving ? turn - 1 : turn;
    Course.map.forget();
    Course.quiz.close();
    Course.fit();
    Course.hand.deal(Course.run);
    Course.turns.reset();
    const laid = Course.map.load(Course.run);
    await Course.show(turn, moving);
    if (said) Course.notice(said, false);
    await laid;
    watch(Course.run);
  };

  // Takes in the turns that have been made since.
  async function more(run) {
    const told = await Course.ask(`/run/${run.run}?from=${run.known}&language=${Course.language}`);
    run.kinds.push(...told.kinds.map((kind) => told.names[kind]));
    run.boxes.push(...told.boxes);
    run.asked.push(...told.asked);
    const { done, total, finished, dead, freed, left, fault } = told;
    Object.assign(run, { known: run.kinds.length, done, total, finished, dead, freed, left, fault });
    at("slider").max = run.known;
  }

  const wait = (time) => new Promise((done) => setTimeout(done, time));

  // Until the turn is known that is to be shown, or all are.
  async function grow(run, turn) {
    await more(run).catch(() => {});
    for (let pass = 0; !run.done && run.known < turn && pass < 100 && run === Course.run; pass++) {
      at("progress").textContent = Course.say("page", "working", run);
      await wait(100);
      await more(run).catch(() => {});
    }
  }

  async function watch(run) {
    const grows = !run.done;
    while (!run.done && run === Course.run) {
      at("progress").textContent = Course.say("page", "working", run);
      await wait(150);
      try {
        await more(run);
      } catch {
        break;
      }
    }
    if (run !== Course.run) return;
    at("progress").textContent = "";
    at("where").textContent = `${Course.turn} / ${run.known}`;
    Course.turns.fill();
    if (grows && Course.turn === run.known) Course.show(Course.turn, false);
  }

  // The server has forgotten the run: the page still has the case.
  Course.again = (turn) => Course.stored ? undefined : Course.runCase({ turn, said: Course.say("page", "again") });

  // The turns of the case are replaced by one line that deals them.
  function deal(line) {
    const kept = at("text").value.split("\n").filter((one) => !/^\s*(turns?|cards|seed)\b/.test(one));
    while (kept.length && kept[kept.length - 1].trim() === "") kept.pop();
    at("text").value = kept.concat(line, "").join("\n");
    return Course.runCase({ turn: 0 });
  }

  Course.dealCards = () => deal(`cards ${at("cards").value.trim()}`);
  Course.dealSeed = () => deal(`seed ${at("seed-first").value} ${at("seed-second").value} rounds ${at("rounds").value}`);

  // One more card, whichever lies on top of the pack; what it says is dealt by the library.
  Course.drawCard = () => {
    const card = Math.floor(Math.random() * 720), held = at("text").value.match(/^[ \t]*cards[^\n#]*/gm);
    at("cards").value = `${held ? held.map((line) => line.trim().slice(5).trim()).join(" ") : ""} ${card}`.trim();
    return Course.dealCards();
  };

  Course.openLayout = async () => {
    try {
      at("text").value = (await Course.ask("/layout", { text: at("layout").value, language: Course.language })).text;
    } catch (refused) {
      return complain({ ...refused.fault, line: 0 });
    }
    await Course.runCase({ turn: 0 });
  };

  // ---- a link that holds the case, and keeping it over a reload

  const through = async (bytes, stream, most) => {
    const reader = new Blob([bytes]).stream().pipeThrough(stream).getReader(), parts = [];
    for (let length = 0, part; !(part = await reader.read()).done;) {
      parts.push(part.value);
      if ((length += part.value.length) > most) throw new RangeError("too long");
    }
    return new Uint8Array(await new Blob(parts).arrayBuffer());
  };

  Course.makeLink = async () => {
    const held = new TextEncoder().encode(JSON.stringify({ text: at("text").value, turn: Course.turn }));
    const packed = await through(held, new CompressionStream("deflate-raw"), Infinity);
    const code = btoa(String.fromCharCode(...packed.slice(0, LONGEST_LINK))).replace(/\+/g, "-").replace(/\//g, "_").replace(/=+$/, "");
    if (packed.length > LONGEST_LINK) return Course.notice(Course.say("page", "link-long"), false);
    history.replaceState(null, "", `#case=${code}`);
    await navigator.clipboard?.writeText(location.href).catch(() => {});
    at("progress").textContent = Course.say("page", "link-done");
  };

  async function linked() {
    const code = location.hash.match(/^#case=([\w-]+)$/);
    if (!code) return null;
    try {
      const packed = Uint8Array.from(atob(code[1].replace(/-/g, "+").replace(/_/g, "/")), (letter) => letter.charCodeAt(0));
      const { text, turn } = JSON.parse(new TextDecoder().decode(await through(packed, new DecompressionStream("deflate-raw"), LONGEST_CASE)));
      return typeof text === "string" ? { text, turn: Number(turn) || 0 } : null;
    } catch {
      return null;
    }
  }

  // A step does not wait for it: it is kept a little later, and at the latest when the page goes.
  let keeping = null;
  Course.keep = () => { keeping ??= setTimeout(keepNow, 250); };

  function keepNow() {
    if (keeping === null) return;
    clearTimeout(keeping);
    keeping = null;
    try {
      sessionStorage.setItem(KEPT, JSON.stringify({ text: at("text").value, turn: Course.turn, language: Course.language, open: at("writing").open }));
    } catch {
      // A case too large for the browser's store is not kept over a reload.
    }
  }
  window.addEventListener("pagehide", keepNow);

  Course.kept = async () => {
    const held = JSON.parse(sessionStorage.getItem(KEPT) || "null"), link = await linked();
    if (link) history.replaceState(null, "", location.pathname);
    return link ? { ...held, ...link } : held;
  };

  let typing = null;
  at("text").addEventListener("input", () => {
    Course.number();
    if (location.hash) history.replaceState(null, "", location.pathname);
    clearTimeout(typing);
    typing = setTimeout(() => Course.runCase(), 500);
  });
  at("text").addEventListener("scroll", () => { at("gutter").scrollTop = at("text").scrollTop; });
}
