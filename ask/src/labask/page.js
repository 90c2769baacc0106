"use strict";
(() => {
  const byId = (id) => document.getElementById(id);
  const page = JSON.parse(byId("run").textContent);
  // One run, or two whose calls stand side by side: then `page.rows` has for each row the numbers of its calls, 0 where there is none.
  const sides = page.sides;
  const word = page.rows ? "row" : "call";
  const total = page.rows ? page.rows.length : sides[0].callers.length;
  const batches = [...document.querySelectorAll(".batch")];
  const state = { label: "", row: 0, only: "" };

  // An element with text or elements in it.
  const make = (name, ...inside) => {
    const made = document.createElement(name);
    made.append(...inside);
    return made;
  };
  const callAt = (row, side) => page.rows ? page.rows[row - 1][sides.indexOf(side)] : row;
  const rowAt = (call, side) => page.rows ? page.rows.findIndex((calls) => calls[sides.indexOf(side)] === call) + 1 : call;
  const named = (side, text) => side.name ? `${side.name}: ${text}` : text;
  const viewOf = (side, label) => Object.hasOwn(side.views, label) ? side.views[label] : null;
  const seesOf = (side, label) => viewOf(side, label).set ??= new Set(viewOf(side, label).sees);
  const tagOf = (side, call) => side.tags[side.callers[call - 1]][0];
  const labelOf = (side, call) => side.tags[side.callers[call - 1]][1];
  const afterAt = (tag) => tag.slice(tag.indexOf("@") + 1);

  // Whether a label sees the reply to a call.
  const seesReply = (side, label, call) => {
    const { crossed } = viewOf(side, label);
    return (!crossed || call < crossed) && seesOf(side, label).has(labelOf(side, call));
  };

  // Greys an element where a condition holds of the label that is chosen, if the side was asked about it.
  const grey = (element, side, unseen) => {
    element.classList.toggle("unseen", Boolean(viewOf(side, state.label)) && unseen(state.label));
  };
  const greyThing = (element, label) => {
    const side = sides[Number(element.closest("[data-side]")?.dataset.side ?? 0)];
    grey(element, side, (chosen) => !seesOf(side, chosen).has(side.labels.indexOf(label)));
  };

  // The cells of a side in a row, or the row itself where it is that of one run.
  const cellsOf = (row, side) => side.cells ? [...row.querySelectorAll(side.cells)] : [row];

  const numberOf = (row) => Number(row.id.slice(word.length + 1));

  // Greys what the chosen label does not see in a row; the cells that two calls share, where it sees neither reply.
  const greyRow = (row) => {
    for (const side of sides) {
      const call = callAt(numberOf(row), side);
      if (call) cellsOf(row, side).forEach((cell) => grey(cell, side, (label) => !seesReply(side, label, call)));
    }
    const own = sides.filter((side) => callAt(numberOf(row), side)).flatMap((side) => cellsOf(row, side));
    const unseen = own.every((cell) => cell.classList.contains("unseen"));
    row.querySelectorAll(".both").forEach((cell) => cell.classList.toggle("unseen", unseen));
  };

  // Greys the replies of a table that the chosen label does not see, and the lanes above it.
  const greyBatch = (batch) => {
    batch.querySelectorAll(`tr[id^="${word}-"]`).forEach(greyRow);
    batch.querySelectorAll(".names span").forEach((name) => greyThing(name, afterAt(name.title)));
  };

  // Makes a table of the text of one that is not there yet.
  const fill = (batch) => {
    if (!batch.classList.contains("later")) return;
    batch.innerHTML = batch.firstChild.textContent;
    batch.classList.remove("later");
    greyBatch(batch);
  };

  // The row with a number.
  const rowOf = (row) => {
    fill(batches[Math.floor((row - 1) / page.together)]);
    return byId(`${word}-${row}`);
  };
  const linkOf = (row) => rowOf(row).querySelector("th a");
  const isRow = (row) => Number.isInteger(row) && row >= 1 && row <= total;
  const isShown = (row) => !state.only || rowOf(row).classList.contains(state.only);
  const replyOf = (row, side) => cellsOf(rowOf(row), side).map((cell) => cell.querySelector(".r")).find(Boolean).textContent;
  const asksOf = (row) => rowOf(row).querySelector(".c").textContent;

  // The sentence about what a label sees of a run.
  const sentence = (side, label) => {
    const view = viewOf(side, label);
    if (!view) return named(side, `${label} was not asked there.`);
    const calls = side.callers.length;
    const seen = `${label} sees ${view.replies} of ${calls} ${calls === 1 ? "reply" : "replies"}. `;
    return named(side, seen + (view.crossed ? `Call ${view.crossed} crosses it: from there on it sees nothing.` : "No call crosses it."));
  };

  // Puts a line before the call that crosses the label.
  const markCrossing = (label) => {
    document.querySelectorAll("tr.crossing").forEach((row) => row.remove());
    for (const side of sides) {
      const crossed = viewOf(side, label)?.crossed;
      if (!crossed) continue;
      const cell = make("td", named(side, `Call ${crossed} crosses ${label}: from here on ${label} sees nothing.`));
      cell.colSpan = page.columns;
      const row = make("tr", cell);
      row.className = "crossing keep";
      rowOf(rowAt(crossed, side)).before(row);
    }
  };

  // Greys what the chosen label does not see: replies, lanes, processes and objects.
  const greyAll = () => {
    batches.filter((batch) => !batch.classList.contains("later")).forEach(greyBatch);
    document.querySelectorAll("tbody[data-tag]").forEach((life) => greyThing(life, afterAt(life.dataset.tag)));
    document.querySelectorAll("#objects tr[data-label], #rights tr[data-label], #never tr[data-label]")
      .forEach((row) => greyThing(row, row.dataset.label));
    document.querySelectorAll("#labels tr[data-label]").forEach((row) => {
      row.classList.toggle("picked", row.dataset.label === state.label);
    });
  };

  // What the check or the error of a reply says.
  const meaning = (side, asks, reply) => {
    const [error, check] = reply.split(" ");
    if (error === "ok") return "";
    if (check) return `Denied by the check ${check}: ${side.checks[check]}.`;
    return `Refused: ${side.errors[asks.split(" ")[0] + " " + error]}.`;
  };

  // What `labask why` says of a call, or why it is not there.
  const whyOf = (side, call, asks, reply) => {
    const lines = side.whys[call];
    if (lines) return lines.map((line) => make("p", line.includes("  ") ? make("code", line) : line));
    return reply.startsWith("ok") && !asks.startsWith("exec ") ? [] : [make("p", side.left)];
  };

  // The label and the sets that the caller has before a call.
  const momentBefore = (side, call) => (side.moments[tagOf(side, call)] || []).filter((moment) => moment[0] < call).pop();
  const callerOf = (moment) => moment
    ? ["label ", make("code", moment[1]), `; permitted ${moment[2] || "none"}; effective ${moment[3] || "none"}; inheritable ` +
      `${moment[4] || "none"}`]
    : ["no such process lives"];

  // The terms of the details of a call.
  const termsOf = (side, row, call) => {
    const reply = replyOf(row, side);
    const items = cellsOf(rowOf(row), side).flatMap((cell) => [...cell.querySelectorAll(".s li[title]")]);
    const records = items.map((item) => make("p", make("code", item.title)));
    const labels = Object.keys(side.views);
    const seers = labels.filter((label) => seesReply(side, label, call));
    const crossing = labels.filter((label) => side.views[label].crossed === call);
    const words = meaning(side, asksOf(row), reply);
    const why = whyOf(side, call, asksOf(row), reply);
    return [
      ["Script", make("code", `${tagOf(side, call)} ${asksOf(row)}`), ` (line ${side.lines[call - 1]})`],
      ["Reply", make("code", reply)],
      ...(words && !side.whys[call] ? [["In words", words]] : []),
      ...(why.length ? [["Why", ...why]] : []),
      ["Caller before it", ...callerOf(momentBefore(side, call))],
      ["Trail", ...(records.length ? records : ["no record"])],
      ["Reply is seen by", seers.join(" · ") || "none of the labels above"],
      ...(crossing.length ? [["Crosses", crossing.join(" · ")]] : []),
    ];
  };

  // The details of a call of a side.
  const detailsOf = (side, row) => {
    const call = callAt(row, side);
    if (!call) return make("div", make("h3", named(side, "no such call")));
    const list = make("dl");
    for (const [term, ...inside] of termsOf(side, row, call)) list.append(make("dt", term), make("dd", ...inside));
    return side.name ? make("div", make("h3", named(side, `call ${call}`)), list) : list;
  };

  // Shows the details of a row's calls below it.
  const showRow = (row) => {
    document.querySelectorAll("tr.detail").forEach((each) => each.remove());
    document.querySelectorAll(".calls tr.picked").forEach((each) => each.classList.remove("picked", "keep"));
    if (!row) return;
    const inside = make("div", ...sides.map((side) => detailsOf(side, row)));
    inside.className = "sides";
    const cell = make("td", inside);
    cell.colSpan = page.columns;
    const below = make("tr", cell);
    below.className = "detail keep";
    rowOf(row).classList.add("picked", "keep");
    rowOf(row).after(below);
  };

  // Says in a few sentences what is chosen.
  const say = () => {
    const parts = state.label ? sides.map((side) => sentence(side, state.label)) : ["No label is chosen: all replies are shown."];
    for (const side of state.row ? sides : []) {
      const call = callAt(state.row, side);
      parts.push(named(side, call ? `Call ${call}: ${replyOf(state.row, side)}.` : "No such call."));
    }
    byId("said").textContent = parts.join(" ");
  };

  // Puts the choice into the address, so that it can be kept and sent.
  const keep = () => {
    const chosen = { label: state.label, [word]: state.row, only: state.only };
    const words = Object.entries(chosen).filter(([, value]) => value).map(([name, value]) => `${name}=${encodeURIComponent(value)}`);
    history.replaceState(null, "", words.length ? "#" + words.join("&") : location.pathname + location.search);
  };

  // Takes a choice: a label, a row, which rows are shown.
  const choose = (change, scroll) => {
    const before = { ...state };
    Object.assign(state, change);
    if (state.label !== before.label) {
      greyAll();
      markCrossing(state.label);
    }
    if (state.row !== before.row) showRow(state.row);
    if (state.only !== before.only) byId("calls").className = state.only ? `only-${state.only}` : "";
    byId("label").value = state.label;
    byId("call").value = state.row || "";
    byId("only").value = state.only;
    if (scroll && state.row) rowOf(state.row).scrollIntoView({ block: "center" });
    say();
    keep();
  };

  // The row that a link leads to: #call-4 or #row-4, and #one-4 or #two-4 to a call of one of two runs.
  const rowNamed = (hash) => {
    const found = /^#(call|row|one|two)-(\d+)$/.exec(hash);
    if (!found) return null;
    const row = ["one", "two"].includes(found[1]) ? rowAt(Number(found[2]), sides[found[1] === "two" ? 1 : 0]) : Number(found[2]);
    return isRow(row) ? row : 0;
  };

  // The choice that an address has: #label=unc&call=4, or #call-4 beside the label that is chosen already.
  const read = () => {
    const row = rowNamed(location.hash);
    if (row !== null) return { row };
    const words = new URLSearchParams(location.hash.slice(1));
    if (!["label", word, "only"].some((name) => location.hash.startsWith(`#${name}=`))) return null;
    const has = (id, value) => [...byId(id).options].some((option) => option.value === value) ? value : "";
    const given = Number(words.get(word));
    return { label: has("label", words.get("label")), row: isRow(given) ? given : 0, only: has("only", words.get("only")) };
  };

  const step = (by) => choose({ row: Math.min(Math.max(state.row + by, 1), total) }, true);
  const nextMarked = () => {
    const row = page.marked.find((each) => each > state.row) ?? page.marked[0];
    if (row) choose({ row }, true);
  };

  // The first row that is shown from a row on, forwards or backwards; 0 where there is none.
  const shownFrom = (row, by) => {
    while (isRow(row) && !isShown(row)) row += by;
    return isRow(row) ? row : 0;
  };
  const MOVES = {
    ArrowUp: (row) => shownFrom(row - 1, -1),
    ArrowDown: (row) => shownFrom(row + 1, 1),
    Home: () => shownFrom(1, 1),
    End: () => shownFrom(total, -1),
  };

  // Picks a row by a key on the link of one, and moves the focus along.
  const move = (event) => {
    const from = event.target.closest(".calls th a")?.closest("tr");
    if (!from || !(event.key in MOVES) || event.ctrlKey || event.altKey || event.metaKey || event.shiftKey) return;
    event.preventDefault();
    const row = MOVES[event.key](numberOf(from));
    if (!row) return;
    choose({ row }, true);
    linkOf(row).focus({ preventScroll: true });
  };

  // Makes the tables that are not there yet: those that come near, all before printing, and one after the other when there is time.
  const near = new IntersectionObserver((entries) => {
    for (const entry of entries) if (entry.isIntersecting) fill(entry.target);
  }, { rootMargin: "1500px" });
  const waiting = batches.filter((batch) => batch.classList.contains("later"));
  waiting.forEach((batch) => near.observe(batch));
  const whenIdle = window.requestIdleCallback ?? ((work) => setTimeout(work, 50));
  const fillNext = () => {
    if (waiting.length === 0) return;
    fill(waiting.shift());
    whenIdle(fillNext);
  };
  addEventListener("beforeprint", () => batches.forEach(fill));

  byId("label").addEventListener("change", (event) => choose({ label: event.target.value }));
  byId("only").addEventListener("change", (event) => choose({ only: event.target.value }));
  byId("call").addEventListener("input", (event) => {
    const row = Number(event.target.value);
    choose({ row: isRow(row) ? row : 0 }, true);
  });
  byId("previous").addEventListener("click", () => step(-1));
  byId("next").addEventListener("click", () => step(1));
  byId("marked").addEventListener("click", nextMarked);
  document.addEventListener("keydown", move);
  document.addEventListener("click", (event) => {
    const link = event.target.closest("a");
    const row = link && rowNamed(link.hash);
    if (!row) return;
    event.preventDefault();
    const inside = link.closest(".calls");
    choose({ row: row === state.row && inside ? 0 : row }, !inside);
  });
  addEventListener("hashchange", () => {
    const change = read();
    if (change) choose(change, true);
  });
  document.querySelector(".controls").hidden = false;
  say();
  if (read()) choose(read(), true);
  whenIdle(fillNext);
})();
