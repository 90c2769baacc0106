"use strict";
(() => {
  const byId = (id) => document.getElementById(id);
  const bytesOf = (text) => Uint8Array.from(atob(text), (sign) => sign.charCodeAt(0));
  const compiled = WebAssembly.compile(bytesOf(byId("module").textContent));
  const TOOLS = { getfcap: 0, getfmac: 0, setfcap: 1, setfmac: 1 }; // with how many words before their paths
  const WORDS = /"(?:[^"\\]|\\.)*"|\S+/g;
  const state = { text: "", run: null, label: "" };

  // An element with text or elements in it.
  const make = (name, classes, ...inside) => {
    const made = document.createElement(name);
    if (classes) made.className = classes;
    made.append(...inside);
    return made;
  };
  const linesOf = (text) => text.split("\n").slice(0, -1);
  const firstOf = (line) => line.split(" ", 1)[0];
  const afterAt = (tag) => tag.slice(tag.indexOf("@") + 1);

  // Runs the program once: its exit status, and what it writes to standard output, to standard error and to the trail.
  const runProgram = async (words, input) => {
    const { exports } = await WebAssembly.instantiate(await compiled, {});
    const put = (address, bytes) => new Uint8Array(exports.memory.buffer).set(bytes, Number(address));
    put(exports.input_room(BigInt(input.length)), input);
    let start = 0;
    for (const word of ["labsys", ...words].map((each) => new TextEncoder().encode(each))) {
      put(Number(exports.words_room()) + start, word);
      exports.add_word(BigInt(start), BigInt(word.length));
      start += word.length;
    }
    const status = exports.run();
    const signs = (bytes) => Array.from(bytes, (byte) => String.fromCharCode(byte)).join("");
    const written = (number) => signs(new Uint8Array(exports.memory.buffer, Number(exports.output(number)),
      Number(exports.output_length(number))));
    return { status, output: written(0), messages: written(1), trail: written(2) };
  };
  window.runProgram = async (words, input) => runProgram(words, bytesOf(input)); // for tests

  // The calls that the lines of a script ask for, one for each path of a utility.
  const askedIn = (text) => {
    const lines = linesOf(text + "\n").map((line) => line.trim());
    const script = lines.slice(lines.indexOf("script") + 1).filter((line) => line && !line.startsWith("#"));
    return script.flatMap((line) => {
      const [tag, name, ...words] = line.match(WORDS);
      if (!(name in TOOLS)) return [line];
      const before = [tag, name, ...words.slice(0, TOOLS[name])];
      return words.slice(TOOLS[name]).map((path) => [...before, path].join(" "));
    });
  };

  // The calls of a run, each with its reply and its records, and from which to which call each process lives.
  const readRun = ({ output, trail }, asked) => {
    const replies = linesOf(output).filter((line) => firstOf(line).includes("@"));
    const calls = replies.map((reply, at) => ({ reply, tag: firstOf(reply), asks: asked ? asked[at] : "", records: [] }));
    const lanes = new Map();
    const lane = (tag, begin) => lanes.get(tag) ?? lanes.set(tag, { begin, end: Infinity }).get(tag);
    for (const record of linesOf(trail)) {
      const [number, event, tag, other] = record.split(" ");
      if (!/^\d+$/.test(number)) continue;
      if (number > 0) calls[number - 1].records.push(record);
      if (event === "boot") lane(tag, 0);
      if (event === "fork") lane(other, Number(number));
      if (event === "exit" && lanes.has(tag)) lanes.get(tag).end = Number(number);
    }
    calls.forEach((call, at) => lane(call.tag, at));
    return { calls, lanes: [...lanes], ends: linesOf(output).filter((line) => !firstOf(line).includes("@")) };
  };

  // Which replies a label sees, and whether it is crossed: the lines of its view are those of the replies of what it dominates, in order.
  const viewOf = async (label) => {
    const { output } = await runProgram(["view", label], new TextEncoder().encode(state.text));
    const lines = linesOf(output);
    let at = 0;
    return { sees: state.run.calls.map((call) => lines[at] === call.reply && ++at > 0), crossed: lines.includes("crossed") };
  };

  const laneCell = (number, call) => {
    const cell = make("td", "lanes");
    for (const [tag, { begin, end }] of state.run.lanes) {
      const mark = make("i", number > begin && number <= end ? "alive" : "");
      if (tag === call.tag) mark.classList.add("own");
      mark.title = tag;
      cell.append(mark);
    }
    return cell;
  };
  const rowOf = (call, at) => {
    const words = call.reply.split(" ");
    const answer = words[2] === "ok" ? "done" : words.length > 3 ? "denied" : "refused";
    const records = call.records.map((record) => make("p", "", make("code", "", record)));
    const row = make("tr", answer, make("th", "", String(at + 1)), laneCell(at + 1, call), make("td", "tag", call.tag),
      make("td", "asks", make("code", "", call.asks ? call.asks.replace(/^\S+\s+/, "") : words[1])),
      make("td", "reply", make("code", "", words.slice(2).join(" "))), make("td", "records", ...records));
    row.id = `call-${at + 1}`;
    return row;
  };

  // Greys what the chosen label does not see.
  const showView = async () => {
    const view = state.label ? await viewOf(state.label) : null;
    state.run.calls.forEach((_, at) => byId(`call-${at + 1}`).classList.toggle("unseen", view !== null && !view.sees[at]));
    const seen = view ? view.sees.filter(Boolean).length : state.run.calls.length;
    byId("said").value = !view ? `${seen} calls were played.` : `${state.label} sees ${seen} of ${state.run.calls.length} replies` +
      (view.crossed ? ", and is then crossed: from there on it sees nothing." : ", and no call crosses it.");
  };

  const showRun = (played) => {
    const levels = /^levels +(.*)$/m.exec(state.text)?.[1].trim().split(/ +/) ?? [];
    const labels = [...new Set([...state.run.lanes.map(([tag]) => afterAt(tag)), ...levels])];
    byId("label").replaceChildren(make("option", "", ""), ...labels.map((label) => make("option", "", label)));
    byId("label").firstChild.textContent = "all";
    byId("label").firstChild.value = "";
    byId("calls").replaceChildren(...state.run.calls.map(rowOf));
    byId("lanes").textContent = state.run.lanes.map(([tag]) => tag).join(" ");
    byId("ends").textContent = state.run.ends.join("\n");
    byId("trail").textContent = played.trail;
    byId("run").hidden = false;
  };

  const play = async () => {
    byId("play").disabled = true;
    try {
      state.text = byId("world").value;
      state.label = "";
      const isScheduled = /^ *slices /m.test(state.text);
      const played = await runProgram([isScheduled ? "sched" : "play", "trail"], new TextEncoder().encode(state.text));
      state.run = readRun(played, isScheduled ? null : askedIn(state.text));
      showRun(played);
      await showView();
      const refusal = played.status ? state.run.ends.filter((line) => !line.startsWith("end ")).pop() ?? played.messages : "";
      if (refusal) byId("said").value = `The status is ${played.status}: ${refusal}`;
    } catch (fault) {
      byId("said").value = `This browser can't play here: ${fault.message}. It has to know WebAssembly with 64-bit addresses.`;
    }
    byId("play").disabled = false;
  };

  byId("editor").addEventListener("submit", (event) => {
    event.preventDefault();
    play();
  });
  byId("world").addEventListener("keydown", (event) => {
    if (event.key !== "Enter" || !(event.ctrlKey || event.metaKey)) return;
    event.preventDefault();
    if (!byId("play").disabled) play();
  });
  byId("label").addEventListener("change", (event) => {
    state.label = event.target.value;
    showView();
  });
  byId("example").addEventListener("change", (event) => {
    const chosen = byId(`example-${event.target.value}`);
    if (chosen) byId("world").value = JSON.parse(chosen.textContent);
  });
})();
