"use strict";
(() => {
  const byId = (id) => document.getElementById(id);
  const show = (id, shown) => { byId(id).hidden = !shown; };

  // Shows the run, which the server has at an address.
  const showRun = (address) => {
    byId("run").src = address;
    byId("alone").href = address;
    byId("said").textContent = "Played.";
  };

  // Shows why there is no run.
  const showRefusal = (why) => {
    byId("refusal").textContent = why;
    byId("said").textContent = "There is no run.";
  };

  // Sends the world to the server.
  const play = async () => {
    byId("play").disabled = true;
    byId("said").textContent = "Playing…";
    let address = "";
    try {
      const answer = await fetch("runs", { method: "POST", headers: { "Content-Type": "text/plain" }, body: byId("world").value });
      address = answer.status === 201 ? answer.headers.get("Location") : "";
      if (address) showRun(address);
      else showRefusal(await answer.text());
    } catch {
      showRefusal("The server does not answer: labask serve has been ended, or it refused a world that is too large.");
    }
    show("run", address);
    show("alone", address);
    show("refusal", !address);
    byId("play").disabled = false;
  };

  byId("editor").addEventListener("submit", (event) => {
    event.preventDefault();
    play();
  });
  byId("world").addEventListener("keydown", (event) => {
    if (event.key !== "Enter" || !(event.ctrlKey || event.metaKey)) return;
    event.preventDefault();
    if (!byId("play").disabled) play();
  });
})();
