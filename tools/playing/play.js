// The clicks of tools/play: each asks the server what comes of the script with one event more, and nothing is kept if it refuses.
(function () {
  function get(name) { return document.getElementById(name); }
  var given = JSON.parse(get("given").textContent), isBusy = false, riddle = null, isOwnSnapshot = false;
  var now = { head: given.head, events: given.events, at: given.events.length, layout: "", have: 0, version: 0 };
  document.documentElement.className = "js";

  // ---- asking
  function ask(body, then) {
    if (isBusy) return;
    isBusy = true;
    fetch("/state", { method: "POST", headers: { "Content-Type": "application/json" }, body: JSON.stringify(body) })
      .then(function (reply) {
        return reply.json().then(function (found) {
          isBusy = false;
          get("error").textContent = reply.ok ? "" : found.error;
          if (reply.ok) then(found);
        });
      })
      .catch(function () { isBusy = false; get("error").textContent = "The server does not answer: has it ended?"; });
  }
  function textOf(head, events) {
    return head + ',"events":[' + events.map(function (it) { return "\n" + it; }).join(",") + "\n]}\n";
  }
  // goes to a place in these events; `have` strips of the picture stay right
  function go(head, events, at, have, more) {
    var body = { page: given.page, script: textOf(head, events), at: at, layout: have ? now.layout : "", have: have };
    Object.keys(more || {}).forEach(function (name) { body[name] = more[name]; });
    ask(body, function (found) {
      now = { head: head, events: events, at: at, layout: found.layout, have: at, version: found.version };
      draw(found);
      if (found.judged) judged(found.judged);
    });
  }
  function add(event) {
    if (riddle) endRiddle();
    go(now.head, now.events.slice(0, now.at).concat([event]), now.at + 1, now.at);
  }
  function step(by) {
    var at = Math.min(Math.max(now.at + by, 0), now.events.length);
    if (at !== now.at) go(now.head, now.events, at, Math.min(at, now.at));
  }
  function undo() {
    if (now.at) go(now.head, now.events.slice(0, now.at - 1), now.at - 1, now.at - 1);
  }

  // ---- drawing
  function draw(found) {
    var picture = get("picture"), strips = picture.querySelectorAll(".event"), arrows = get("arrows"), at;
    if (found.first === 0) {
      picture.innerHTML = found.names;
      picture.className = found.many ? "strips many" : "strips";
      picture.style.setProperty("--w", found.width + "px");
    } else {
      for (at = found.first; at < strips.length; at += 1) strips[at].remove();
    }
    picture.insertAdjacentHTML("beforeend", found.strips.join("\n"));
    if (arrows) picture.append(arrows);
    get("tables").innerHTML = found.routing;
    get("text").textContent = found.text;
    get("script").value = textOf(now.head, now.events);
    get("place").textContent = "event " + now.at + " of " + now.events.length;
    get("back").disabled = get("undo").disabled = !now.at;
    get("forward").disabled = now.at === now.events.length;
    if (!isOwnSnapshot) get("snapshot").value = now.version;
    next(found);
    fill();
    window.picture.begin();
    window.picture.point(String(now.version));
    window.picture.last();
    var last = picture.querySelector(".event:last-of-type");
    if (last) last.scrollIntoView({ block: "nearest" });
  }
  function button(words, act, className) {
    var made = document.createElement("button");
    made.type = "button";
    made.textContent = words;
    made.className = className || "";
    made.addEventListener("click", act);
    return made;
  }
  function next(found) {
    var place = get("next"), hadFocus = place.contains(document.activeElement), titles;
    titles = { offer: "Offer to a resolver:", finish: "Finish:", again: "Offer again", refused: "What would be refused" };
    place.textContent = "";
    Object.keys(titles).forEach(function (group) {
      var some = found.next.filter(function (it) { return it.group === group; }), box = place, head;
      if (!some.length) return;
      if (group === "again" || group === "refused") {
        box = document.createElement("details");
        head = document.createElement("summary");
        place.append(box);
      } else {
        head = document.createElement("b");
      }
      head.textContent = titles[group];
      box.append(head);
      some.forEach(function (it) {
        box.append(button(it.words, function () { add(it.event); }, group === "offer" || group === "finish" ? "possible" : ""));
      });
    });
    if (!place.firstChild) place.textContent = "Sequence a batch, or move keys.";
    if (hadFocus && place.querySelector("button.possible")) place.querySelector("button.possible").focus();
    many("sequence", found.proxies, "Sequence it at proxy ", function (number) {
      add('{"sequence":{"proxy":' + number + ',"batch":' + get("batch").value.trim() + "}}");
    });
    many("move", found.resolvers, "to resolver ", function (number) {
      var range = JSON.stringify([get("begin").value, get("end").value]);
      add('{"move":{"range":' + range + ',"resolver":' + number + "}}");
    });
  }
  // a button for each number, or a list to choose from if they are many
  function many(name, count, words, act) {
    var place = get(name), chosen, at;
    if (place.dataset.count === String(count)) return;
    place.dataset.count = count;
    place.textContent = "";
    if (count > 4) {
      chosen = document.createElement("select");
      chosen.setAttribute("aria-label", words.trim());
      for (at = 0; at < count; at += 1) chosen.append(new Option(words + at, at));
      place.append(chosen, button("do it", function () { act(+chosen.value); }));
      return;
    }
    for (at = 0; at < count; at += 1) (function (number) {
      place.append(button(words + number, function () { act(number); }, "possible"));
    })(at);
  }
  function fill() {
    var text = given.batches[get("ready").value][1], key = JSON.stringify(get("key").value).slice(1, -1);
    get("batch").value = text.split("KEY").join(key).split("SNAPSHOT").join(get("snapshot").value);
  }

  // ---- riddles
  function begin(number) {
    ask({ riddle: number }, function (found) {
      var place = get("riddle"), form = document.createElement("div");
      riddle = { number: number, events: found.events };
      place.textContent = "";
      place.hidden = false;
      form.append(Object.assign(document.createElement("p"), { textContent: found.question }));
      found.choices.forEach(function (it, at) {
        var label = document.createElement("label"), chosen = document.createElement("input");
        chosen.type = "radio";
        chosen.name = "choice";
        chosen.value = it[1];
        chosen.checked = !at;
        label.append(chosen, " " + it[0]);
        form.append(label);
      });
      form.append(button("Let the events answer", function () {
        var choice = place.querySelector("input:checked").value;
        go(now.head, riddle.events, riddle.events.length, Math.min(now.at, now.have), { riddle: number, choice: choice });
      }, "possible"), button("Leave the riddle", endRiddle));
      place.append(form);
      go(found.head, found.events, found.at, 0);
    });
  }
  function judged(found) {
    var place = get("riddle"), said = document.createElement("p"), event = get("e" + found.event);
    document.querySelectorAll(".said").forEach(function (it) { it.remove(); });
    said.className = "said";
    said.textContent = (found.right ? "Right: " : "Not so: the events come to: ") + found.words + ". Event " + found.event + " shows why.";
    place.append(said);
    if (event) {
      event.open = true;
      event.querySelector(".more").prepend(said.cloneNode(true));
      event.scrollIntoView({ block: "center" });
      window.picture.draw();
    }
  }
  function endRiddle() {
    riddle = null;
    get("riddle").hidden = true;
  }

  // ---- scripts
  function open(text) {
    if (riddle) endRiddle();
    ask({ open: text }, function (found) { go(found.head, found.events, found.at, 0); });
  }
  function save() {
    var link = document.createElement("a");
    link.href = URL.createObjectURL(new Blob([textOf(now.head, now.events)], { type: "application/json" }));
    link.download = "script.json";
    link.click();
    setTimeout(function () { URL.revokeObjectURL(link.href); }, 1000);
  }
  function fresh() {
    var names = ["proxies", "resolvers", "window", "step"];
    open("{" + names.map(function (it) { return JSON.stringify(it) + ":" + get(it).value; }).join(",") + ',"ask":[],"events":[]}');
  }
  function on(name, what, act) { get(name).addEventListener(what, act); }
  given.batches.forEach(function (it, at) { get("ready").append(new Option(it[0], at)); });
  ["ready", "key", "snapshot"].forEach(function (it) { on(it, "input", fill); });
  on("snapshot", "input", function () { isOwnSnapshot = get("snapshot").value !== ""; });
  on("back", "click", function () { step(-1); });
  on("forward", "click", function () { step(1); });
  on("undo", "click", undo);
  on("save", "click", save);
  on("new", "click", fresh);
  on("open", "click", function () { open(get("script").value); });
  on("file", "change", function () {
    if (get("file").files[0]) get("file").files[0].text().then(open);
    get("file").value = "";
  });
  [].forEach.call(document.querySelectorAll("button.riddle"), function (it) {
    it.addEventListener("click", function () { begin(+it.dataset.riddle); });
  });
  go(now.head, now.events, now.at, 0);
})();
