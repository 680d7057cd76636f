// The page without it shows all; with it the routing at one version, arrows to causes, and later parts when they come into view.
(function () {
  var root = document.documentElement, panel = document.getElementById("routing"), now = -1, strips, arrows;
  var SVG = "http://www.w3.org/2000/svg";
  function all(what, inside) { return [].slice.call((inside || document).querySelectorAll(what)); }
  function tables() { return all(".at"); }
  function isAbove(one, other) { return one.length === other.length ? one > other : one.length > other.length; }

  // ---- the version that is shown
  function show(place, version) {
    var found = tables(), text;
    if (!found[place]) return;
    var shown = version || found[place].dataset.v;
    all(".on").forEach(function (it) { it.classList.remove("on"); });
    all('[data-v="' + shown + '"],[data-u="' + shown + '"]').forEach(function (it) { it.classList.add("on"); });
    found[place].classList.add("on");
    text = found[place].querySelector("script");
    if (text) found[place].innerHTML = text.textContent;
    now = place;
  }
  function point(version) {
    var place = 0;
    tables().forEach(function (it, other) { if (!isAbove(it.dataset.v, version)) place = other; });
    show(place, version);
  }
  function pointed(event) {
    var found = event.target.closest("[data-v]"), here = document.getElementById("here");
    if (!found || panel.contains(found)) return;
    point(found.dataset.v);
    if (here && found.dataset.words) here.textContent = found.dataset.words;
  }
  function button(words, label, act) {
    var made = document.createElement("button");
    made.textContent = words;
    made.type = "button";
    made.setAttribute("aria-label", label);
    made.addEventListener("click", act);
    return made;
  }
  function step(by) { show(Math.min(Math.max(now + by, 0), tables().length - 1)); }
  function steps() {
    var made = document.createElement("div");
    made.className = "steps";
    if (tables().length > 1) {
      made.append(button("◀", "the version before", function () { step(-1); }), button("▶", "the next version", function () { step(1); }));
    }
    var fold = button("▴", "show or hide the routing", function () { panel.classList.toggle("folded"); });
    fold.id = "fold";
    made.append(fold);
    panel.querySelector("h2").after(made);
    panel.classList.add("folded");
  }

  // ---- arrows from each refusal that is open to what decided it
  function element(place) {
    var parts = place.split("-"), event = document.getElementById("e" + parts[0]), chips, count;
    if (!event) return null;
    chips = all('[id^="t' + parts[0] + '-"]', event).filter(function (it) {
      count = +(it.dataset.n || 1);
      return +it.id.split("-")[1] <= +parts[1] && +parts[1] < +it.id.split("-")[1] + count;
    });
    return chips[0] || event.querySelector(".record .box") || event.querySelector(".judges .box,summary");
  }
  function placed(it) {
    var frame = it.closest(".judges,.finished,.record"), one = it.getBoundingClientRect(), other = strips.getBoundingClientRect();
    var box = frame ? frame.querySelector(".box").getBoundingClientRect() : one, left = strips.scrollLeft - other.left;
    return { frame: box.left + left, left: one.left + left, width: one.width, height: one.height, right: box.right + left, top: one.top - other.top,
      middle: (one.top + one.bottom) / 2 - other.top };
  }
  function add(name, attributes, words) {
    var made = document.createElementNS(SVG, name);
    Object.keys(attributes).forEach(function (it) { made.setAttribute(it, attributes[it]); });
    if (words) made.textContent = words;
    arrows.append(made);
    return made;
  }
  function ring(it) {
    add("rect", { x: it.left - 2, y: it.top - 2, width: it.width + 4, height: it.height + 4, rx: 4, "class": "ring" });
  }
  function arrow(cause) {
    var from = element(cause.dataset.from), to = element(cause.dataset.to);
    if (!from || !to) return;
    var one = placed(from), other = placed(to), out = Math.max(one.right, other.right) + 28, path, head, lines;
    out = Math.min(out, strips.scrollLeft + strips.clientWidth + 6);
    if (from.id && to.id && from.closest(".event") === to.closest(".event")) {
      path = ["M", one.left + one.width / 2, one.top + one.height + 2, "q", (other.left - one.left) / 2, 12, other.left - one.left, 0];
      head = "M" + (other.left + other.width / 2) + " " + (other.top + other.height + 1) + "l-4 6h8z";
    } else {
      path = ["M", one.right, one.middle, "C", out, one.middle, out, other.middle, other.right + 6, other.middle];
      head = "M" + other.right + " " + other.middle + "l7 -4v8z";
    }
    lines = add("g", { "class": "cause" });
    lines.append(add("path", { d: path.join(" ") }), add("path", { d: head, "class": "head" }));
    [[from, one], [to, other]].forEach(function (it) { if (it[0].id) ring(it[1]); });
    if (cause.dataset.label) words(cause.dataset.label, other);
  }
  // beside what the arrow leads to, or on its left if there is no room
  function words(label, place) {
    var made = add("text", { x: place.right + 10, y: place.middle - 6 }, label), width = made.getBBox().width;
    if (place.right + 14 + width > strips.scrollLeft + strips.clientWidth) {
      made.setAttribute("x", place.frame - width - 6);
    }
  }
  function draw() {
    if (!strips) return;
    arrows.textContent = "";
    all(".event[open] > .more .cause[data-to]", strips).forEach(arrow);
  }

  // ---- parts that are made when they come into view
  function make(later) {
    later.insertAdjacentHTML("beforebegin", later.querySelector("script").textContent);
    later.remove();
  }
  function watch() {
    var parts = all(".later");
    if (!parts.length) return;
    var seen = new IntersectionObserver(function (entries) {
      entries.forEach(function (it) {
        if (it.isIntersecting && it.target.isConnected) { seen.unobserve(it.target); make(it.target); show(now); draw(); }
      });
    }, { rootMargin: "1500px" });
    parts.forEach(function (it) { seen.observe(it); });
    addEventListener("beforeprint", function () { all(".later").forEach(make); });
  }
  function jump() {
    var name = decodeURIComponent(location.hash.slice(1)), number = /^e(\d+)$/.exec(name), found;
    if (!name) return;
    if (number) {
      all(".later").forEach(function (it) {
        if (+it.dataset.first <= +number[1] && +number[1] <= +it.dataset.last) make(it);
      });
    }
    found = document.getElementById(name);
    if (!found) return;
    if (found.tagName.toLowerCase() === "details") found.open = true;
    if (found.dataset.v) point(found.dataset.v);
    found.scrollIntoView({ block: "center" });
    var focused = found.querySelector("summary") || found;
    focused.focus({ preventScroll: true });
  }

  // the routing stands below where there is no room beside: on a narrow page, and beside many lanes
  function fit() {
    var both = document.querySelector(".both");
    if (both) both.classList.toggle("wide", innerWidth <= 1000 || (innerWidth < 2000 && !!both.querySelector(".strips.many")));
  }

  // ---- the start, and again when the picture has grown
  function begin() {
    fit();
    strips = document.querySelector(".strips");
    arrows = document.getElementById("arrows");
    if (strips && !arrows) {
      arrows = document.createElementNS(SVG, "svg");
      arrows.id = "arrows";
      strips.append(arrows);
    }
    if (panel) panel.querySelector("h2") && !panel.querySelector(".steps") && steps();
    draw();
  }
  window.picture = { begin: begin, show: show, point: point, jump: jump, last: function () { show(tables().length - 1); }, draw: draw };
  begin();
  if (!panel) return;
  if (tables().length > 1) root.className = "js";
  var main = document.querySelector("main");
  main.addEventListener("focusin", pointed);
  main.addEventListener("click", pointed);
  main.addEventListener("toggle", draw, true);
  addEventListener("resize", function () { fit(); draw(); });
  addEventListener("hashchange", jump);
  watch();
  show(tables().length - 1);
  jump();
})();
