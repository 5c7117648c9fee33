(function () {
  "use strict";
  var byId = function (id) { return document.getElementById(id); };
  var all = function (query, from) { return Array.prototype.slice.call((from || document).querySelectorAll(query)); };
  var table = byId("folders"), body = table.tBodies[0], section = byId("reach");
  var heads = all("thead th", table).slice(1);
  var users = heads.map(function (it) { return [it.title || it.textContent, it.dataset.also || ""].join(" ").toLowerCase(); });
  // Folders are open down to this level at first.
  var OPEN = 2;
  // How many users stand beside each other on paper, at most.
  var ON_PAPER = 15;

  // Of each row: its level, the row above it, its path, whether it is open, and whether something is in it.
  var rows = [], above = [];
  all("tr", body).forEach(function (tr, at) {
    var level = Number(tr.dataset.l), name = tr.querySelector("th span").textContent;
    above.length = level;
    var over = at ? above[level - 1] : null;
    var path = level > 1 && at ? rows[over].path + "/" + name : level ? name : "";
    if (over !== null) { rows[over].inner += 1; }
    rows.push({ tr: tr, level: level, over: over, path: path, open: level < OPEN, inner: 0 });
    above[level] = at;
  });
  rows.forEach(function (row) {
    var th = row.tr.querySelector("th");
    if (!row.inner) { th.classList.add("leaf"); return; }
    row.button = document.createElement("button");
    row.button.className = "turn";
    row.button.type = "button";
    row.button.addEventListener("click", function () { row.open = !row.open; draw(); });
    th.insertBefore(row.button, th.firstChild);
  });

  // The other tables and lists: what is hidden with them, where their number is told, and their rows.
  var headsOf = function (box, own) {
    var folded = box.closest("details");
    return own.concat(folded ? [folded.querySelector("summary")] : []);
  };
  var lists = all(".list").map(function (it) {
    return { box: it.parentNode, heads: headsOf(it, [it.querySelector("th")]), items: all("tbody tr", it) };
  }).concat(all(".paths").map(function (it) {
    return { box: it, heads: headsOf(it, []), items: all("li", it) };
  }));
  var cards = all(".card");
  cards.forEach(function (it) {
    it.dataset.all = it.firstChild.textContent;
    it.dataset.words = it.lastChild.textContent;
  });

  // Through which groups and entries the user of a cell reaches something: each row has a number of a text for each column.
  var ways = (table.dataset.ways || "").split("\n");
  function waysOf(td) {
    var told = (td.parentNode.dataset.v || "").split(" ")[td.cellIndex - 1];
    return told ? ways[parseInt(told, 36)] : "";
  }
  body.addEventListener("mouseover", function (event) {
    var td = event.target.closest("td"), told = td && !td.title && waysOf(td);
    if (told) { td.title = "through: " + told; }
  });
  // Where one or two users are left, their cells say so themselves.
  var FEW = 2;
  function drawWays(columns) {
    var isFew = columns > 0 && columns <= FEW && wanted.user;
    table.classList.toggle("has-ways", Boolean(isFew));
    if (!isFew) { return; }
    var at = heads.map(function (it, place) { return it.dataset.gone ? 0 : place + 1; }).filter(Boolean);
    rows.forEach(function (row) {
      at.forEach(function (place) {
        var td = row.tr.cells[place], told = row.shown && !td.querySelector(".way") && waysOf(td);
        if (told) { td.appendChild(document.createElement("span")).className = "way"; td.lastChild.textContent = told; }
      });
    });
  }

  var wanted = { user: "", path: "" };
  var sheet = document.styleSheets[0], rule = -1;

  // Shows the rows whose path is wanted and those above them; without a wanted path those in open folders.
  function drawRows() {
    var path = wanted.path.toLowerCase(), count = 0;
    rows.forEach(function (row) {
      var over = row.over === null ? null : rows[row.over];
      row.shown = path ? row.path.toLowerCase().indexOf(path) >= 0 : !over || over.shown && over.open;
      count += row.shown;
    });
    for (var at = path ? rows.length - 1 : 0; at > 0; at -= 1) {
      if (rows[at].shown) { rows[rows[at].over].shown = true; }
    }
    rows.forEach(function (row) {
      row.tr.hidden = !row.shown;
      if (row.button) {
        row.button.textContent = row.open || path ? "\u25be" : "\u25b8";
        row.button.setAttribute("aria-expanded", String(Boolean(row.open || path)));
        row.button.setAttribute("aria-label", "Unfold " + row.path);
      }
    });
    return count;
  }

  // Shows the columns of the users that are wanted.
  function drawColumns() {
    var user = wanted.user.toLowerCase(), hidden = [];
    users.forEach(function (name, at) {
      heads[at].dataset.gone = user && name.indexOf(user) < 0 ? "1" : "";
      if (heads[at].dataset.gone) { hidden.push("#folders tr>:nth-child(" + (at + 2) + ")"); }
    });
    if (rule >= 0) { sheet.deleteRule(rule); rule = -1; }
    if (hidden.length) { rule = sheet.insertRule(hidden.join() + "{display:none}", sheet.cssRules.length); }
    table.style.setProperty("--n", String(users.length - hidden.length));
    return users.length - hidden.length;
  }

  // Says beside a head how many of how many are shown, if not all are wanted.
  function tell(it, count, of) {
    if (wanted.user || wanted.path) { it.dataset.of = count + " of " + of; } else { delete it.dataset.of; }
  }

  // Shows the rows of the other tables and lists that have what is wanted, and says at their heads how many these are. One that has
  // none is hidden.
  function drawLists() {
    lists.forEach(function (list) {
      var count = 0;
      list.items.forEach(function (it) {
        it.hidden = ["user", "path"].some(function (kind) {
          var cells = all("." + kind.charAt(0), it).concat(it.classList.contains(kind.charAt(0)) ? [it] : []);
          var text = wanted[kind].toLowerCase();
          return text && cells.length && cells.every(function (cell) { return cell.textContent.toLowerCase().indexOf(text) < 0; });
        });
        count += !it.hidden;
      });
      list.count = count;
      list.box.hidden = !count && list.items.length;
      list.heads.forEach(function (it) { tell(it, count, list.items.length); });
    });
    all("section").forEach(function (it) {
      var own = lists.filter(function (list) { return it.contains(list.box); });
      var isEmpty = own.length && own.every(function (list) { return !list.count; });
      if (isEmpty && (wanted.user || wanted.path)) { it.firstChild.dataset.of = "nothing of it"; } else { delete it.firstChild.dataset.of; }
    });
  }

  // The numbers at the head of the page: those of folders and users are of what is wanted, and the others are of all.
  function drawCards(shown, columns) {
    var counts = { folders: [shown, rows.length, "folders"], users: [columns, users.length, "columns of users"] };
    cards.forEach(function (it) {
      var count = wanted.user || wanted.path ? counts[it.dataset.of] : null;
      it.firstChild.textContent = count ? count[0] + " of " + count[1] : it.dataset.all;
      it.lastChild.textContent = count ? count[2] : it.dataset.words;
    });
  }

  function draw() {
    var shown = drawRows(), columns = drawColumns(), isFiltered = wanted.user || wanted.path;
    drawLists();
    drawWays(columns);
    drawCards(shown, columns);
    document.body.classList.toggle("filtered", Boolean(isFiltered));
    byId("count").textContent = isFiltered ? columns + " of " + users.length + " columns, " + shown + " of " + rows.length + " rows" : "";
  }

  // What is wanted stands in the address too, so that it can be handed on.
  function read() {
    var words = new URLSearchParams(location.hash.slice(1));
    ["user", "path"].forEach(function (kind) { wanted[kind] = byId(kind).value = words.get(kind) || ""; });
    draw();
  }
  function keep() {
    var words = new URLSearchParams();
    ["user", "path"].forEach(function (kind) {
      wanted[kind] = byId(kind).value;
      if (wanted[kind]) { words.set(kind, wanted[kind]); }
    });
    try { history.replaceState(null, "", "#" + words); } catch (fault) { /* The address stays as it is. */ }
    draw();
  }
  function turnAll(open) {
    rows.forEach(function (row) { row.open = open || row.level < OPEN; });
    draw();
  }

  // On paper the columns stand below each other, some at once.
  function part(from, columns) {
    var made = document.createElement("table"), take = function (tr, to) {
      var line = to.appendChild(document.createElement("tr"));
      [0].concat(columns).forEach(function (at) { line.appendChild(tr.cells[at].cloneNode(true)); });
    };
    made.className = table.classList.contains("has-ways") ? "part has-ways" : "part";
    made.style.setProperty("--n", String(columns.length));
    take(table.tHead.rows[0], made.createTHead());
    var into = made.createTBody();
    rows.forEach(function (row) { if (row.shown) { take(row.tr, into); } });
    from.appendChild(made);
  }
  function beforePrint() {
    afterPrint();
    var printed = document.createElement("div"), columns = [];
    printed.id = "printed";
    heads.forEach(function (it, at) { if (!it.dataset.gone) { columns.push(at + 1); } });
    var most = Math.ceil(columns.length / Math.ceil(columns.length / ON_PAPER));
    for (var at = 0; at < columns.length; at += most) { part(printed, columns.slice(at, at + most)); }
    section.appendChild(printed);
    section.classList.add("has-parts");
  }
  function afterPrint() {
    var printed = byId("printed");
    if (printed) { printed.remove(); }
    section.classList.remove("has-parts");
  }

  byId("bar").hidden = false;
  byId("user").addEventListener("input", keep);
  byId("path").addEventListener("input", keep);
  byId("unfold").addEventListener("click", function () { turnAll(true); });
  byId("fold").addEventListener("click", function () { turnAll(false); });
  window.addEventListener("hashchange", read);
  window.addEventListener("beforeprint", beforePrint);
  window.addEventListener("afterprint", afterPrint);
  read();
})();
