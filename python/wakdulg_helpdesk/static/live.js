// What is live on the pages. Each page works without it.
"use strict";

function element(name, text) {
    const made = document.createElement(name);
    if (text !== undefined) made.textContent = text;
    return made;
}

// The search answers while somebody types. A late answer to an earlier text is dropped.
function searchWhileTyping(field) {
    const count = document.getElementById("count"), results = document.getElementById("results");
    const enrol = document.getElementById("enrol"), pager = document.getElementById("pager");
    let latest = 0, timer;

    // The links to the page before and to the one after, as far as there are any.
    function lead(found) {
        pager.hidden = !found.former && !found.next;
        for (const name of ["former", "next"]) {
            const link = document.getElementById(name);
            link.hidden = !found[name];
            link.href = found[name];
        }
    }

    function show(found) {
        count.textContent = found.said;
        lead(found);
        results.replaceChildren(...found.users.map(([hex, name, kind]) => {
            const item = element("li"), link = element("a", name);
            link.href = "/users/" + hex;
            item.append(link, " ", element("span", kind));
            return item;
        }));
        if (!enrol) return;
        enrol.hidden = found.total > 0 || !field.value.trim();
        enrol.firstElementChild.href = "/enrol?name=" + encodeURIComponent(field.value.trim());
    }

    async function ask() {
        const number = ++latest;
        const answer = await fetch("/search.json?q=" + encodeURIComponent(field.value));
        if (answer.status === 401) location.reload();
        if (answer.ok && number === latest) show(await answer.json());
    }

    field.addEventListener("input", () => {
        clearTimeout(timer);
        timer = setTimeout(ask, 30);
    });
}

// Arrow keys lead through the users of lists, and on the page of the search from its field into them and back.
function walkByArrows(lists) {
    const field = document.getElementById("q");

    function step(event) {
        const by = {ArrowDown: 1, ArrowUp: -1}[event.key];
        if (!by || event.altKey || event.ctrlKey || event.metaKey || event.shiftKey || event.isComposing) return;
        const links = [...lists.querySelectorAll("a")], at = links.indexOf(document.activeElement);
        const next = at === 0 && by < 0 ? field : links[at + by];
        if (!next) return;
        event.preventDefault();
        next.focus();
    }

    for (const part of [lists, field]) if (part) part.addEventListener("keydown", step);
}

// The table of the cluster and its lists, whenever the server has new ones.
function watchCluster(told) {
    const source = new EventSource(told.dataset.from), body = document.querySelector("#table tbody");
    const lists = document.getElementById("lists"), moment = document.getElementById("moment");

    async function askForLists() {
        const answer = await fetch(lists.dataset.from);
        if (!answer.ok || lists.contains(document.activeElement)) return;
        const page = new DOMParser().parseFromString(await answer.text(), "text/html");
        lists.replaceChildren(...page.body.children);
    }

    source.onmessage = (event) => {
        const table = JSON.parse(event.data);
        body.replaceChildren(...table.rows.map((row) => {
            const line = element("tr"), head = element("th", row[0]);
            head.scope = "row";
            line.append(head, ...row.slice(1).map((cell) => element("td", cell)));
            return line;
        }));
        moment.textContent = table.when;
        // A screen reader is told of changes alone.
        if (told.textContent !== table.said) told.textContent = table.said;
        askForLists();
    };
    source.addEventListener("over", () => { source.close(); location.reload(); });
    window.addEventListener("pagehide", () => source.close());
}

// What the members say of a user, until nothing of it changes by time alone.
function watchStates(part) {
    const settled = document.getElementById("settled"), verdict = document.getElementById("verdict");
    let left = 100;

    async function look() {
        const answer = await fetch(part.dataset.from);
        if (!answer.ok) return;
        const page = new DOMParser().parseFromString(await answer.text(), "text/html");
        part.replaceChildren(...page.body.children);
        again();
    }

    function again() {
        const told = part.querySelector("table").dataset;
        if (settled.textContent !== told.settled) settled.textContent = told.settled;
        if (verdict && verdict.textContent !== told.verdict) {
            verdict.textContent = told.verdict;
            verdict.className = "verdict " + told.word;
        }
        if (told.last === "no" && --left > 0) setTimeout(look, 3000);
    }

    again();
}

// Back brings a page that was asked for again.
function forget(part) {
    window.addEventListener("pagehide", () => part.remove());
}

// How long it takes until the next code of whoever is logged in.
function countDown(part) {
    const until = Number(part.dataset.until);
    const timer = setInterval(() => {
        const left = Math.ceil(until - Date.now() / 1000);
        part.textContent = left > 0 ? part.textContent.replace(/in \d+ s/, "in " + left + " s")
            : "Your last code is used up. The next one is good now.";
        if (left <= 0) clearInterval(timer);
    }, 1000);
}

for (const [id, begin] of [["q", searchWhileTyping], ["results", walkByArrows], ["told", watchCluster],
    ["lists", walkByArrows], ["states", watchStates], ["once", forget], ["wait", countDown]]) {
    const found = document.getElementById(id);
    if (found) begin(found);
}
