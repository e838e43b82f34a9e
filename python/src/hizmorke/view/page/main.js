// The page: what is chosen, and which part of it shows that.
import { ask, element, drawn, hasToken, plain, save, Refused } from "./api.js";
import { Picture, unmarked, ACCENT, INK, LINE, MEMBER, QUIET } from "./picture.js";
import { NodePanel } from "./node.js";
import { PacketPanel } from "./packet.js";
import { TablesPanel } from "./tables.js";
import { ServicePanel } from "./service.js";
import { EditPanel } from "./edits.js";
import { suggest } from "./names.js";

const at = (id) => document.getElementById(id);
const CHOICES = { given: "given", service: "service's", none: "none", draw: "draw", hubs: "hubs", best: "best" };

/** What all panels share. */
export class Page {
  constructor() {
    this.network = null;
    this.choice = null;
    this.scheme = null;
    this.failed = [];
    // What was chosen last: what was asked for before isn't wanted any more.
    this.turn = 0;
    this.picture = new Picture(
      at("picture"),
      { node: (node) => this.clickNode(node), edge: (a, b) => this.clickEdge(a, b) },
      (node) => this.nameOf(node),
    );
    this.panels = { node: new NodePanel(this, at("panel-node")), packet: new PacketPanel(this, at("panel-packet")) };
    this.panels.tables = new TablesPanel(this, at("panel-tables"));
    this.tab = "node";
    this.wire();
  }

  async start() {
    await this.attempt(async () => {
      await this.load(false);
      if (this.network.is_service) this.panels.service = new ServicePanel(this, at("panel-service"));
      if (this.network.can_edit && hasToken()) this.panels.edit = new EditPanel(this, at("panel-edit"));
      this.choice = this.network.start;
      this.showTabs();
      this.showChoices();
      this.select("node");
      // Tables may take long; the network is there already.
      document.body.dataset.shown = "yes";
      await this.choose(this.choice);
      document.body.dataset.ready = "yes";
    });
  }

  // The network.

  /** Reads the network from the server, and shows it. */
  async load(keep) {
    this.network = await ask("network", {}, this.telling());
    this.numberOf = this.network.names === null ? null : new Map(this.network.names.map((name, node) => [name, node]));
    const { title, nodes, edges, count, told } = this.network;
    at("title").textContent = title;
    document.title = `${title} – Hizmorke`;
    const facts = [`${plain(nodes)} nodes`, `${plain(edges)} edges`, `change ${plain(count)}`, told];
    at("facts").textContent = facts.filter((fact) => fact).join(" · ");
    await this.showPart([], keep);
  }

  /** Shows the whole network; or, where it is large, what is near to some nodes. */
  async showPart(near, keep = false) {
    const body = { near, by: at("weights").value };
    const part = await ask("part", body, this.telling());
    this.picture.isThick = body.by === "hops";
    this.picture.show(part, keep);
    this.near = near;
    this.showHint();
  }

  /** Has these nodes in the picture. */
  async bring(nodes) {
    if (nodes.some((node) => !this.picture.placeOf.has(node))) await this.showPart(nodes);
    else if (nodes.length) this.picture.bring(nodes[0]);
  }

  nameOf(node) {
    return this.network.names === null ? String(node) : this.network.names[node];
  }

  /** The node of a name, or a number where nodes have none; null where there is no such node. */
  nodeOf(name) {
    if (this.numberOf !== null && this.numberOf.has(name)) return this.numberOf.get(name);
    const number = /^#?(0|[1-9][0-9]{0,6})$/.exec(name.trim());
    const node = number && (this.network.names === null || name.trim().startsWith("#")) ? Number(number[1]) : null;
    return node !== null && node < this.network.nodes ? node : null;
  }

  async again() {
    await this.attempt(async () => {
      await ask("again");
      await this.reload();
    });
  }

  /** What was changed is read, and what is shown stays where it can. */
  async reload() {
    const near = this.near ?? [];
    await this.load(true);
    if (near.length && !this.network.is_whole) await this.showPart(near, true);
    // Whether there is an edge now is known before the tables are.
    this.panels.edit?.renew();
    await this.choose(this.choice);
  }

  // Landmarks.

  /** The body of a question: under which landmarks. */
  under(more = {}) {
    return { choice: this.choice, ...more };
  }

  async choose(choice) {
    this.choice = choice;
    this.showChoices();
    at("words").textContent = "…";
    const turn = ++this.turn;
    const wanted = () => turn === this.turn;
    await this.attempt(async () => {
      this.picture.mark({ ...unmarked(), failed: this.failed, landmarks: new Set(this.scheme?.landmarks ?? []) });
      const scheme = await ask("scheme", this.under(), { ...this.telling(), wanted });
      if (scheme === null) return;
      this.scheme = scheme;
      const many = scheme.landmarks.length;
      at("words").textContent = `${plain(many)} ${many === 1 ? "landmark" : "landmarks"}: ${scheme.words}`;
      at("words").title = scheme.words.slice(0, 400);
      this.picture.mark({ landmarks: new Set(scheme.landmarks) });
      await this.panels[this.tab].renew?.();
    });
  }

  showChoices() {
    const choices = this.network.choices, range = at("choice");
    range.max = choices.length - 1;
    range.value = choices.indexOf(this.choice);
    range.setAttribute("aria-valuetext", CHOICES[this.choice]);
    at("choices").replaceChildren(
      ...choices.map((choice) =>
        element(
          "button",
          { type: "button", tabindex: -1, class: choice === this.choice ? "on" : "", onclick: () => this.choose(choice) },
          CHOICES[choice],
        ),
      ),
    );
  }

  // Clicks.

  clickNode(node) {
    this.attempt(() => this.panels[this.tab].node?.(node) ?? this.panels.node.node(node));
  }

  clickEdge(a, b) {
    if (this.tab === "edit") return this.panels.edit.edge(a, b);
    this.fail(a, b);
  }

  /** An edge fails, or is mended where it had failed. */
  fail(a, b) {
    const [low, high] = a < b ? [a, b] : [b, a];
    const others = this.failed.filter(([one, other]) => one !== low || other !== high);
    this.failed = others.length < this.failed.length ? others : [...others, [low, high]];
    this.picture.mark({ failed: this.failed });
    if (this.tab !== "packet") this.select("packet");
    this.attempt(() => this.panels.packet.renew());
  }

  // Tabs.

  get names() {
    const all = { node: "Node", packet: "Packet", tables: "Tables", service: "Service", edit: "Edit" };
    return Object.fromEntries(Object.entries(all).filter(([name]) => this.panels[name]));
  }

  showTabs() {
    const names = Object.keys(this.names);
    const step = (event) => {
      const by = { ArrowRight: 1, ArrowLeft: -1 }[event.key];
      if (!by) return;
      event.preventDefault();
      const next = names[(names.indexOf(this.tab) + by + names.length) % names.length];
      this.select(next);
      at(`tab-${next}`).focus();
    };
    at("tabs").replaceChildren(
      ...names.map((name) =>
        element(
          "button",
          { id: `tab-${name}`, type: "button", role: "tab", "aria-controls": `panel-${name}`, onclick: () => this.select(name), onkeydown: step },
          this.names[name],
        ),
      ),
    );
  }

  select(name) {
    if (this.tab !== name) this.panels[this.tab].leave?.();
    this.tab = name;
    for (const each of Object.keys(this.panels)) {
      at(`panel-${each}`).hidden = each !== name;
      const tab = at(`tab-${each}`);
      tab.setAttribute("aria-selected", String(each === name));
      tab.tabIndex = each === name ? 0 : -1;
    }
    this.showHint();
    this.showLegend();
    if (this.scheme) this.attempt(() => this.panels[name].enter?.());
  }

  showHint() {
    if (!this.network) return;
    const shown = this.picture.nodes.length;
    const part = this.network.is_whole ? "" : `${plain(shown)} of ${plain(this.network.nodes)} nodes, near to what is chosen; Find leads to others. `;
    at("hint").textContent = part + (this.panels[this.tab].hint ?? "Click a node to see it, an edge to fail it.");
  }

  showLegend() {
    const line = (attributes) => drawn("line", { x1: 1, y1: 7, x2: 25, y2: 7, ...attributes });
    const dot = (attributes) => drawn("circle", { cx: 13, cy: 7, r: 5, ...attributes });
    const rows = [
      [drawn("rect", { x: 8, y: 2, width: 10, height: 10, fill: INK }), "landmark"],
      ...(this.tab === "packet"
        ? [
            [line({ stroke: ACCENT, "stroke-width": 5 }), "the packet's way"],
            [line({ stroke: INK, "stroke-width": 2, "stroke-dasharray": "5 4" }), "the shortest way"],
            ...(this.failed.length
              ? [
                  [line({ stroke: QUIET, "stroke-width": 1.6, "stroke-dasharray": "2 5" }), "failed"],
                  [dot({ fill: LINE, stroke: QUIET }), "needs new tables"],
                  [dot({ r: 4, fill: "#fff", stroke: LINE }), "cut off"],
                ]
              : []),
          ]
        : this.tab === "node"
          ? [
              [dot({ fill: MEMBER, stroke: ACCENT }), "in its cluster"],
              [dot({ fill: "#fff", stroke: ACCENT, "stroke-width": 2.4 }), "has it in its cluster"],
            ]
          : []),
      [line({ stroke: LINE, "stroke-width": this.picture.isThick ? 3 : 1.2 }), this.picture.isThick ? "thick: a small weight" : "long: a large weight"],
    ];
    at("legend").replaceChildren(
      ...rows.map(([sign, text]) => element("li", {}, drawn("svg", { viewBox: "0 0 26 14", "aria-hidden": "true" }, sign), text)),
    );
  }

  // What is told below.

  tell(text, isBad = false) {
    at("status").textContent = text;
    at("status").classList.toggle("bad", isBad);
  }

  /** Shows how far a long answer is. */
  telling() {
    return {
      progress: (stage, share) => {
        at("progress").hidden = false;
        if (share > 0) at("progress").value = share;
        else at("progress").removeAttribute("value");
        this.tell(`${stage} …`);
      },
    };
  }

  /** Does something that the server may refuse, and tells its words. */
  async attempt(work) {
    try {
      this.tell("");
      await work();
    } catch (error) {
      if (!(error instanceof Refused)) throw error;
      this.tell(error.message, true);
    } finally {
      at("progress").hidden = true;
      if (at("status").textContent.endsWith("…")) this.tell("");
    }
  }

  // Around the picture.

  wire() {
    at("fit").addEventListener("click", () => this.picture.fit());
    at("again").addEventListener("click", () => this.again());
    at("svg").addEventListener("click", () => save(new Blob([this.picture.svg()], { type: "image/svg+xml" }), "network.svg"));
    at("png").addEventListener("click", async () => save(await this.picture.png(), "network.png"));
    at("weights").addEventListener("change", () =>
      this.attempt(async () => {
        await this.showPart(this.near ?? []);
        this.showLegend();
      }),
    );
    at("choice").addEventListener("change", (event) => this.choose(this.network.choices[event.target.value]));
    const find = at("find-name");
    suggest(this, find);
    at("find").addEventListener("submit", (event) => {
      event.preventDefault();
      const node = this.nodeOf(find.value);
      if (node === null) return this.tell(`no node named ${find.value}`, true);
      this.attempt(async () => {
        await this.bring([node]);
        if (this.tab !== "packet" && this.tab !== "edit") this.select("node");
        await this.panels[this.tab].node(node);
      });
    });
    document.addEventListener("keydown", (event) => {
      const isTyping = event.target instanceof HTMLInputElement && event.target.type !== "range";
      if (event.key !== "/" || isTyping || event.ctrlKey || event.metaKey) return;
      event.preventDefault();
      find.focus();
      find.select();
    });
  }
}

const page = new Page();
// A test, or who is curious, looks at it.
window.hizmorke = page;
page.start();
