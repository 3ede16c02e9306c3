import assert from "node:assert/strict";
import net from "node:net";
import { after, before, test } from "node:test";

import { Silo, SiloEnded, SiloError, SiloTimeout } from "../silo.js";
import { jsonOf, read } from "../values.js";
import { Gateway, TOKEN } from "./gateway.js";

/** @type {Gateway} */
let gateway;
before(async () => { gateway = await Gateway.start(); });
after(() => gateway.end());

test("calls, and what is refused", async () => {
  /** @type {(told: unknown[]) => void} */
  let tell = () => {};
  const told = new Promise((resolve) => { tell = resolve; });
  const silo = await Silo.connect(gateway.socket("red"), { onTold: (grain, outcome) => tell([grain, outcome.code]) });
  const web = silo.client("red/web");
  const counter = web.grain("counter/red:node");
  assert.deepEqual([await counter.call("add", { by: 3 }), await counter.call("add", { by: 4 }), await counter.call("get")], [3, 7, 7]);
  assert.equal(await counter.poke(9), "1");
  assert.ok((await web.status()).activations > 0);
  await assert.rejects(web.grain("counter/blue:a").call("get"), (fault) => fault instanceof SiloError && fault.code === 40);
  await assert.rejects(silo.client("blue/web").grain("counter/blue:a").call("get"), { message: "40: tenant red may not call a grain of tenant blue" });
  const relay = web.grain("relay/red:node");
  await relay.call("join", { grain: "counter/blue:x" });
  await relay.call("send", { method: "get", args: null });
  // what a grain is told comes after the reply to its caller, and nothing waits for it: a connection that is closed before misses it
  assert.deepEqual(await told, ["relay/red:node", 40]);
  await silo.close();
  await assert.rejects(counter.call("get"), (fault) => fault instanceof SiloEnded && !fault.underWay);
});

test("values come back as they were", async () => {
  const silo = await Silo.connect(gateway.socket("red"));
  const sheet = silo.client("red/web").grain("sheet/red:node");
  const values = [null, true, -5, 2 ** 53 - 1, 2n ** 63n - 1n, -(2n ** 63n), "é\u2028😀\n\"", Buffer.from([0, 255]), [[], { a: [1] }], { $hex: 1, b: 2 }, "1234567890123456789"];
  for (const value of values) {
    await sheet.call("put", { name: "k", value });
    assert.deepEqual(await sheet.call("get", { name: "k" }), value);
  }
  await silo.close();
});

test("what can't be asked is not written", async () => {
  const silo = await Silo.connect(gateway.socket("red"));
  const counter = silo.client("red/web").grain("counter/red:node");
  let deep = [];
  for (let level = 0; level < 40; level++) deep = [deep];
  for (const value of [1.5, 2 ** 53, 2n ** 63n, [undefined], deep, "\ud800", new Map(), () => 1, "x".repeat(70_000)]) {
    assert.throws(() => counter.call("get", value), (fault) => fault instanceof RangeError || fault instanceof TypeError);
  }
  for (const name of ["red", "Red/web", "red/web\n", ""]) assert.throws(() => silo.client(name), RangeError);
  assert.throws(() => silo.client("red/web").grain("counter/red:"), RangeError);
  assert.equal(jsonOf(-0), "0");
  assert.deepEqual(read('{"a":"12345678901234567890","b":9007199254740993}'), { a: "12345678901234567890", b: 9007199254740993n });
  await silo.close();
});

test("many at once, by two connections of one caller", async () => {
  const silos = await Promise.all([1, 2].map(() => Silo.connect(gateway.socket("red"))));
  const sums = await Promise.all(silos.flatMap((silo) => Array.from({ length: 300 }, () => silo.client("red/web").grain("counter/red:many").call("add", { by: 1 }))));
  assert.deepEqual(sums.sort((one, other) => one - other), Array.from({ length: 600 }, (_, index) => index + 1));
  await Promise.all(silos.map((silo) => silo.close()));
});

test("timeouts for ever", async () => {
  for (const timeout of [Infinity, 2 ** 31]) {
    const silo = await Silo.connect(gateway.socket("red"), { timeout });
    const asked = silo.client("red/web").status();
    // longer than a timer would wait that is told a number it can't take
    for (const until = Date.now() + 20; Date.now() < until;);
    assert.ok((await asked).clock > 0);
    await silo.close();
  }
});

test("by TCP with a token", async () => {
  const silo = await Silo.connect({ port: gateway.port, tenant: "red", token: TOKEN });
  assert.equal(await silo.client("red/web").grain("counter/red:tcp").call("add", { by: 2 }), 2);
  await silo.close();
  await assert.rejects(Silo.connect({ port: gateway.port, tenant: "red", token: "another" }), (fault) => fault instanceof SiloError && fault.code === 91);
  await assert.rejects(Silo.connect("/nowhere/red.sock"));
});

test("each way in which it can end", async () => {
  const served = net.createServer((socket) => {
    socket.on("error", () => {});
    socket.once("data", (data) => {
      if (String(data).includes("torn")) socket.end('{"from":"red/torn","id"');
      else if (String(data).includes("odd")) socket.write("what\n");
      else if (String(data).includes("other")) socket.write('{"from":"red/nobody","id":1,"ok":1}\n');
    });
  });
  await new Promise((resolve) => served.listen(0, "127.0.0.1", () => resolve(undefined)));
  const port = /** @type {net.AddressInfo} */ (served.address()).port;
  for (const name of ["torn", "odd", "other", "silent"]) {
    const socket = net.connect(port, "127.0.0.1");
    const silo = new Silo(socket, { timeout: 200 });
    const kind = name === "silent" ? SiloTimeout : SiloEnded;
    await assert.rejects(silo.client(`red/${name}`).status(), (fault) => fault instanceof kind, name);
    socket.destroy();
    await silo.over;
  }
  served.close();
});

test("a callback that throws ends nothing", async () => {
  const silo = await Silo.connect(gateway.socket("red"), { onTold: () => { throw new Error("its own"); } });
  const warned = new Promise((resolve) => process.once("warning", (warning) => resolve(warning.message)));
  const relay = silo.client("red/web").grain("relay/red:throws");
  await relay.call("join", { grain: "counter/blue:x" });
  await relay.call("send", { method: "get", args: null });
  assert.equal(await warned, "onTold threw Error: its own");
  assert.ok((await silo.client("red/web").status()).activations > 0);
  await silo.close();
});

test("a gateway that has no room", async () => {
  const full = await Gateway.start("--most-connections", "1");
  const first = await Silo.connect(full.socket("red"));
  await first.client("red/web").status();
  const silo = await Silo.connect(full.socket("red"));
  const isTold = (fault) => fault instanceof SiloEnded && !fault.underWay && fault.message.includes("92: gateway has no free connection");
  await assert.rejects(silo.client("red/web").status(), isTold);
  await assert.rejects(silo.client("red/web").status(), isTold);
  await silo.close();
  await first.close();
  await full.end();
});

test("a gateway that is killed", async () => {
  const other = await Gateway.start();
  const silo = await Silo.connect(other.socket("red"));
  const asked = Array.from({ length: 200 }, () => silo.client("red/web").grain("counter/red:a").call("add", { by: 1 }).catch((fault) => fault));
  await asked[0];
  await other.end("SIGKILL");
  for (const outcome of await Promise.all(asked)) assert.ok(typeof outcome === "number" || outcome instanceof SiloEnded && outcome.underWay);
});
