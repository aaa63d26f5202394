/**
 * A client of Regtuma's nodes, for browsers and for Node.js, which needs nothing beside them.
 *
 *     const ledger = new Client(["https://10.0.0.1:7051"]);              // a browser, with its own certificate
 *     const ledger = await fromEnvironment();                            // Node.js: REGTUMA_NODES, _CERT, _KEY, _CA
 *     const ledger = new Client(["http://127.0.0.1:7051"]);              // nodes of `ledger dev`
 *     const { block, place } = await ledger.submit("assets", ["create", "pallet-7", "Maker"]);
 *     const owner = text(await ledger.evaluate("assets", ["read", "pallet-7"]));
 *     for await (const { block, txs } of ledger.blocks({ from: 1 })) console.log(block, txs.map(tx => tx.flag));
 *
 * A call is one transaction, by its nonce, however often nodes are asked for it: where one gives no answer the next one is
 * asked for the same. What fails is told by an exception whose message is a sentence.
 */

/** Flags of a conflict and of a phantom, and the orderer's answers to a batch that has no legal order: these are tried again. */
const CONFLICTS = [2, 3], ABORTED = [441, 442];
/** The status of a node that can do nothing now: another one is asked. */
const UNAVAILABLE = 503;
/** How long to wait before the next node is asked, how long one may take at the least, and a stream be silent, in milliseconds. */
const PAUSE = 200, LEAST = 500, SILENCE = 45_000;
/** The URL of a node on this machine, which asks for no certificate. */
const LOCAL = /^http:\/\/(localhost|127(\.\d{1,3}){3}|\[::1\]):\d+\/?$/;

export const hex = bytes => Array.from(bytes, it => it.toString(16).padStart(2, "0")).join("");
export const bytes = hex => Uint8Array.from(hex.match(/../g) ?? [], it => parseInt(it, 16));
export const text = bytes => new TextDecoder().decode(bytes);
/** Whether the orderer left a call out of a batch: as anybody may put it once more, it is asked for again by its own nonce. */
const isAborted = said => ABORTED.includes(said.refused);
/** Whether a call that is not VALID may be so later, or by another nonce. */
const mayBeTriedAgain = said => CONFLICTS.includes(said.flag) || isAborted(said) || "used_up_by" in said;
/** Whether no other node is to be asked: one has refused, and not for now alone. */
const isFinal = error => error instanceof NotValid && error.status !== UNAVAILABLE;
/** Whether a node has not even been asked. */
const isUnasked = error => ["ECONNREFUSED", "ENOTFOUND"].includes(error.cause?.code ?? error.cause?.cause?.code);
/** Where calls are posted, so that a node answers before the time is up. */
const transactions = until => {
  const left = Math.max(0, until - performance.now()) / 1000;
  return `/transactions?wait=${(left - Math.min(5, left / 4)).toFixed(3)}`;
};
/** Bytes in hex behind their length, which takes so many digits. */
const sized = (hex, digits) => (hex.length / 2).toString(16).padStart(digits, "0") + hex;
/** The id of the transaction that a call would be. */
const idOf = async ({ chaincode, arg, nonce }) => {
  const call = sized(hex(new TextEncoder().encode(chaincode)), 2) + sized(arg, 4) + nonce;
  return hex(new Uint8Array(await crypto.subtle.digest("SHA-256", bytes(call))));
};
const pause = milliseconds => new Promise(resolve => setTimeout(resolve, milliseconds));

/** The call is in no block, or is there and not VALID: `said` has the flag, or the number of a refusal, and why. */
export class NotValid extends Error {
  constructor(status, said) {
    super(said.why ?? `the node answers by status ${status}`);
    Object.assign(this, { name: "NotValid", status, said });
  }
}

/** No node answered, or could do it. Whether a call is in the log is not known. */
export class NoAnswer extends Error {
  constructor(nodes, cause) {
    super(`no node answers, of ${nodes.join(", ")}: ${cause.message}`, { cause });
    this.name = "NoAnswer";
  }
}

/** The time is up, and the call is in no block yet: it may still come into one. `said.id` is its id, for `status`. */
export class Pending extends Error {
  constructor(said) {
    super(`the time is up: ${said.why}`);
    Object.assign(this, { name: "Pending", said });
  }
}

/** A call as the API takes it: `args` are bytes, a text, or texts with spaces between. */
export function callOf(chaincode, args, { organisations, nonce } = {}) {
  const arg = args instanceof Uint8Array ? args : new TextEncoder().encode([args].flat().join(" "));
  return { chaincode, arg: hex(arg), nonce: nonce ?? hex(crypto.getRandomValues(new Uint8Array(16))), organisations };
}

export class Client {
  /** `nodes` are URLs, asked in turn; a request fails after `seconds` without an answer. */
  constructor(nodes, fetch = globalThis.fetch.bind(globalThis), { seconds = 40 } = {}) {
    Object.assign(this, { nodes, fetch, seconds, turn: 0 });
  }

  /**
   * Has a call committed: its id, block, place, flag and result once it is VALID. One that conflicts with another, or whose id another
   * organisation used up, is made anew, `tries` times in all; one that the orderer left out of a batch (441, 442) is asked for again by
   * its own nonce, which `said.nonce` of `NotValid` is. `organisations` are to endorse, in place of those that the policy needs.
   * After the client's `seconds` it ends by `Pending`, where the call is in no block yet.
   */
  async submit(chaincode, args, { organisations, tries = 1, nonce } = {}) {
    const until = performance.now() + 1000 * this.seconds;
    for (let left = tries - 1, isLeftOut = false; ; left--) {
      const call = callOf(chaincode, args, { organisations, nonce }), said = await this.outcome(call, until, isLeftOut);
      isLeftOut = isAborted(said);
      nonce = isLeftOut ? call.nonce : undefined;
      if (said.valid) return said;
      if (said.pending) throw new Pending(said);
      const isLast = left <= 0 || performance.now() > until;
      if (isLast || !mayBeTriedAgain(said)) throw new NotValid(200, { ...said, nonce: call.nonce });
    }
  }

  /**
   * What becomes of a call, whatever that is; `pending` where its time is up. Who asks again for the same waits for it. Where nodes could
   * do nothing up to the end (503), or one refuses behind one that gave no answer, it ends by `NoAnswer`: the call may have been put before,
   * as it may where `mayBePut` says so.
   */
  async outcome(call, until = performance.now() + 1000 * this.seconds, mayBePut = false) {
    for (; ; mayBePut = true) {
      const { said } = await this.#put(call, until, mayBePut);
      if (!said.pending || until - performance.now() < LEAST) return said;
    }
  }

  /**
   * Has several calls committed by one request, each made by `callOf`: the answer to each, in order. With `pending` it has an `id`, for
   * `status`: the call may still come into a block. Where no node answers it ends as `outcome`. The calls must not conflict.
   */
  async submitAll(calls) {
    const until = performance.now() + 1000 * this.seconds, { said, mayBeDone } = await this.#put({ calls }, until, false);
    return Promise.all(said.answers.map((it, at) => this.#told(calls[at], it, until, mayBeDone)));
  }

  /** What a node answers to a call, or to several, and whether one that was asked before may have put it. */
  #put(body, until, mayBePut) {
    const isCertain = error => error instanceof NoAnswer || isFinal(error) && !mayBePut && !error.mayBeDone;
    return this.#asked("POST", transactions(until), body, [], until)
      .catch(error => { throw isCertain(error) ? error : new NoAnswer(this.nodes, error); });
  }

  /** What is told of one of several calls, of which a node has said this: `pending` where it may be in the log, whoever refuses. */
  async #told(call, said, until, mayBeDone) {
    const isOpen = said.pending || said.status === UNAVAILABLE;
    try {
      if (isOpen && performance.now() < until) return await this.outcome(call, until, true);
    } catch (error) {
      if (!(error instanceof NoAnswer)) throw error;
      said = { why: error.message };
    }
    // A refusal has no id.
    const isKnown = "id" in said || !(isOpen || mayBeDone);
    return isKnown ? said : { id: await idOf(call), pending: true, why: said.why };
  }

  /** The bytes of the result of a call that changes nothing, on the state that the node has. */
  async evaluate(chaincode, args) {
    const { arg } = callOf(chaincode, args);
    return bytes((await this.ask("POST", "/evaluate", { chaincode, arg })).result);
  }

  /** A key's bytes, or null. */
  async get(key) {
    const said = await this.ask("GET", `/state/${encodeURIComponent(key)}`, undefined, [404]);
    return "value" in said ? bytes(said.value) : null;
  }

  /** The first entries from a key on and below another one, each with `key`, `value` (both hex) and `version`. */
  async state(start = "", end = "", limit = 64) {
    return (await this.ask("GET", `/state?${new URLSearchParams({ start, end, limit })}`)).entries;
  }

  /** Each write of a VALID transaction to a key. */
  history(key) {
    return this.ask("GET", `/history/${encodeURIComponent(key)}`);
  }

  /** What became of a transaction, for which it waits so many seconds; `pending` where it is in no block. */
  async status(id, wait = 0) {
    for (const until = performance.now() + 1000 * wait; ;) {
      const left = Math.max(0, until - performance.now()) / 1000, part = Math.min(left, this.#patience).toFixed(3);
      const said = await this.ask("GET", `/transactions/${encodeURIComponent(id)}?wait=${part}`, undefined, [404]);
      if (!said.pending || !left) return said;
    }
  }

  /** Whether a node is well: `ok`, and `wrong` and `warnings`, lists of sentences. */
  health() {
    return this.ask("GET", "/healthz", undefined, [UNAVAILABLE]);
  }

  /**
   * Blocks from a number on, by default those that are still to come, for ever. Where a node ends the next one goes on; one that
   * refuses ends it by `NotValid`, and `NoAnswer` does where no node has answered for `seconds`.
   */
  async *blocks({ from } = {}) {
    for (let until = 0; ;) {
      try {
        for await (const line of this.#lines(`/events${from == null ? "" : `?from=${from}`}`)) {
          until = 0;
          if (!line.startsWith("data: ")) continue;
          const block = JSON.parse(line.slice(6));
          from = block.block + 1;
          yield block;
        }
      } catch (failure) {
        const error = failure instanceof NotValid ? failure : new NoAnswer(this.nodes, failure);
        until ||= performance.now() + 1000 * this.seconds;
        if (isFinal(error) || performance.now() > until) throw error;
      }
      this.turn++;
      await pause(PAUSE);
    }
  }

  /** What a node answers. The next one is asked where one gives no answer, or cannot do it now (503). */
  async ask(method, path, body, accept = [], until = performance.now() + 1000 * this.seconds) {
    return (await this.#asked(method, path, body, accept, until)).said;
  }

  /** The same, and whether a node that was asked before may have done it. */
  async #asked(method, path, body, accept, until) {
    for (let mayBeDone = false; ;) {
      let error;
      try {
        const answer = await this.fetch(this.node + path, { method, headers: { "Content-Type": "application/json" },
          body: body && JSON.stringify(body), signal: AbortSignal.timeout(Math.max(LEAST, Math.ceil(until - performance.now()))) });
        const said = await answer.json();
        if (answer.status < 400 || accept.includes(answer.status)) return { said, mayBeDone };
        error = new NotValid(answer.status, said);
      } catch (failure) {
        error = new NoAnswer(this.nodes, failure);
      }
      if (isFinal(error) || performance.now() > until) throw Object.assign(error, { mayBeDone });
      mayBeDone ||= !isUnasked(error);
      this.turn++;
      await pause(PAUSE);
    }
  }

  /** The node whose turn it is. */
  get node() {
    return this.nodes[this.turn % this.nodes.length];
  }

  /** How many seconds a node may wait before it answers: the client does not take it for dead yet. */
  get #patience() {
    return Math.max(1, this.seconds - 5);
  }

  /** The lines of an answer, as they come. One that is silent too long is ended. */
  async *#lines(path) {
    const ending = new AbortController();
    let timer = setTimeout(() => ending.abort(), SILENCE), left = "";
    try {
      const answer = await this.fetch(this.node + path, { signal: ending.signal });
      if (!answer.ok) throw new NotValid(answer.status, await answer.json());
      for await (const piece of answer.body.pipeThrough(new TextDecoderStream())) {
        clearTimeout(timer);
        timer = setTimeout(() => ending.abort(), SILENCE);
        const lines = (left + piece).split("\n");
        left = lines.pop();
        yield* lines;
      }
    } finally {
      clearTimeout(timer);
      ending.abort();
    }
  }
}

/**
 * The client that the environment's REGTUMA_NODES, REGTUMA_CERT, REGTUMA_KEY and REGTUMA_CA name, for Node.js; where all nodes are
 * on this machine, as those of `ledger dev`, whose URLs begin with http, by the first alone. REGTUMA_CA is the organisation's own
 * authority; where other organisations' nodes are named too, it has an authority for each node, with commas between.
 */
export async function fromEnvironment(options) {
  const { readFileSync } = await import("node:fs"), { env } = await import("node:process");
  const own = env.REGTUMA_NODES?.split(",") ?? [];
  if (own.length && own.every(it => LOCAL.test(it))) return new Client(own.map(it => it.replace(/\/$/, "")), undefined, options);
  const names = ["REGTUMA_NODES", "REGTUMA_CERT", "REGTUMA_KEY", "REGTUMA_CA"], missing = names.filter(it => !env[it]);
  if (missing.length) throw new Error(`the environment has no ${missing.join(" and no ")}`);
  const nodes = env.REGTUMA_NODES.split(","), wrong = nodes.find(it => !/^https:\/\/[^/\s]+:\d+\/?$/.test(it));
  if (wrong !== undefined) throw new Error(`${wrong} is no URL of a node with its port, as https://10.0.0.1:7051`);
  const [cert, key] = names.slice(1, 3).map(it => readFileSync(env[it])), trusted = env.REGTUMA_CA.split(",");
  if (![1, nodes.length].includes(trusted.length))
    throw new Error(`there are ${trusted.length} authorities for ${nodes.length} nodes: name one for all, or one for each`);
  const fetches = await Promise.all(trusted.map(it => tlsFetch({ cert, key, ca: readFileSync(it) })));
  const places = nodes.map(it => new URL(it).origin), of = url => fetches[places.indexOf(new URL(url).origin) % fetches.length];
  return new Client(nodes.map(it => it.replace(/\/$/, "")), (url, request) => of(url)(url, request), options);
}

/** A fetch with a client's certificate, for Node.js, whose own has none. `options` has `cert`, `key` and `ca`, in PEM. */
export async function tlsFetch(options) {
  const https = await import("node:https"), { Readable } = await import("node:stream");
  const agent = new https.Agent({ ...options, keepAlive: true });
  return (url, { method = "GET", headers = {}, body, signal } = {}) => new Promise((resolve, reject) => {
    const request = https.request(url, { method, headers, agent, signal },
      answer => resolve(new Response(Readable.toWeb(answer), { status: answer.statusCode })));
    request.on("error", reject);
    request.end(body);
  });
}
