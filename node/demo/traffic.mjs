// Transfers an asset of its own COUNT times, one after another, as traffic.py does:   node traffic.mjs ASSET COUNT
import { callOf, fromEnvironment, NotValid, text } from "../clients/regtuma.mjs";

const [asset, count] = process.argv.slice(2);
const ledger = await fromEnvironment({ seconds: 240 });
const [made] = await ledger.submitAll([callOf("assets", ["create", asset, "Maker"])]);
if (!made.valid) throw new Error(made.why);
let last;
for (let number = 0; number < Number(count); number++) {
  const began = performance.now();
  let said;
  try {
    said = await ledger.submit("assets", ["transfer", asset, `owner-${number}`], { tries: 3 });
  } catch (error) {
    said = { why: error.message, ...(error instanceof NotValid ? error.said : {}) };
  }
  console.log(JSON.stringify({ ...said, seconds: Math.round(performance.now() - began) / 1000 }));
  last = said;
}
// Each way of reading tells what the last transfer made.
const key = `assets/asset/${asset}`, owner = `owner-${count - 1}`;
const { value: first } = await ledger.blocks({ from: 1 }).next();
const read = [text(await ledger.evaluate("assets", ["read", asset])), text(await ledger.get(key)), (await ledger.history(key)).length,
  (await ledger.state(key, `${key}0`)).length, JSON.stringify(await ledger.status(last.id)), first.block];
process.exit(String(read) === String([owner, owner, Number(count) + 1, 1, JSON.stringify(last), 1]) ? 0 : 1);
