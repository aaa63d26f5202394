// Transfers a pallet, and says what became of that:   node examples/node/transfer.mjs pallet-7 Shop
import { fromEnvironment, NotValid } from "../../node/clients/regtuma.mjs";

const [pallet, receiver] = process.argv.slice(2);
if (!receiver) {
  console.error("usage: node transfer.mjs PALLET RECEIVER");
  process.exit(2);
}
let ledger;
try {
  ledger = await fromEnvironment();
} catch (error) {
  console.error(`nothing was sent: ${error.message}`);
  process.exit(1);
}
try {
  const { flag, block } = await ledger.submit("assets", ["transfer", pallet, receiver], { tries: 3 });
  console.log(`flag ${flag}: ${pallet} is ${receiver}'s, by block ${block}`);
  process.exit(0);
} catch (error) {
  const flag = error instanceof NotValid ? error.said.flag ?? "none" : "unknown";
  // A node may answer by words of others: nothing of them speaks to the terminal.
  console.log(`flag ${flag}: ${pallet} for ${receiver}: ${error.message.replace(/\p{C}/gu, "?")}`);
  process.exit(1);
}
