"use strict";
/** Adds blocks to the page as the node commits them. What is searched for and where the reader is stay as they are. */
auditVerdict = () => ({ isGood: true, words: `Live from the node of ${ORGANISATION}; it is audited by ledger audit, not here.` });

/** Checks a block on the state behind the one before, and takes it into the chain. */
async function take({ chain, check }, block) {
  if (block.block !== (chain.blocks.at(-1)?.block ?? 0) + 1) return;
  await check.add(block);
  chain.blocks.push(block);
}

function show({ chain, check }) {
  const found = check.findings.length;
  document.title = byId("title").textContent = `Chain of ${counted(chain.blocks.length, "block")}`;
  byId("checks-tab").replaceChildren("Checks", ...(found ? [" ", span("count", grouped(found))] : []));
  drawSummary();
  drawChart();
  drawLegend();
  if (page.at === null && scrollY < 400) page.draw();
}

/** Follows the node from the chain's end on, as long as the page shows this chain. */
function listen() {
  if (document.documentElement.dataset.state !== "ready") return setTimeout(listen, 50);
  const shown = { chain: page.chain, check: page.check }, next = (shown.chain.blocks.at(-1)?.block ?? 0) + 1;
  const stream = new EventSource(`/events?from=${next}`);
  show(shown);
  let taken = Promise.resolve(), waiting = 0;
  stream.addEventListener("block", event => {
    if (page.chain !== shown.chain) return stream.close();
    taken = taken.then(() => take(shown, JSON.parse(event.data)));
    waiting ||= setTimeout(async () => {
      await taken;
      waiting = 0;
      show(shown);
    }, 200);
  });
}
listen();
