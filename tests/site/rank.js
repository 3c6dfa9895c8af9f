// Says of each word which pages the search answers, in order. It asks the theme's worker as the
// theme does: 0 gives it the index, 2 is a question.
async function rank(path, words) {
  const index = await (await fetch("search/search_index.json")).json()
  const worker = new Worker(path)
  const answer = (type, data) => new Promise(done => {
    worker.onmessage = it => done(it.data.data)
    worker.postMessage({ type, data })
  })
  await answer(0, { ...index, options: { pipeline: ["trimmer", "stopWordFilter"] } })
  for (const word of words) {
    const { items } = await answer(2, word)
    const pages = items.map(([it]) => it.location.replace(/#.*/, ""))
    document.querySelector("#told").append(`found ${word} ${pages.join(" ")}\n`)
  }
  await fetch("/tell")
}
