// Says of each frame how wide its page is, and which of its texts are too pale.

// A colour as [red, green, blue, alpha].
function colour(text) {
  const parts = text.match(/[\d.]+/g).map(Number)
  return parts.length < 4 ? [...parts, 1] : parts
}

// One colour seen over another.
function over(top, below) {
  const alpha = top[3] + below[3] * (1 - top[3])
  const mixed = it => alpha && (top[it] * top[3] + below[it] * below[3] * (1 - top[3])) / alpha
  return [mixed(0), mixed(1), mixed(2), alpha]
}

function luminance(its) {
  const parts = its.slice(0, 3).map(it => it / 255)
  const linear = it => it <= 0.04045 ? it / 12.92 : ((it + 0.055) / 1.055) ** 2.4
  const [red, green, blue] = parts.map(linear)
  return 0.2126 * red + 0.7152 * green + 0.0722 * blue
}

// The contrast of two colours, as WCAG 2.2 has it.
function contrast(one, other) {
  const [dark, light] = [luminance(one), luminance(other)].sort((a, b) => a - b)
  return (light + 0.05) / (dark + 0.05)
}

// The contrast of an element's text, or null where the text isn't seen.
function contrastOf(element) {
  const style = it => element.ownerDocument.defaultView.getComputedStyle(it)
  let opacity = 1, below = [0, 0, 0, 0]
  for (let it = element; it; it = it.parentElement) {
    opacity *= style(it).opacity
    below = over(below, colour(style(it).backgroundColor))
  }
  if (opacity < 0.05 || style(element).visibility != "visible") return null
  below = over(below, [255, 255, 255, 1])
  const [red, green, blue, alpha] = colour(style(element).color)
  return contrast(over([red, green, blue, alpha * opacity], below), below)
}

// A text that is large needs less.
function needed(element) {
  const style = element.ownerDocument.defaultView.getComputedStyle(element)
  const size = parseFloat(style.fontSize)
  return size >= 24 || size >= 18.66 && style.fontWeight >= 700 ? 3 : 4.5
}

// The elements whose own text is there to be seen, one of each look.
function* texts(page) {
  const seen = new Set()
  const nodes = page.createTreeWalker(page.body, NodeFilter.SHOW_TEXT)
  while (nodes.nextNode()) {
    const element = nodes.currentNode.parentElement
    const look = [element.tagName, element.className, element.parentElement.className].join()
    const box = element.getBoundingClientRect()
    if (!nodes.currentNode.data.trim() || seen.has(look) || !box.width || !box.height) continue
    if (["SCRIPT", "STYLE", "NOSCRIPT"].includes(element.tagName)) continue
    seen.add(look)
    yield element
  }
}

function* told(frame) {
  const page = frame.contentDocument, root = page.documentElement
  const name = `${frame.dataset.of} ${page.body.dataset.mdColorScheme}`
  let count = 0
  yield `wide ${name} ${root.scrollWidth} of ${root.clientWidth}`
  for (const element of texts(page)) {
    const found = contrastOf(element)
    count += found != null
    if (found != null && found < needed(element)) {
      const text = element.textContent.trim().slice(0, 40)
      yield `pale ${name} ${root.clientWidth} ${found.toFixed(2)} ${element.tagName} ${text}`
    }
  }
  yield `texts ${name} ${count}`
}

// Colours change in a moment, and not at once.
onload = () => setTimeout(() => {
  const frames = [...document.querySelectorAll("iframe")]
  document.querySelector("#told").textContent = frames.flatMap(it => [...told(it)]).join("\n")
}, 1000)
