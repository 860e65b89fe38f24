// The search takes its index from here: the script search_index.js hands it over.
var __search = {}
__search.index = new Promise(ready => { __search.ready = ready })

// A page that is opened as a file may start no worker. A hidden frame runs the worker's script then.
if (location.protocol === "file:")
  window.Worker = class extends EventTarget {
    constructor(url) {
      super()
      this.waiting = []
      const frame = document.createElement("iframe")
      frame.hidden = true
      document.body.append(frame)
      this.inner = frame.contentWindow
      this.inner.postMessage = data => this.dispatchEvent(new MessageEvent("message", { data }))
      const script = this.inner.document.createElement("script")
      script.src = url
      script.onload = () => {
        this.loaded = true
        this.waiting.forEach(data => this.postMessage(data))
      }
      this.inner.document.body.append(script)
    }
    postMessage(data) {
      if (this.loaded) this.inner.dispatchEvent(new MessageEvent("message", { data }))
      else this.waiting.push(data)
    }
  }

// What an address or a link names is opened, with all that it stands in. On paper stands what was opened, and no more, though the
// theme opens everything there.
const show = hash => {
  const named = document.getElementById(decodeURIComponent(hash.slice(1)))
  for (let part = named; part; part = part.parentElement)
    if (part.tagName === "DETAILS") {
      part.open = true
      part.classList.add("opened")
    }
  if (named) named.scrollIntoView()
}
addEventListener("hashchange", () => show(location.hash))
addEventListener("DOMContentLoaded", () => {
  show(location.hash)
  for (const lead of document.querySelectorAll("details.panel > summary"))
    lead.addEventListener("click", () => lead.parentElement.classList.toggle("opened", !lead.parentElement.open))
  for (const link of document.querySelectorAll('a[href^="#"]'))
    link.addEventListener("click", () => show(link.getAttribute("href")))
})
