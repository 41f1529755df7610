/*
 * Lets the site be searched also where a browser reads it from a disk, and so
 * neither fetches a file nor starts a worker: the index is a script, and the
 * worker of Material runs in a frame.
 */
window.__search = {
  index: new Promise((found) => {
    window.searchIndex = found;
    const script = document.createElement("script");
    script.src =
        new URL("../search/search_index.js", document.currentScript.src);
    document.head.append(script);
  })
};

/** A worker that runs in a frame, which has this page's origin. */
class FrameWorker extends EventTarget {
  constructor(url) {
    super();
    const frame = document.createElement("iframe");
    frame.hidden = true;
    frame.srcdoc = `<script src="${url}"></script>`;
    this.ready = new Promise((loaded) => {
      frame.onload = () => {
        frame.contentWindow.postMessage = (data) => this.answer(data);
        loaded(frame.contentWindow);
      };
    });
    document.body.append(frame);
  }

  answer(data) {
    this.dispatchEvent(new MessageEvent("message", {data}));
  }

  postMessage(data) {
    this.ready.then(
        (to) => to.dispatchEvent(new MessageEvent("message", {data})));
  }
}

if (location.protocol === "file:") {
  window.Worker = FrameWorker;
}
