// What scripts/check_explorer.py asks of the page: its state once it is done, and how it looks.
({
  async state() {
    while (document.getElementById('main')?.ariaBusy !== 'false') await new Promise(done => setTimeout(done, 5));
    const path = document.getElementById('path')?.textContent.split('\n') ?? [];
    return {kind: document.getElementById('verdict').className, text: document.body.innerText, path, focus: document.activeElement.tagName};
  },

  // How far the page is too wide, how high it is, the least contrast of a text, and how many inputs have no label.
  looks() {
    const parts = color => color.match(/[\d.]+/g).map(Number);
    const line = it => it <= .04045 ? it / 12.92 : ((it + .055) / 1.055) ** 2.4;
    const light = color => parts(color).slice(0, 3).map(it => line(it / 255)).reduce((sum, it, at) => sum + it * [.2126, .7152, .0722][at], .05);
    const behind = it => parts(getComputedStyle(it).backgroundColor)[3] === 0 ? behind(it.parentElement) : light(getComputedStyle(it).backgroundColor);
    const contrast = it => Math.max(light(getComputedStyle(it).color), behind(it)) / Math.min(light(getComputedStyle(it).color), behind(it));
    const hasText = it => it.getClientRects().length > 0 && [...it.childNodes].some(node => node.nodeType === Node.TEXT_NODE && node.data.trim());
    const {scrollWidth, scrollHeight} = document.documentElement;
    return {
      over: scrollWidth - innerWidth,
      high: Math.min(scrollHeight, 3000),
      contrast: Math.min(...[...document.querySelectorAll('body *')].filter(hasText).map(contrast)),
      unnamed: [...document.querySelectorAll('input, select')].filter(it => it.labels.length === 0).length,
    };
  },
})
