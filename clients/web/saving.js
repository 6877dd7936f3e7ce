// What goes out of the page: text to the clipboard, files, and the picture as SVG.

/** Offers a text as a file. @param {string} name @param {string} text @param {string} kind */
export function save(name, text, kind) {
  const link = document.createElement('a');
  link.href = URL.createObjectURL(new Blob([text], {type: kind}));
  link.download = name;
  link.click();
  setTimeout(() => URL.revokeObjectURL(link.href), 10000);
}

/** @param {string} text @returns {Promise<boolean>} whether it was copied */
export async function copy(text) {
  try {
    await navigator.clipboard.writeText(text);
    return true;
  } catch {
    return copySelected(text);
  }
}

/** The same where the browser withholds the clipboard. @param {string} text */
function copySelected(text) {
  const area = document.createElement('textarea');
  area.value = text;
  area.className = 'hidden';
  document.body.append(area);
  area.select();
  const isCopied = document.execCommand('copy');
  area.remove();
  return isCopied;
}

/** The layers of the picture as one file, with the colours that they have now. @param {SVGElement[]} layers @param {number} width @param {number} height */
export function picture(layers, width, height) {
  const size = `width="${Math.round(width)}" height="${Math.round(height)}" viewBox="0 0 ${Math.round(width)} ${Math.round(height)}"`;
  const body = layers.map((layer) => layer.innerHTML).join('\n');
  const style = rules();
  return `<svg xmlns="http://www.w3.org/2000/svg" ${size}>\n<style>${style}</style>\n<rect class="page" width="100%" height="100%"/>\n${body}\n</svg>\n`;
}

/** The rules of picture.css, with the values of the colours in the place of their names. */
function rules() {
  const probe = document.createElement('span');
  document.body.append(probe);
  const sheet = [...document.styleSheets].find(({href}) => href?.endsWith('/picture.css'));
  const text = [...(sheet?.cssRules ?? [])].map((rule) => rule.cssText).join('\n');
  const found = text.replace(/var\((--[a-z0-9-]+)\)/g, (_, name) => {
    probe.style.color = `var(${name})`;
    return getComputedStyle(probe).color;
  });
  probe.remove();
  return found;
}
