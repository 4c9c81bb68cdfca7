// Tables as text: CSV in files, tabs on the clipboard.

/** The rows of a text whose cells are parted by `mark`; cells may stand in quotes. */
export function parse(text, mark = ",") {
  const rows = [];
  let row = [];
  let cell = "";
  let quoted = false;
  const endCell = () => {
    row.push(cell);
    cell = "";
  };
  const endRow = () => {
    endCell();
    rows.push(row);
    row = [];
  };
  for (let at = 0; at < text.length; at += 1) {
    const letter = text[at];
    if (quoted) {
      if (letter !== '"') cell += letter;
      else if (text[at + 1] === '"') {
        cell += '"';
        at += 1;
      } else quoted = false;
    } else if (letter === '"' && cell === "") quoted = true;
    else if (letter === mark) endCell();
    else if (letter === "\n" || letter === "\r") {
      if (letter === "\r" && text[at + 1] === "\n") at += 1;
      endRow();
    } else cell += letter;
  }
  if (cell !== "" || row.length) endRow();
  return rows;
}

const written = (cell) => (/[",\n\r]/.test(cell) ? `"${cell.replaceAll('"', '""')}"` : cell);

/** A row as a line of CSV. */
export const line = (cells) => cells.map(written).join(",");

/** What parts the cells of a file: a comma, or what stands behind the first word where that is a semicolon or a tab. */
export function markOf(text) {
  const found = /^\s*"?\w+"?[ ]*([,;\t])/m.exec(text.replace(/^#.*$/gm, ""));
  return found ? found[1] : ",";
}
