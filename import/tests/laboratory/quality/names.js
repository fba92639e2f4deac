// What a report is called: "raw" and the first part of a name.
function tag(kind, file) {
  var m = /^([A-Za-z]+)[_.](\d*)/.exec(file.basename);
  return m ? kind + "-" + m[1] + (m[2] ? "#" + m[2] : "") : kind;
}
