cwlVersion: v1.2
class: CommandLineTool
doc: Texts with dollars, backslashes and quotes for awk, sed and printf, beside expressions and without them.
requirements:
  InlineJavascriptRequirement: {}
  ShellCommandRequirement: {}
  InitialWorkDirRequirement:
    listing:
      - entryname: prog.awk
        entry: |
          BEGIN { FS = "\\t"; n = $(inputs.n) }
          { print \$1 "\t" NR "\\" n; sub(/\\.txt$/, ""); print "\\$(" \$0 ")" }
      - entryname: plain.awk
        entry: "{ print $1, \"\\t\", NF }\n"
baseCommand: [cat, prog.awk, plain.awk]
arguments:
  - {valueFrom: "| sed 's/\\(b\\)/<\\1>/' | sed -e 's/^/\\$(x) /'", shellQuote: false, position: 2}
  - {valueFrom: "; echo a.b | sed 's/\\./-/' ; awk -f plain.awk", shellQuote: false, position: 3}
  - {valueFrom: $(inputs.file.path), position: 4}
  - {valueFrom: "; printf '%s\\n' $(inputs.words.map(function (w) { return w.replace(/(\\w)(\\w*)/g, '$2$1'); }).join(' '))", shellQuote: false, position: 5}
inputs:
  file: {type: File, inputBinding: {position: 1}}
  n: int
  words: string[]
stdout: out.txt
outputs: {o: stdout}
