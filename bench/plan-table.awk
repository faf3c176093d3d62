# A table of one case of plans, for `commit_cases`: -v shape=SHAPE -v count=COUNT -v row=ROW, where ROW is its last line.
#   suffix   each file gets another suffix          cycle    each file the name of the next one, the last one that of the first
#   swaps    each two files trade their names       chain    each file the name of the next one, the last one a new name
#   nested   COUNT directories, one in the other, and 20 files in each; each gets another name
function file(i) { return sprintf("file%07d.txt", i) }
function edit(source, kind, to) { print "edit " ++line " " source " " kind " " to " \\e \\e" }
function nest(depth, level, prefix, i, dir) {
    prefix = ""
    for (level = 1; level <= depth; level++) {
        dir = prefix "d" level
        entries = entries "dir 755 0 " dir "\n"
        edits[++total] = dir " dir 755 " prefix "e" level
        for (i = 1; i <= 20; i++) {
            entries = entries "file " number++ " 644 0 " dir "/f" i " \\e\n"
            edits[++total] = dir "/f" i " file 644 " dir "/g" i
        }
        prefix = dir "/"
    }
}
BEGIN {
    print "case " shape "-" count
    if (shape == "nested") {
        nest(count)
        printf "%s", entries
        for (i = 1; i <= total; i++) print "edit " i " " edits[i] " \\e \\e"
    } else {
        for (i = 0; i < count; i++) print "file " i " 644 0 " file(i) " \\e"
        for (i = 0; i < count; i++) {
            to = file(i + 1)
            if (shape == "suffix") to = sprintf("file%07d.text", i)
            if (shape == "cycle") to = file((i + 1) % count)
            if (shape == "swaps") to = file(i % 2 ? i - 1 : i + 1)
            edit(file(i), "file 644", to)
        }
    }
    print row
}
