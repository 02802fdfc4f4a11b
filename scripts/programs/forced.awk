# Follows the traces of appends to the log in `log_folder`, each ended by a line `ended STATUS`, and prints the first call that comes
# before what it needs is forced to the disk. What isn't forced may be lost, in any order: files by their bytes, and names by the folder
# that has them.
#
# - `.log/staged/state` is put once each staged file is forced, and each folder with a name on its path;
# - a file comes to its name below tile/ or map/ once `.log/staged/state` is forced, its folder included;
# - `.log/state` is replaced once all below these is forced, and `.log/staged/state` removed once `.log/state` and `checkpoint` are;
# - at an end with status 0, all but what is staged is forced.

function folder(name) { return match(name, /\/[^\/]*$/) ? substr(name, 1, RSTART - 1) : "" }

# A file and its name have to be forced. The name of a file that is about to be renamed doesn't matter.
function need(name, moment, renamed) {
    if (name in files || name in names && name != renamed) {
        print moment ", and " name " isn't forced"
        exit
    }
}

# The same of all whose names are such, but for one.
function need_all(pattern, moment, but, renamed,    it) {
    for (it in files) if (it ~ pattern && it != but) need(it, moment, renamed)
    for (it in names) if (it ~ pattern && it != but) need(it, moment, renamed)
}

BEGIN { MARK = ".log/staged/state"; STATE = ".log/state" }

$0 == "ended 0" {
    for (it in files) if (it !~ /^\.log\/(staged\/|replacing|lock)/) need(it, "status 0 is told")
    for (it in names) if (it !~ /^\.log\/(staged\/|replacing|lock)/) need(it, "status 0 is told")
}

# A call that was refused, or that has not returned, changes nothing.
/^ended/ || / = (-1|\?)/ { next }

{
    call = $0
    sub(/\(.*/, "", call)
    split($0, opened, /[<>]/)
    split($0, quoted, "\"")
    path = call == "write" || call == "fsync" ? opened[2] : quoted[2]
    if (index(path, log_folder) != 1 || call == "openat" && !/O_CREAT/) next
    name = substr(path, length(log_folder) + 2)
    to = call == "rename" ? substr(quoted[4], length(log_folder) + 2) : ""
}

call == "fsync" {
    delete files[name]
    for (it in names) if (folder(it) == name) delete names[it]
}

call == "unlink" && name == MARK { need(STATE, "the mark is removed"); need("checkpoint", "the mark is removed") }

to == MARK {
    need_all("^\\.log/staged/", "the commit stands", MARK, name)
    need(".log", "the commit stands")
    need(".log/staged", "the commit stands")
}

to ~ /^(tile|map)\// { need(MARK, to " is put"); need(name, to " is put") }
to == STATE { need_all("^(tile|map)", "the state is replaced") }
to && name in files { files[to] }
to { names[to] }
call == "rename" || call == "unlink" { delete files[name]; names[name] }
call == "write" || call == "openat" { files[name] }
call == "mkdir" || call == "openat" { names[name] }
