# The first error in what the prover said of a crate, in one line: the file, the goal, and what is not so, without line and
# column, and with long terms cut. Errors that only follow from another ("was not admitted") are passed over. Of two types
# that differ, the computed ones are shown. Where there is no error, the first goal that the prover's search did not prove.
# usage: LC_ALL=C awk [-v crate=CRATE -v of=FUNCTION] -f tools/first-error.awk LOG
# FUNCTION is a path in the crate, as events/exit/undo_all: then errors elsewhere than in its proof are passed over.

# The start of a text, in whole characters.
function start(text, size) {
    if (length(text) <= size) return text
    text = substr(text, 1, size)
    sub(/[\300-\377][\200-\277]*$/, "", text)
    return text " .."
}

# A term in backticks, cut if it is long.
function term(text, size) {
    sub(/` .*/, "`", text)
    return length(text) <= size ? text : start(text, size) "`"
}

# A text without module names: of a path whose first or second part has a capital, what stands behind its last dot. A dot
# before a blank ends no path.
function brief(text,   said, path) {
    gsub(/…\[[0-9]+ bytes\]…/, " .. ", text)
    gsub(/[ \t]+/, " ", text)
    while (match(text, /([A-Za-z0-9_-]+\.)+/)) {
        path = substr(text, RSTART, RLENGTH)
        said = said substr(text, 1, RSTART - 1)
        text = substr(text, RSTART + RLENGTH)
        if (path !~ /^([a-z]+\.)?[A-Z]/ || text ~ /^( |$)/) said = said path
    }
    return said text
}

# What an error says, from its lines.
function told(said,   found) {
    said = brief(said)
    if (said ~ /must be a path whose two ends are equal/) return "what `rw` leaves has to be a path whose two ends are equal, and is none"
    if (said ~ /^expected type /) {
        sub(/^expected type /, "", said)
        # short types stand in one line
        if (match(said, /, but this has type /)) {
            found = substr(said, RSTART + RLENGTH)
            said = substr(said, 1, RSTART - 1)
        } else {
            found = has
            sub(/^ *but this has type /, "", found)
        }
        return "expected " term(said, 60) ", found " term(brief(found), 60)
    }
    if (said ~ /^`omega`: .*goal does not follow/) return "`omega`: the goal does not follow"
    if (said ~ /^`grind` found no proof/) return "`grind` found no proof"
    if (sub(/^`search`: no proof of /, "", said)) return "`search`: no proof of " term(said, 60)
    if (match(said, / ≟ .*does not hold/)) return ".. ≟ " term(substr(said, RSTART + length(" ≟ "), RLENGTH), 120) ": does not hold"
    return start(said, 220)
}

# what it says before the check ends comes again
/^so far: / { next }
started && !/^  / { exit }
started && /^  but this has type / { has = $0; exit }
started && (/^  expected type / || /^  the `_` at / || / unfold here/ || / shown computed, /) { exit }
started {
    if (sub(/^  computed as far as they go, /, "")) said = $0
    else said = said " " $0
    next
}
/was not admitted/ { next }
match($0, /: error: /) {
    place = substr($0, 1, RSTART - 1)
    said = substr($0, RSTART + RLENGTH)
    sub(/:[0-9]+:[0-9]+$/, "", place)
    sub(/^\.\//, "", place)
    if (of != "" && index(place, "proofs/" of "/") != 1) next
    if (match(said, /^`[^`]*`: /)) {
        place = place ": " substr(said, 2, RLENGTH - 4)
        said = substr(said, RLENGTH + 1)
    }
    sub(/^(computed as far as they go|as printed), /, "", said)
    started = 1
    next
}
BEGIN {
    name = "fn " crate "::" of ":"
    gsub(/\//, "::", name)
}
# the goals that are not proved stand before their function
/^note: .*it is not proved that / && goal == "" && match($0, /\(`[^`]*`\)/) { goal = substr($0, RSTART + 1, RLENGTH - 2) }
/^fn / {
    if (open == "" && goal != "" && (of == "" || index($0, name) == 1)) open = substr($0, 1, index($0, ": ")) " `search` did not prove " goal
    goal = ""
}
END {
    if (started) print place ": " told(said)
    else if (open != "") print open
}
