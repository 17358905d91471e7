# Puts the texts of a language in the place of the English ones: of a module, of markup, or of rows with tabs between their fields, of which
# those before the number `from` stay, by `kind`. `table` names the file of the language (page/languages). A text that the file lacks stays English.

BEGIN {
    while ((getline row < table) > 0) {
        if (kind == "markup") row = with_signs(row)
        at = index(row, ": ")
        if (row ~ /^en: /) key = substr(row, at + 2)
        else if (row ~ /^[a-z]+: /) texts[key] = substr(row, at + 2)
    }
}

function text_of(english) { return english in texts ? texts[english] : english }

# A text as it stands between quotes in a module. No < is left, by which the script could end.
function quoted(text) {
    gsub(/[\\'"]/, "\\\\&", text)
    gsub(/</, "\\x3c", text)
    return text
}

# Each text behind `say(`, `said(`, `sayCount(` and `saidCount(`.
function of_module(line,    made, at, call) {
    while (match(line, /(say|said)(Count)?\(('[^']*'|"[^"]*")/)) {
        call = substr(line, RSTART, RLENGTH)
        at = index(call, "(") + 1
        made = made substr(line, 1, RSTART - 1) substr(call, 1, at) quoted(text_of(substr(call, at + 1, length(call) - at - 1))) substr(call, length(call))
        line = substr(line, RSTART + RLENGTH)
    }
    return made line
}

# What stands between two tags: blanks around it stay, and within it one stands for many.
function of_text(text,    before, behind, key) {
    match(text, /^[ \t\n]*/)
    before = substr(text, 1, RLENGTH)
    key = substr(text, RLENGTH + 1)
    match(key, /[ \t\n]*$/)
    behind = substr(key, RSTART)
    key = substr(key, 1, RSTART - 1)
    gsub(/[ \t\n]+/, " ", key)
    return key in texts ? before texts[key] behind : text
}

# A tag with the texts of its attributes.
function of_tag(tag,    made, at) {
    sub(/^<html lang="en">/, "<html lang=\"" language "\">", tag)
    while (match(tag, /(title|aria-label|placeholder)="[^"]*"/)) {
        at = RSTART + index(substr(tag, RSTART), "\"")
        made = made substr(tag, 1, at - 1) text_of(substr(tag, at, RSTART + RLENGTH - 1 - at)) "\""
        tag = substr(tag, RSTART + RLENGTH)
    }
    return made tag
}

# <code> is a part of the text in which it stands: it is no tag until all is made.
function with_signs(text) {
    gsub(/<code>/, "\001", text)
    gsub(/<\/code>/, "\002", text)
    return text
}

function of_markup(all,    made, tag) {
    while (match(all, /<[^>]*>/)) {
        tag = substr(all, RSTART, RLENGTH)
        made = made of_text(substr(all, 1, RSTART - 1)) of_tag(tag)
        all = substr(all, index(all, tag) + length(tag))
    }
    all = made all
    gsub(/\001/, "<code>", all)
    gsub(/\002/, "</code>", all)
    return all
}

function of_row(row,    made, fields, count, at) {
    count = split(row, fields, "\t")
    for (at = 1; at <= count; at++) made = made (at > 1 ? "\t" : "") (at < from ? fields[at] : text_of(fields[at]))
    return made
}

kind == "module" { print of_module($0) }
kind == "rows" { print of_row($0) }
kind == "markup" { all = all $0 "\n" }
END { if (kind == "markup") printf "%s", of_markup(with_signs(all)) }
