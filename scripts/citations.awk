# The rules of scripts/citations, which brings what is there, then the documents' lines, a tab between the parts of a
# line.

BEGIN { TAKES_CRATES = "^(check|lib|must-fail|run|test|try|verdict)$" }
$1 == "path" { add_path($2); next }
$1 == "symbol" { add_symbol($2, $3, $4); next }
$1 == "comment" { comment[++comments] = $2; next }
$1 == "decision" || $1 == "reading" || $1 == "make" || $1 == "crate" { is[$1, $2] = 1; next }
$1 == "except" { except[$2] = 1; next }
$1 == "statements" { statements[$2] = 1; next }
$1 == "edit" { edit[$2] = 1; next }
$1 == "text" { document = $2; line = $3; judge_line(rest_of($0, 4)); next }
{ print "citations: a line that nothing reads: " $0; wrong++ }

END {
  judge_uncited()
  print "citations: " resolved + 0 " resolved, " wrong + 0 " wrong"
  exit wrong > 0 || resolved == 0
}

# ---- what is there

# A path counts by each of its ends: crates/frame/specs/Doc.antt, frame/specs/Doc.antt, .., Doc.antt.
function add_path(path) {
  exists[path] = 1
  for (tail = path; ; ) {
    if (!(tail in whole)) whole[tail] = path
    at = index(tail, "/")
    if (!at) break
    tail = substr(tail, at + 1)
  }
}

function add_symbol(file, name, theorem,   parts) {
  split(file, parts, "/")
  defined[name] = 1
  in_file[file, name] = 1
  in_crate[parts[2], name] = 1
  of_file[name] = of_file[name] " " file
  if (theorem != "") theorems[file, name] = 1
}

# ---- the documents

function rest_of(text, field,   i) {
  for (i = 1; i < field; i++) sub(/^[^\t]*\t/, "", text)
  return text
}

function complain(what) {
  print document ":" line ": " what
  wrong++
}

# Counts a citation: it resolves where there is nothing to say of it.
function count(cited, fault) {
  if (fault == "") resolved++
  else complain("`" cited "`: " fault)
}

# The list of edits is made from them and has each, so there none counts as cited.
function is_list_of_edits(document) {
  return document == "docs/EDITS.md"
}

# The words in backquotes in turn, with the text before each. A path holds for the names right behind it, and for one
# right before it: "`PATH` `name`, `name`" and "`name` of `PATH`". The path may stand first in the
# next line.
function judge_line(text,   parts, n, i, file, gap, word) {
  n = split(text, parts, "`")
  file = ""
  if (n > 1 && awaited == document ":" line && parts[1] ~ /^ *$/ && is_path(parts[2])) held(file_of(parts[2]), awaiting)
  for (i = 2; i < n; i += 2) {
    gap = parts[i - 1]
    word = parts[i]
    if (gap !~ /^( |, | and |, field |, and )$/) file = ""
    if (!is_list_of_edits(document)) cited[word] = 1
    count(word, fault_of(word))
    if (is_path(word)) {
      file = file_of(word)
      if (i > 2 && gap ~ /^ of $/ && is_name(parts[i - 2])) held(file, parts[i - 2])
    } else if (is_name(word) && file != "") {
      held(file, word)
    }
  }
  if (n > 2 && parts[n] ~ /^ of *$/ && is_name(parts[n - 1])) {
    awaiting = parts[n - 1]
    awaited = document ":" line + 1
  }
  judge_quotes(text)
  judge_numbers(text)
}

# A name that is cited as standing in a file stands there.
function held(file, name) {
  if (file !~ /\.(antt|rt|rs)$/ || name in except || (file, name) in in_file) return
  complain("`" name "`: not in " file)
}

function is_path(word) {
  if (word ~ /[ *(]|\.\./ || word ~ /^\/[0-9A-Z]*$/) return 0
  return word ~ /\// || word ~ /\.(antt|rt|rs|md|edit|txt|sheet|words|svg|toml|h|c)$/
}

function is_name(word) {
  return word ~ /^[A-Za-z][A-Za-z0-9_'-]+$/
}

function file_of(word) {
  sub(/\/$/, "", word)
  if ("crates/" word in exists) return "crates/" word
  return word in whole ? whole[word] : word
}

# What is wrong with a word in backquotes; nothing where it cites what is there, or is no citation.
function fault_of(word) {
  if (word in except) return excepted(word)
  if (word ~ /^(make|rt|cargo)( |$)/) return command_fault(word)
  if (is_path(word)) return path_fault(word)
  if (word ~ /^[A-Za-z0-9_:]+\([^()]*\)$/) sub(/\(.*/, "", word)
  if (word ~ / /) return term_fault(word)
  if (word ~ /^[A-Za-z0-9_]+(::[A-Za-z0-9_]+)+$/) return scoped_fault(word)
  if (is_name(word)) return name_fault(word)
  return ""
}

function excepted(word) {
  used[word] = 1
  return ""
}

function path_fault(word) {
  sub(/\/$/, "", word)
  if (word ~ /^((oracle\/)?target|(crates\/[A-Za-z_]+\/)?out)(\/|$)/ || word in whole) return ""
  return "there is no such file or folder"
}

# make TARGET, and rt WORD, with crates behind the words that take them.
function command_fault(word,   parts, n, i) {
  n = split(word, parts, " ")
  if (parts[1] == "make" && n > 1 && !(("make", parts[2]) in is)) return "the Makefile has no " parts[2]
  if (parts[1] != "rt" || n == 1) return ""
  if (parts[2] !~ /^(all|ci|doc|expand|fmt|help|lemma|names|new|plant|seed|selftest|tidy|version)$/ &&
    parts[2] !~ TAKES_CRATES) return "rt has no command " parts[2]
  if (parts[2] !~ TAKES_CRATES && parts[2] != "ci") return ""
  for (i = 3; i <= n; i++)
    if (parts[i] ~ /^[a-z]/ && !(("crate", parts[i]) in is)) return "there is no crate " parts[i]
  return ""
}

# In a term each word of two parts, a_name or aName, is a name. A first word with a slash is a program, with its words.
# One in capitals, as MATCH, begins a statement, whose names are its own.
function term_fault(word,   parts, n, i, fault) {
  if (word ~ /^[A-Z]+ /) return ""
  n = split(word, parts, " ")
  if (parts[1] ~ /\// && is_path(parts[1]) && path_fault(parts[1]) != "") return parts[1] ": " path_fault(parts[1])
  n = split(word, parts, /[^A-Za-z0-9_]+/)
  for (i = 1; i <= n; i++) {
    if (parts[i] !~ /[a-z][A-Z]|[a-z]_[a-z]/) continue
    fault = parts[i] in except ? excepted(parts[i]) : name_fault(parts[i])
    if (fault != "") return parts[i] ": " fault
  }
  return ""
}

# crate::name, crate::module::name, Type::name.
function scoped_fault(word,   parts, n, i) {
  n = split(word, parts, "::")
  if (!(("crate", parts[1]) in is)) return type_fault(parts[1], parts[n])
  for (i = 2; i <= n; i++) if (!((parts[1], parts[i]) in in_crate)) return "the crate " parts[1] " has no " parts[i]
  if (n == 2 || beside(parts[n - 1], parts[n])) return ""
  return parts[n - 1] " has no " parts[n]
}

function type_fault(type, name) {
  if (!(type in defined)) return "there is no crate or type " type
  return beside(type, name) ? "" : "no file has both " type " and " name
}

# Whether a file has both names; a module's own name counts in its file.
function beside(one, other,   files, n, i) {
  n = split(of_file[one], files, " ")
  for (i = 1; i <= n; i++) if ((files[i], other) in in_file) return 1
  return 0
}

# A word in capitals is one of Cypher's, as MERGE, or stands for something, unless it is a variable of two words. Digits
# of base sixteen are a number.
function name_fault(word) {
  if (word ~ /^[A-Z]+$/ || (word ~ /^[0-9a-f]+$/ && word ~ /[0-9]/)) return ""
  if (word in defined || ("crate", word) in is || ("make", word) in is || word in whole) return ""
  return "nothing has this name"
}

# ---- quotations and numbers

# In the two documents of cases every quotation in a table quotes a comment, elsewhere one behind "case". A quotation
# can hold quotes, so it goes as far as it is a comment's beginning.
function judge_quotes(text,   at, from, size, all) {
  all = document ~ /\/(COVERAGE|PAPERS)\.md$/ && text ~ /^\|/
  gsub(/`[^`]*`/, "", text)
  for (;;) {
    at = all ? match(text, /"/) : match(text, /cases? "/)
    if (!at) return
    from = substr(text, at + RLENGTH)
    size = quoted(from)
    if (size) resolved++
    else complain("\"" substr(from, 1, 60) "..: no comment or heading begins so")
    text = substr(from, size ? size : index(from "\"", "\"") + 1)
  }
}

# How far the longest quotation goes that begins a comment, with its last quote; 0 where none does. One of a few letters
# begins too many, so that it must be the whole comment.
function quoted(from,   size, i) {
  for (size = length(from); size > 1; size--) {
    if (substr(from, size, 1) != "\"") continue
    for (i = 1; i <= comments; i++) if (begins(comment[i], substr(from, 1, size - 1))) return size + 1
  }
  return 0
}

function begins(all, words) {
  return index(all, words) == 1 && (length(words) >= 12 || all == words || all == words "." || all == words ":")
}

function judge_numbers(text) {
  judge_each(text, "[Dd]ecision [0-9]+", "decision")
  judge_each(text, "([Dd]ecisions|DECISIONS) [0-9]+((,|,? and|,? or| to) [0-9]+)*", "decision")
  judge_each(text, "(^|[^A-Za-z0-9-])[A-Z]-[0-9][0-9]", "reading")
}

# Each number of a kind that the text has: in what matches, the words with a digit.
function judge_each(text, pattern, kind,   words, parts, n, i) {
  while (match(text, pattern)) {
    words = substr(text, RSTART, RLENGTH)
    text = substr(text, RSTART + RLENGTH)
    n = split(words, parts, /[^A-Z0-9-]+/)
    for (i = 1; i <= n; i++)
      if (parts[i] ~ /[0-9]/) count(parts[i], (kind, parts[i]) in is ? "" : "there is no such " kind)
  }
}

# ---- what nothing cites

function judge_uncited(   key, parts, name) {
  for (key in edit) {
    name = substr(key, length("crates/") + 1)
    if (!(name in cited) && !(key in cited)) uncited(name, "no document cites this edit")
  }
  for (key in theorems) {
    split(key, parts, SUBSEP)
    if (parts[1] in statements && !(parts[2] in cited))
      uncited(parts[1], "no document cites the theorem `" parts[2] "`")
  }
  for (key in except) if (!(key in used)) uncited("scripts/citations.except", "no document has `" key "`")
  close("sort")
}

function uncited(file, what) {
  print file ": " what | "sort"
  wrong++
}
