# Makes the manual pages of the library from its header, one for raid2d.h and one for each function or group of functions, and takes
# the example from the first program of README.md:
#
#   awk -v out=FOLDER/man3 -v version=VERSION -v date=DATE -f man/pages.awk README.md include/raid2d.h
#
# What it reads of the header. A comment that begins `NAME: SUMMARY` or `NAME, NAME: SUMMARY` becomes a page, with the prototypes that
# stand right below it. In a comment, paragraphs are parted by empty lines; a line of capitals is a heading; a paragraph that begins
# with Return opens the section on the result; a block indented by two spaces is a list of terms and texts or of points, by four and
# more an example. A parameter that a comment does not name has the text that the first comment has for it, and a status the words
# of raid2d_strerror. Other comments, with the macros below them, become the section on constants.

# ---- Reading.

FILENAME ~ /README/ { read_example(); next }
/^\/\*.*\*\/$/ { subject = ""; note(substr($0, 4, length($0) - 6)); next }
/^\/\*/ { commented = 1; lines = 0; next }
/^ \*\/$/ { commented = 0; end_comment(); next }
commented { sub(/^ \* ?/, ""); line[++lines] = $0; next }
/^$/ { subject = "" }
subject != "" { add_prototype() }
{ read_macro(); read_status() }

# The first program of README.md, and what it prints.
function read_example() {
    if (/^```/) fence++
    else if (fence == 1) program[++programs] = $0
    else if (fence == 3) printed[++prints] = $0
}

# A comment is noted under its subject, the function or file that its first words name; one without goes to the constants.
function end_comment(  first, i, n, title) {
    first = line[1]
    for (i = 2; first ~ /,$/; i++) first = first " " line[i]
    if (first !~ /^[a-z0-9_., ]+: /) {
        for (; i <= lines; i++) first = first " " line[i]
        note(first)
        return
    }
    title = first
    sub(/: .*/, "", title)
    sub(/^[^:]*: /, "", first)
    sub(/\.$/, "", first)
    n = split(title, names, ", ")
    subject = names[1]
    sub(/\.h$/, "", subject)
    page[++pages] = subject
    summary[subject] = first
    members[subject] = title
    sub(/\.h$/, "", members[subject])
    count[subject] = 0
    for (; i <= lines; i++) text[subject, ++count[subject]] = line[i]
    inside = 0
    if (pages == 1) { read_parameters(); subject = "" }
}

# The common parameters stand in the first comment, under their heading.
function read_parameters(  i, heading, name) {
    for (i = 1; i <= count[page[1]]; i++) {
        $0 = text[page[1], i]
        if (/^[A-Z ]+$/) heading = $0
        else if (heading == "PARAMETERS" && /^  [^ ]/) { name = $1; sub(/^ *[^ ]+ +/, ""); common[name] = $0 }
        else if (heading == "PARAMETERS" && /^   /) { sub(/^ +/, ""); common[name] = common[name] " " $0 }
    }
}

function note(words) { constant[++constants] = words; is_note[constants] = 1 }

# A macro with its number or its string, or with its parameters.
function read_macro() {
    if (/^#define RAID2D_[A-Z_]+  +/) constant[++constants] = sprintf("%-22s %s", $2, $3)
    if (/^#define RAID2D_[A-Z_]+\(/ && !seen[$0]++) { sub(/^#define /, ""); sub(/ *\\$/, ""); constant[++constants] = $0 }
}

# The statuses with their numbers, and their words. The comment before them goes with them and not to the constants.
function read_status() {
    if (/^enum /) { status_note = constant[constants]; delete is_note[constants--] }
    if (/^    RAID2D_[A-Z_]+ = [0-9]+,?$/) { status[++statuses] = $1; number[$1] = $3 + 0 }
    if (/^    case RAID2D_/) { known = $2; sub(/:$/, "", known) }
    if (/^        return "/ && known) { sub(/^ *return "/, ""); sub(/";$/, ""); words[known] = $0; known = "" }
}

# A prototype, or the head of a function that the header defines.
function add_prototype() {
    if (/^\{/) inside = 1
    if (inside) return
    sub(/^static inline /, "")
    prototype[subject, ++protos[subject]] = $0 (/\)$/ ? ";" : "")
}

# ---- Writing.

END {
    for (p = 1; p <= pages; p++) write_page(page[p], out "/" page[p] ".3")
}

function put(s) { print s >file }

# Names of the library in bold, a function with the section of its page; nothing is taken for a request or an escape.
function roff(s,  result, name) {
    gsub(/\\/, "\\e", s)
    while (match(s, /(RAID2D|raid2d)_[A-Za-z0-9_]+/)) {
        name = substr(s, RSTART, RLENGTH)
        result = result substr(s, 1, RSTART - 1) "\\fB" name "\\fP" (name ~ /^raid2d/ ? "(3)" : "")
        s = substr(s, RSTART + RLENGTH)
    }
    return safe(result s)
}

function verbatim(s) {
    gsub(/\\/, "\\e", s)
    gsub(/-/, "\\-", s)
    gsub(/'/, "\\(aq", s)
    return safe(s)
}

function safe(s) { return s ~ /^[.']/ ? "\\&" s : s }

function write_page(name, path,  n, names, i) {
    file = path
    n = split(members[name], names, ", ")
    put(".\\\" Made from raid2d.h.")
    put(".TH " toupper(name) " 3 " date " \"raid2d " version "\" \"Library Functions Manual\"")
    put(".nh\n.nr HY 0\n.ad l\n.SH NAME\n" members[name] " \\- " summary[name])
    write_synopsis(name)
    result = 0
    write_text(name)
    write_parameters(name)
    result = 1
    if (returns > 0) write_lines(name, returns, count[name])
    if (p == 1) write_overview()
    write_see_also(name)
    close(file)
    for (i = 2; i <= n; i++) { file = out "/" names[i] ".3"; put(".so man3/" name ".3"); close(file) }
}

function write_synopsis(name,  i) {
    put(".SH SYNOPSIS\n.nf\n.B #include <raid2d.h>")
    if (protos[name]) put(".PP")
    for (i = 1; i <= protos[name]; i++) put("\\fB" verbatim(prototype[name, i]) "\\fP")
    put(".fi")
    if (p == 1) put(".PP\nCompile and link with\n.PP\n.EX\ncc program.c $(pkg\\-config \\-\\-cflags \\-\\-libs raid2d)\n.EE")
}

# What comes before the section on the result. It has a heading unless it begins with one of its own or is only a list of parameters.
function write_text(name,  i, last) {
    parameters_of(name)
    returns = 0
    last = count[name]
    for (i = 1; i <= count[name]; i++)
        if (text[name, i] ~ /^Returns? /) { returns = i; last = i - 1; break }
    for (i = 1; i <= last && text[name, i] !~ /^[^ ]|^    /; i++) ;
    if (i <= last && text[name, i] !~ /^[A-Z ]+$/) put(".SH DESCRIPTION")
    write_lines(name, 1, last)
}

# The parameters of the prototypes of a page, each once, in their order.
function parameters_of(name,  i, k, n, part, word) {
    own_count = 0
    for (word in own) delete own[word]
    for (word in taken) delete taken[word]
    for (i = 1; i <= protos[name]; i++) {
        word = prototype[name, i]
        sub(/^.*\(/, "", word)
        gsub(/[);*]/, " ", word)
        n = split(word, part, ",")
        for (k = 1; k <= n; k++) {
            word = part[k]
            sub(/ +$/, "", word)
            sub(/^.* /, "", word)
            if (word != "" && word != "void" && !(word in taken)) { taken[word] = 1; parameter[++own_count] = word }
        }
    }
}

function write_lines(name, from, to,  i, s, blank) {
    mode = ""
    blank = 1
    for (i = from; i <= to; i++) {
        s = text[name, i]
        if (s == "") { blank = 1; continue }
        if (blank) begin_block(s)
        blank = 0
        write_line(s)
    }
    end_block()
}

function begin_block(s) {
    end_block()
    mode = s ~ /^[A-Z]+( [A-Z]+)*$/ ? "heading" : s ~ /^    / ? "example" : s ~ /^  - / ? "points" : s ~ /^  / ? "list" : "paragraph"
    if (s ~ /^Returns? /) put(".SH RETURN VALUE")
    else if (mode == "paragraph") put(".PP")
    if (mode == "example") put(".PP\n.EX")
    term = ""
}

function end_block() {
    if (mode == "example") put(".EE")
    end_item()
    mode = ""
}

function write_line(s) {
    if (mode == "heading") put(".SH " s)
    else if (mode == "example") put(verbatim(substr(s, 5)))
    else if (mode == "paragraph") put(roff(s))
    else if (mode == "points" && s ~ /^  - /) put(".IP \\(bu 3\n" roff(substr(s, 5)))
    else if (mode == "list" && s ~ /^  [^ ]/) begin_item(substr(s, 3))
    else { sub(/^ +/, "", s); if (mode == "list") item = item " " s; else put(roff(s)) }
}

function begin_item(s) {
    end_item()
    term = s
    sub(/   *.*$/, "", term)
    item = s
    if (!sub(/^[^ ]+( [^ ]+)*   */, "", item)) item = ""
}

# An item of a list. What is said of a parameter waits for the section on parameters; in that on the result no term is one.
function end_item() {
    if (term == "") return
    if (!result && term in taken) own[term] = item
    else if (term in number) write_item("\\fB" term "\\fP (" number[term] ")", item == "" ? words[term] : item)
    else write_item(roff(term), item)
    term = ""
}

function write_item(head, words) { put(".TP\n" head "\n" roff(words)) }

function write_parameters(name,  i, word, headed) {
    headed = 0
    for (i = 1; i <= own_count; i++) {
        word = parameter[i]
        if (!(word in own || word in common)) continue
        if (!headed++) put(".SH PARAMETERS")
        write_item("\\fI" word "\\fP", word in own ? own[word] : common[word])
    }
}

# What raid2d(3) has besides: the functions, the constants, the statuses, the example.
function write_overview(  i, n, names) {
    put(".SH FUNCTIONS")
    for (i = 2; i <= pages; i++) {
        n = members[page[i]]
        gsub(/, /, "(3), ", n)
        put(".TP\n\\fB" n "\\fP(3)\n" roff(summary[page[i]]))
    }
    put(".SH CONSTANTS")
    for (i = 1; i <= constants; i++) {
        if (is_note[i]) put((i > 1 ? ".EE\n" : "") ".PP\n" roff(constant[i]) "\n.PP\n.EX")
        else put(verbatim(constant[i]))
    }
    put(".EE\n.SH STATUSES\n" roff(status_note))
    for (i = 1; i <= statuses; i++) put(".TP\n\\fB" status[i] "\\fP (" number[status[i]] ")\n" roff(words[status[i]]))
    put(".SH EXAMPLES\n.EX")
    for (i = 1; i <= programs; i++) put(verbatim(program[i]))
    put(".EE\n.PP\nprints\n.PP\n.EX")
    for (i = 1; i <= prints; i++) put(verbatim(printed[i]))
    put(".EE")
}

function write_see_also(name) {
    put(".SH SEE ALSO")
    if (p == 1) put("\\fBlist_repairs\\fP(1), \\fBpkg\\-config\\fP(1)")
    else put("\\fBraid2d\\fP(3), which has the words, the conventions and the limits")
}
