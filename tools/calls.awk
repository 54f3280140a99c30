# What tools/calls writes: reads the names of the definitions, then calls.txt.
FNR == 1 { part++ }
part == 1 { home[$1] = $2; next }
/^#/ || /^$/ { next }
/^[0-9]+ / {
    k = ++calls
    kind[k] = $1
    name[k] = substr($0, index($0, " ") + 1)
    next
}
$1 == "function" { at[k] = $2; fn[k] = $2; sub(/.*::/, "", fn[k]); next }
$1 == "call" || $1 == "query" {
    variant[k] = $2; sub(/\(.*/, "", variant[k])
    if ($2 ~ /\(/) { reader[k] = $2; sub(/.*\(/, "", reader[k]); sub(/\)/, "", reader[k]) }
    if ($1 == "query") query[++queries] = k
    asks[k] = $1 == "query"
    next
}
$1 == "refusal" { refusals++; number[refusals] = $2; refused[refusals] = $3; because[refusals] = substr($0, index($0, $3) + length($3) + 1); next }
$1 == "slices" { slices[k] = $2; next }
$1 == "answer" { answer[k] = $2; value[k] = $3; next }
{ text[k, $1] = substr($0, index($0, " ") + 1) }

function capital(s) { return toupper(substr(s, 1, 1)) substr(s, 2) }
function camel(s,    parts, n, i, r) {
    n = split(s, parts, "_")
    for (i = 1; i <= n; i++) r = r capital(parts[i])
    return r
}
# what an answer gives: a number, a flag or a struct
function given(a) {
    if (a == "byte") return "ℕ"
    if (a == "flag") return "Bool"
    if (a == "claim" || a == "status") return "VramDma" camel(a)
    return a == "object_dma" ? "ObjectDmaTally" : camel(a)
}
function given_uses(    i, list, n, a) {
    n = split(answers_of(""), list, " ")
    for (i = 1; i <= n; i++) {
        a = list[i]
        if (a == "byte" || a == "flag") continue
        print "use Rattle." (a == "claim" ? "console" : a == "status" ? "transfer" : "answers") ".specs.declared." given(a) ".{" given(a) "}" > to
    }
}
# what a query asks for, and what it answers
function asks_for(k) { return "(" value[k] " s)" }
function defined(k) { return "asked s " asks_for(k) }
function out(file) { to = made file; return to }
function folder(file) { sub(/\/[^\/]*$/, "", file); system("mkdir -p '" made file "'") }
# use lines for these names, a line for each module that defines some
function uses(names,    list, n, i, m, order, k, by, seen) {
    n = split(names, list, " ")
    for (i = 1; i <= n; i++) {
        if (list[i] in seen) continue
        seen[list[i]]
        if (!(list[i] in home)) { print "calls: " list[i] ": no definition" > "/dev/stderr"; exit 1 }
        m = home[list[i]]
        if (!(m in by)) { order[++k] = m; by[m] = list[i] } else by[m] = by[m] ", " list[i]
    }
    for (i = 1; i <= k; i++) use_lines(order[i], by[order[i]])
}
# in lines that a reader sees whole
function use_lines(module, names,    list, n, i, line) {
    n = split(names, list, ", ")
    for (i = 1; i <= n; i++) {
        if (line != "" && length("use " module ".{" line ", " list[i] "}") > 140) { print "use " module ".{" line "}" > to; line = "" }
        line = line (line == "" ? "" : ", ") list[i]
    }
    print "use " module ".{" line "}" > to
}
function answers_of(suffix,    i, r, seen) {
    for (i = 1; i <= queries; i++) if (!(answer[query[i]] in seen)) { seen[answer[query[i]]]; r = r " " answer[query[i]] suffix }
    return substr(r, 2)
}
function values_of(    i, r) {
    for (i = 1; i <= queries; i++) if (value[query[i]] != "") r = r " " value[query[i]]
    return r
}

function query_type(    i) {
    folder("crates/call/src/query.rt"); out("crates/call/src/query.rt")
    print "// What is asked of the state and changes nothing. Written by tools/calls from calls.txt." > to
    print "#[derive(Clone, Copy)]" > to
    print "pub enum Query {" > to
    for (i = 1; i <= queries; i++) print "    " variant[query[i]] "," > to
    print "}" > to
    close(to)
}

function ask_code(    i, k) {
    folder("crates/ask/src/lib.rt"); out("crates/ask/src/lib.rt")
    print "// Every query through one function. Written by tools/calls from calls.txt." > to
    print "#![tactic(auto)]" > to
    print "" > to
    print "ghost use Rattle.std.specs.Prelude.{◌≡◌};" > to
    print "ghost use Rattle.told.specs.Told.{told_of};" > to
    print "ghost use Rattle.ask.specs.Ask.{asked_of};" > to
    print "" > to
    print "use call::query::Query;" > to
    print "use console::Cgb;" > to
    print "use told::Told;" > to
    print "" > to
    print "#[tactic(auto, unfolding(crate::specs::Ask::asked_of))]" > to
    print "pub fn ask(state: Cgb, query: Query) -> Told" > to
    print "    ensures { result ≡ told_of (asked_of state query) }" > to
    print "{" > to
    print "    match query {" > to
    for (i = 1; i <= queries; i++) { k = query[i]; print "        Query::" variant[k] " => told::of(" at[k] "(state))," > to }
    print "    }" > to
    print "}" > to
    close(to)
}

function ask_spec(    i, k) {
    folder("crates/ask/specs/Ask.antt"); out("crates/ask/specs/Ask.antt")
    print "-- What each query says, by the definition that its contract cites. Written by tools/calls from calls.txt." > to
    print "use Rattle.console.specs.declared.Cgb.{Cgb}" > to
    uses("Said says asked " answers_of("_values") values_of())
    print "use Rattle.call.specs.declared.query.Query.{Query}" > to
    print "use Rattle.call.specs.declared.query.Query.TheVariants as query" > to
    print "" > to
    print "unfoldable pub asked_of : Cgb → Query → Said" > to
    for (i = 1; i <= queries; i++) { k = query[i]; print "asked_of s query." variant[k] " = says " answer[k] "_values (" defined(k) ")" > to }
    close(to)
    out("crates/ask/specs/Lib.antt")
    print "pub mod Ask" > to
    close(to)
}

# of one query: 7 or its values
function said_by(k) { return "asked_told " answer[k] "_values s " asks_for(k) }

function ask_law(    i, k) {
    folder("crates/ask/proofs/Asked.antt"); out("crates/ask/proofs/Asked.antt")
    print "-- Every query says 7, or its values where the state is one that a run leaves. Assumes nothing. Written by tools/calls" > to
    print "-- from calls.txt." > to
    print "use mathlib.Core.Path.{◌≡◌}" > to
    print "use Rattle.console.specs.declared.Cgb.{Cgb}" > to
    uses("saying state_refusal query_said " answers_of("_values") values_of())
    print "use Rattle.answers.proofs.Queries.{asked_told}" > to
    print "use Rattle.told.proofs.Says.{says_own}" > to
    print "use Rattle.call.specs.declared.query.Query.{Query}" > to
    print "use Rattle.call.specs.declared.query.Query.TheVariants as query" > to
    print "use Rattle.ask.specs.Ask.{asked_of}" > to
    print "" > to
    print "module _ (s : Cgb) where" > to
    print "  pub asked_said : (q : Query) → asked_of s q ≡ saying (state_refusal s) (asked_of s q).values" > to
    print "  unfolding asked_of query_said" > to
    for (i = 1; i <= queries; i++) {
        k = query[i]
        print "  asked_said query." variant[k] " = says_own _ _ _ (" said_by(k) ")" > to
    }
    close(to)
    out("crates/ask/proofs/Lib.antt")
    print "pub mod Asked" > to
    close(to)
}

function kind_code(    i, k) {
    folder("crates/record/src/kind.rt"); out("crates/record/src/kind.rt")
    print "// The kinds of the calls that are lent no memory. Written by tools/calls from calls.txt. A number of the record's alone, so it is" > to
    print "// a match here and no TryFrom of `Query`: that would need an error type that is dropped." > to
    print "ghost use Rattle.std.specs.Prelude.{◌≡◌};" > to
    print "ghost use Rattle.record.specs.Kind.{plain_of, query_of, query_kind};" > to
    print "" > to
    print "use crate::input;" > to
    print "use call::PlainCall;" > to
    print "use call::query::Query;" > to
    print "" > to
    print "#[tactic(auto, unfolding(crate::specs::Kind::query_kind))]" > to
    print "fn query(kind: u8) -> Option<Query>" > to
    print "    ensures { result ≡ query_kind kind }" > to
    print "{" > to
    print "    match kind {" > to
    for (i = 1; i <= queries; i++) print "        " kind[query[i]] " => Some(Query::" variant[query[i]] ")," > to
    print "        _ => None," > to
    print "    }" > to
    print "}" > to
    print "" > to
    print "#[tactic(auto, unfolding(crate::specs::Kind::plain_of))]" > to
    print "pub fn plain(bytes: [u8; 16]) -> Option<PlainCall>" > to
    print "    ensures { result ≡ plain_of bytes }" > to
    print "{" > to
    print "    match bytes[0] {" > to
    for (k = 1; k <= calls; k++) {
        if (!plain(k)) continue
        print "        " kind[k] " => Some(PlainCall::" variant[k] (reader[k] == "" ? "" : "(input::" reader[k] "(bytes))") ")," > to
    }
    print "        kind => query(kind).map(PlainCall::Query)," > to
    print "    }" > to
    print "}" > to
    close(to)
}
# neither a query nor lent memory
function plain(k) { return !asks[k] && !slices[k] }

function kind_spec(    i, k, last, names, seen) {
    folder("crates/record/specs/Kind.antt"); out("crates/record/specs/Kind.antt")
    print "-- The kinds of the calls that are lent no memory: byte 0 of a record. Written by tools/calls from calls.txt." > to
    print "use Rattle.std.specs.Prelude.{ℕ, Option, Some, None, List, [], ◌∷◌}" > to
    print "use Rattle.arithmetic.specs.Number.{byte_at}" > to
    print "use Rattle.table.specs.Table.{Entry, ◌⟼◌, look}" > to
    print "use Rattle.call.specs.declared.PlainCall.{PlainCall}" > to
    print "use Rattle.call.specs.declared.PlainCall.TheVariants as plain" > to
    print "use Rattle.call.specs.declared.query.Query.{Query}" > to
    print "use Rattle.call.specs.declared.query.Query.TheVariants as query" > to
    for (k = 1; k <= calls; k++) if (plain(k) && reader[k] != "" && !(reader[k] in seen)) { seen[reader[k]]; names = names ", " reader[k] "_of" }
    print "use Rattle.record.specs.Input.{" substr(names, 3) "}" > to
    print "" > to
    print "abbrev pub query_kinds : List (Entry (Option Query))" > to
    print "query_kinds =" > to
    for (i = 1; i <= queries; i++) print "    (" kind[query[i]] " ⟼ Some query." variant[query[i]] ")" (i < queries ? " ∷" : " ∷ []") > to
    print "" > to
    print "unfoldable pub query_kind : ℕ → Option Query" > to
    print "query_kind kind = look query_kinds None kind" > to
    print "" > to
    print "abbrev pub query_of : Option Query → Option PlainCall" > to
    print "query_of (Some q) = Some (plain.Query q)" > to
    print "query_of None = None" > to
    print "" > to
    print "abbrev pub plain_kinds : List ℕ → List (Entry (Option PlainCall))" > to
    print "plain_kinds bytes =" > to
    for (k = 1; k <= calls; k++) if (plain(k)) last = k
    for (k = 1; k <= calls; k++) if (plain(k)) {
        print "    (" kind[k] " ⟼ Some " (reader[k] == "" ? "plain." variant[k] : "(plain." variant[k] " (" reader[k] "_of bytes))") ")" (k < last ? " ∷" : " ∷ []") > to
    }
    print "" > to
    print "unfoldable pub plain_of : List ℕ → Option PlainCall" > to
    print "plain_of bytes = look (plain_kinds bytes) (query_of (query_kind (byte_at bytes 0))) (byte_at bytes 0)" > to
    close(to)
}

# the module of a public function's contract
function contract(k,    path, n, parts, i) {
    n = split(at[k], parts, "::")
    path = "Rattle." parts[1] ".proofs"
    for (i = 2; i <= n; i++) path = path "." parts[i]
    return path
}

function functions_spec(    k, f) {
    folder("crates/ledger/specs/Functions.antt"); out("crates/ledger/specs/Functions.antt")
    print "-- Every public function of the library that takes the state, by its own contract. Written by tools/calls from calls.txt." > to
    print "use Rattle.ledger.specs.Function.{Function}" > to
    for (k = 1; k <= calls; k++) {
        print "use " contract(k) ".Kinds as " fn[k] "_kinds" > to
        print "use " contract(k) ".Reads as " fn[k] "_reads" > to
    }
    for (k = 1; k <= calls; k++) {
        f = fn[k]
        print "" > to
        print "abbrev pub " f " : Function" > to
        print f " =" > to
        print "    record {" > to
        print "      lifetimes = " (slices[k] + 0) ";" > to
        print "      parameters = " f "_kinds.ps;" > to
        print "      result = " f "_kinds.r;" > to
        print "      tells = " f "_reads.Learnt;" > to
        print "    }" > to
    }
    close(to)
}

function answered_spec(    i, k, n, list, names) {
    out("crates/ledger/specs/Answered.antt")
    print "-- What each query may answer at the state s, by its own contract. Written by tools/calls from calls.txt." > to
    print "use Rattle.console.specs.declared.Cgb.{Cgb}" > to
    print "use Rattle.std.specs.Prelude.{ℕ, Bool, Result}" > to
    uses("Said says " answers_of("_values"))
    given_uses()
    print "use Rattle.console.specs.declared.refusal.Refusal.{Refusal}" > to
    print "use Rattle.call.specs.declared.query.Query.{Query}" > to
    print "use Rattle.call.specs.declared.query.Query.TheVariants as query" > to
    print "use Rattle.ledger.specs.Function.{Gives}" > to
    for (i = 1; i <= queries; i++) names = names ", " fn[query[i]]
    use_lines("Rattle.ledger.specs.Functions", substr(names, 3))
    print "" > to
    print "pub data Answered (s : Cgb) : Query → Said → Type 0 where" > to
    for (i = 1; i <= queries; i++) {
        k = query[i]
        print "  by_" fn[k] " :" > to
        print "      (r : Result " given(answer[k]) " Refusal) → Gives " fn[k] " tt (s, tt) r → Answered s query." variant[k] " (says " answer[k] "_values r)" > to
    }
    close(to)
}

function answered_proof(    i, k, n, list) {
    folder("crates/ledger/proofs/Answered.antt"); out("crates/ledger/proofs/Answered.antt")
    print "-- What a query may answer is what its definition says, and it may answer that. Assumes nothing. Written by tools/calls from" > to
    print "-- calls.txt." > to
    print "use mathlib.Core.Path.{◌≡◌, refl, ap}" > to
    print "use Rattle.console.specs.declared.Cgb.{Cgb}" > to
    uses("Said says asked " answers_of("_values") values_of())
    print "use Rattle.answers.proofs.Queries.{asked_told}" > to
    print "use Rattle.ask.specs.Ask.{asked_of}" > to
    print "use Rattle.call.specs.declared.query.Query.{Query}" > to
    print "use Rattle.call.specs.declared.query.Query.TheVariants as query" > to
    print "use Rattle.ledger.specs.Answered as by" > to
    print "use Rattle.ledger.specs.Answered.{Answered}" > to
    print "" > to
    print "pub answered_is : {s : Cgb} {q : Query} {said : Said} → Answered s q said → said ≡ asked_of s q" > to
    print "unfolding asked_of" > to
    for (i = 1; i <= queries; i++) { k = query[i]; print "answered_is (by.by_" fn[k] " r m) = ap (says " answer[k] "_values) m.told.is" > to }
    print "" > to
    print "module _ (s : Cgb) where" > to
    print "  pub some_answer : (q : Query) → Answered s q (asked_of s q)" > to
    print "  unfolding asked_of" > to
    for (i = 1; i <= queries; i++) {
        k = query[i]
        print "  some_answer query." variant[k] " =" > to
        print "      by.by_" fn[k] " (" defined(k) ")" > to
        print "      (record { exit = (s, tt); told = record { is = refl; says = " said_by(k) " } })" > to
    }
    close(to)
}

function constant(k,    n) { n = toupper(name[k]); gsub(/[ -]/, "_", n); return n }

# a comment of the documentation
function rust_doc(indent, words) { wrapped(indent "/// ", indent "/// ", words) }

function rust_kinds(    k, inputs) {
    folder("rust/src/kind.rs"); out("rust/src/kind.rs")
    print "//! The kinds of call: byte 0 of a record. Of each, the bytes of the record that hold its inputs, and the values of its" > to
    print "//! answer. Written by tools/calls from calls.txt." > to
    for (k = 1; k <= calls; k++) {
        print "" > to
        inputs = text[k, "layout"] == "" ? "No inputs" : "Inputs by byte: " text[k, "layout"]
        rust_doc("", capital(name[k]) " (`" fn[k] "`). " inputs (inputs ~ /\?$/ ? "" : ".") " Values: " text[k, "values"] ".")
        print "pub const " constant(k) ": u8 = " kind[k] ";" > to
    }
    print "" > to
    rust_doc("", "The last kind: those above it are of no call.")
    print "pub const LAST: u8 = " kind[calls] ";" > to
    close(to)
}

function rust_queries(    i, k) {
    out("rust/src/query.rs")
    print "//! The queries: each leaves the state as it is, and 7 alone refuses it. Written by tools/calls from calls.txt." > to
    print "use crate::record::Record;" > to
    print "use crate::{Cgb, Claim, ObjectDma, Refusal, Status, Tally, kind};" > to
    print "" > to
    print "impl Cgb {" > to
    for (i = 1; i <= queries; i++) {
        k = query[i]
        if (i > 1) print "" > to
        if (text[k, "says"] == "") { print "calls: " name[k] " says nothing" > "/dev/stderr"; exit 1 }
        rust_doc("    ", text[k, "says"])
        if (answer[k] == "flag" || answer[k] == "byte") {
            print "    pub fn " fn[k] "(&self) -> Result<" (answer[k] == "flag" ? "bool" : "u8") ", Refusal> {" > to
            print "        self.ask_" answer[k] "(kind::" constant(k) ")" > to
        } else {
            print "    pub fn " fn[k] "(&self) -> Result<" camel(answer[k]) ", Refusal> {" > to
            print "        Ok(self.ask(Record::of(kind::" constant(k) "))?." answer[k] "())" > to
        }
        print "    }" > to
    }
    print "}" > to
    close(to)
}

# words from the column on, to the width, in lines that begin with the lead
function wrapped(first, lead, words,    n, list, i, line) {
    n = split(words, list, " ")
    line = first
    for (i = 1; i <= n; i++) {
        if (length(line " " list[i]) > 118) { print line > to; line = lead }
        line = line (line == lead || line == first ? "" : " ") list[i]
    }
    print line > to
}
function header_kinds(    k) {
    out("../blocks/kinds")
    for (k = 1; k <= calls; k++) print "    CGB_KIND_" constant(k) " = " kind[k] "," > to
    print "    CGB_KIND_LAST = " kind[calls] > to
    close(to)
}
function header_table(    k, width, lead, first) {
    out("../blocks/table")
    for (k = 1; k <= calls; k++) if (length(name[k]) >= width) width = length(name[k]) + 1
    lead = sprintf(" *%" width + 6 "s", "")
    for (k = 1; k <= calls; k++) {
        first = sprintf(" *  %2d %-" width "s ", kind[k], name[k])
        if (text[k, "layout"] != "") { wrapped(first, lead, text[k, "layout"]); first = lead }
        wrapped(first, lead, "-> " text[k, "values"])
    }
    close(to)
}
function header_refusals(    i) {
    out("../blocks/refusals")
    for (i = 1; i <= refusals; i++) printf "    %-22s = %d%s /* %s */\n", "CGB_REFUSED_" refused[i], number[i], i == refusals ? " " : ",", because[i] > to
    close(to)
    out("../blocks/texts")
    for (i = 1; i <= refusals; i++) print "    case CGB_REFUSED_" refused[i] ": return \"" because[i] "\";" > to
    close(to)
}
function inputs(k) { return text[k, "layout"] != "" }
# the function of each call that has no inputs
function header_calls(    k) {
    out("../blocks/calls")
    for (k = 1; k <= calls; k++) {
        if (inputs(k)) continue
        wrapped("/* ", " * ", name[k] " -> " text[k, "values"] (text[k, "says"] == "" ? "" : ". " text[k, "says"]) " */")
        print "static inline uint8_t cgb_" tolower(constant(k)) "(uint8_t state[CGB_STATE_BYTES], uint8_t answer[CGB_ANSWER_BYTES])" > to
        print "{" > to
        print "    return cgb_alone(state, answer, CGB_KIND_" constant(k) ", 0, 0, 0, 0);" > to
        print "}" > to
    }
    close(to)
}
function library_refusals(    i) {
    out("../blocks/refused")
    print "| number | in C | what `cgb_refusal_text` says |" > to
    print "|---|---|---|" > to
    for (i = 1; i <= refusals; i++) print row(number[i]) row("`CGB_REFUSED_" refused[i] "`") row(because[i]) "|" > to
    close(to)
}
function library_table(    k) {
    out("../blocks/rows")
    print "| kind | in C | in Rust | inputs | answer | refusals after 7 |" > to
    print "|---|---|---|---|---|---|" > to
    for (k = 1; k <= calls; k++)
        print row(kind[k] " " name[k]) row("`cgb_" tolower(constant(k)) "`") row("`" fn[k] "`") row(text[k, "inputs"]) row(text[k, "gives"]) row(text[k, "refusals"]) "|" > to
    close(to)
}
function row(cell) { return "|" (cell == "" ? " " : " " cell " ") }

# what is written by hand: a line for each, which tools/calls looks for
function by_hand(    k) {
    out("by-hand")
    for (k = 1; k <= calls; k++) print fn[k], at[k], asks[k] + 0, slices[k] + 0, constant(k), kind[k], variant[k], tolower(constant(k)), !inputs(k) > to
    close(to)
}

END {
    query_type()
    rust_kinds()
    rust_queries()
    header_kinds()
    header_table()
    header_refusals()
    header_calls()
    library_table()
    library_refusals()
    by_hand()
    functions_spec()
    answered_spec()
    answered_proof()
    ask_code()
    ask_spec()
    ask_law()
    kind_code()
    kind_spec()
}
