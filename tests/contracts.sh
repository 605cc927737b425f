#!/bin/bash
# Every public function of a library has a theorem in its crate's proofs/Laws/Single.antt: its contract asks nothing of a caller and leaves one
# answer, with one content of all that is lent to be written (docs/PROMISES.md, "Nothing left free"). That the theorems hold is proved with the crates.
# Here it is held that each function has one, of its own contract and of the whole answer, or of the bytes where the answer is a view of lent ones.
# A function that takes a closure has one that says that it asks no more than a call of the closure does, and leaves one answer where the closure does.
# What is excepted is listed by name, and explained there. The status is 1 if a function has none.
set -eu
cd "$(dirname "${BASH_SOURCE[0]}")/.."

# What reads or writes the outside world: no contract can say what is there.
excepted="stream::list_input stream::list_from stream::input::read_some stream::reason::fail intake::read_full"

# The public functions of a file, one a line: the type that it is a method of, if any, with a dot behind it, the name, what it answers, and `closure` if
# it takes one, or else `plain`.
functions() {
    awk '
        /^impl/ { owner = $0; sub(/^impl(<[^>]*>)? /, "", owner); sub(/[^A-Za-z0-9_].*/, "", owner); owner = owner "." }
        /^}/ { owner = "" }
        /^ *(pub fn|pub extern "C" fn) / { name = $0; sub(/^ *pub (extern "C" )?fn /, "", name); sub(/[<(].*/, "", name); head = ""; open = 1 }
        open { head = head " " $0 }
        open && /\{$/ {
            sort = gsub(/[ &]Fn(Once|Mut)?\([^)]*\)( -> [^ ,>]*)?/, "", head) ? "closure" : "plain"
            answer = "()"
            if (match(head, /\) -> [^ ]*/)) answer = substr(head, RSTART + 5, RLENGTH - 5)
            print owner name "\t" answer "\t" sort
            open = 0
        }
    ' "$1"
}

# Whether a function of a module can be named from outside: the module is public, or it hands the function on, or the type that it is a method of.
is_public() {
    local library=$1 module=$2 name=${3%%.*}
    [ "$module" = lib ] || grep -q "^pub mod $module;\|^pub use crate::$module::$name;" "$library"
}

# The statements of a file's theorems of one answer, one a line. A statement goes to the next line that begins with a name; what stands between is of it,
# but for lines of comment.
statements() {
    awk '
        function close_it() { if (said != "") print said; said = "" }
        /^[ \t]*(--( .*)?)?$/ { next }
        /^pub [a-z0-9_-]+[-_]one : / { close_it(); said = $0; sub(/^[^:]* : /, "", said); next }
        /^[A-Za-z0-9_]/ { close_it(); next }
        said != "" { sub(/^[ \t]*/, " "); said = said $0 }
        END { close_it() }
    ' "$1"
}

# theorem FILE PATH ANSWER SORT: whether the file states it of the function's own contract, which the checker makes of its clauses. Of a function with a
# const parameter it is stated for each number, and of one with a closure for all types of the value, the answer and the closure. Asked is that the types
# outlive the call, as Rust has it of every call, and that the closure may be called (`pre`). Where its answers are one (`post`), so are the function's.
theorem() {
    local file=$1 contract="its.$2.ended (λ M 𝓤. its.$2.clauses)" said each stated path
    stated=$(statements "$file")
    if [ "$4" = closure ]; then
        path=${2//./\\.}
        each="\(T U F : RattleType\) \(f : its\.$path\.F-Fn(Once|Mut)?\.Ghosts T U F\) \(d e : Dict\)"
        each+=" → OneWhere \(its\.$path\.ended T U F f d e\) \(λ M 𝓤\. its\.$path\.clauses T U F f d e\)"
        each+=' \(λ κs a\. \(κs\.0 ⊑ T\.lives\) × \(κs\.1\.0 ⊑ U\.lives\) × \(κs\.1\.1\.0 ⊑ F\.lives\) × f\.pre (a[.0-9]+ \(a[.0-9a-z]+, tt\))\)'
        each+=' \(λ κs a\. \(r s : U\.Denot\) → f\.post \2 r → f\.post \2 s → r ≡ s\)'
        grep -qxE "$each" <<< "$stated"
        return
    fi
    case $3 in '&'*) said="OneBy $contract (λ κs. (λ x. x.now))" ;; *) said="One $contract" ;; esac
    each='(\([a-z]*\) : ℕ) → One (its\.'"$2"'\.ended (number \1)) (λ M 𝓤\. its\.'"$2"'\.clauses (number \1))'
    grep -qxF "$said" <<< "$stated" || grep -qx "$each" <<< "$stated"
}

# means FILE CRATE ANSWER SORT: what the words of a statement mean: the definitions of crate `single`, and the crate's own modules. Where a closure is
# handed in, all else that is named is the toolchain's. Each word comes by the one line that is held here, and the file declares none of its own.
means() {
    local file=$1 crate=$2 word=One line words
    case $3 in '&'*) word=OneBy ;; esac
    [ "$4" = plain ] || word=OneWhere
    words="One OneBy OneWhere"
    grep -qx "use Rattle\.$crate\.specs\.contracts as its" "$file" || return 1
    grep -xE 'use Rattle\.single\.specs\.One\.\{One(, OneBy(, OneWhere, Says)?)?\}' "$file" | grep -qw "$word" || return 1
    if [ "$4" = closure ]; then
        words="$words ◌≡◌ ◌⊑◌ RattleType Dict"
        for line in 'contract\.BorrowLft\.{◌⊑◌}' 'denote\.RattleType\.{RattleType}' 'mir\.Syntax\.{Dict}' 'mathlib\.Core\.Path\.{◌≡◌, refl, sym, ◌∙◌}'; do
            grep -qx "use $line" "$file" || return 1
        done
        ! grep -q '◌×◌' "$file" || return 1
    fi
    for word in $words; do
        [ "$(grep -cE "^ *(pub )?use .*[{ ]$word[,} ]" "$file")" -le 1 ] || return 1
        ! grep -qE "^ *(unfoldable |abbrev |pub |data |record )*$word( |:)" "$file" || return 1
    done
    ! grep -qE '^ *(pub )?(module|open)( |$)|\{-' "$file"
}

wrong=0
proved=0
views=0
exceptions=0
for library in crates/*/src/lib.rt; do
    crate=${library#crates/}
    crate=${crate%%/*}
    laws=crates/$crate/proofs/Laws/Single.antt
    for file in "crates/$crate/src/"*.rt; do
        module=$(basename "$file" .rt)
        path=
        [ "$module" = lib ] || path=$module.
        while IFS=$'\t' read -r name answer sort; do
            is_public "$library" "$module" "$name" || continue
            whole=$crate::${path/./::}${name/./::}
            case " $excepted " in *" $whole "*) exceptions=$((exceptions + 1)); continue ;; esac
            if ! [ -f "$laws" ] || ! means "$laws" "$crate" "$answer" "$sort" || ! theorem "$laws" "$path$name" "$answer" "$sort"; then
                echo "contracts: $whole has no theorem in $laws that its contract leaves one answer" >&2
                wrong=1
                continue
            fi
            proved=$((proved + 1))
            case $answer in '&'*) views=$((views + 1)) ;; esac
        done < <(functions "$file")
    done
done
[ $wrong = 0 ] || exit 1
[ $proved -gt 0 ] || { echo "contracts: no public function was found" >&2; exit 1; }
echo "contracts: $((proved + exceptions)) public functions: $proved have a theorem that their contract leaves one answer, $views of them of a view's bytes," \
    "and $exceptions are excepted"
