#!/bin/sh
# No token outlives the files that it is lent from: functions that would let one are refused by the compiler, with the words kept
# here, and the same with a set that is lent by the caller is proved.
#
#   sh tests/outlives.sh
#
# The proved libraries are those of crates/NAME/out/rlib, as `rt ci` leaves them, or of LIBRARIES, a folder with NAME.rlib for each.
# The last line counts the checks.
cd "$(dirname "$0")/.." || exit 1
kit=${KIT:-$(cd "$(dirname "$(readlink -f "$(command -v rt)")")/.." && pwd)}
room=$(mktemp -d) || exit 1
trap 'rm -rf "$room"' EXIT
trap 'exit 1' HUP INT TERM

. tests/harness/verdict.sh

# library NAME: where its proved library lies.
library() { echo "${LIBRARIES:-$PWD/crates/$1/out/rlib}/$1.rlib"; }

set -- --extern "std=$kit/rlibs/std.rlib" -L "dependency=$kit/rlibs"
for name in srcset phases pp; do set -- "$@" --extern "$name=$(library $name)"; done
for name in srcset phases macros macros_substitution pp_expand ctypes lexer pp_cond pp; do
    [ -e "$(library $name)" ] || fail "there is no library $(library $name)"
    set -- "$@" -L "dependency=$(dirname "$(library $name)")"
done

# check NAME: what the compiler says of the crate whose source is the standard input, and its status.
check() {
    mkdir -p "$room/$1/src"
    { printf '//! Tokens and their files.\n#![tactic(auto)]\n\nuse phases::PpToken;\nuse pp::Pp;\nuse srcset::{FileSet, Names};\nuse std::alloc::Global;\n\n'; cat; } >"$room/$1/src/lib.rt"
    name=$1
    shift
    (cd "$room/$name" && "$kit/bin/rattle" check --crate-name outlives src/lib.rt "$@" --antt-project "$kit/rattle/logic/antt-project.json" --logic-built "$kit/logic_built" --jobs 1) >"$room/$name/said" 2>&1 </dev/null
    status=$?
}

# refused WORDS: the check ended with these words about the source, and no others.
refused() {
    grep -o 'error.*: note:' "$room/$name/said" | sed 's/: note:$//' >"$room/$name/errors"
    if [ $status = 1 ] && printf '%s\n' "$1" | cmp -s - "$room/$name/errors"; then
        pass
    else
        fail "$name: status $status: $(head -n 3 "$room/$name/said")"
    fi
}

# The first token of a set of one's own is not returned.
check returned "$@" <<'END'
/// The first token.
pub fn first<'a>(alloc: Global, names: &mut Names) -> Option<PpToken<'a>> {
    let set = FileSet::new(alloc);
    let Ok(mut pp) = Pp::new(alloc, &set, names, "a.c") else {
        return None;
    };
    match pp.next(alloc, names) {
        Ok(token) => token,
        Err(_) => None,
    }
}
END
refused 'error[borrow-e0515]: cannot return value referencing local variable `set`'

# It is not kept beyond the set.
first='fn first<'"'"'a>(alloc: Global, set: &'"'"'a FileSet, names: &mut Names) -> Option<PpToken<'"'"'a>> {
    let Ok(mut pp) = Pp::new(alloc, set, names, "a.c") else {
        return None;
    };
    match pp.next(alloc, names) {
        Ok(token) => token,
        Err(_) => None,
    }
}'
check kept "$@" <<END
$first

/// The length of the first token.
pub fn length(alloc: Global, names: &mut Names) -> usize {
    let mut kept = None;
    {
        let set = FileSet::new(alloc);
        kept = first(alloc, &set, names);
    }
    match kept {
        Some(token) => token.spelling().len(),
        None => 0,
    }
}
END
refused 'error[borrow-e0597]: `set` does not live long enough'

# The set does not change while it is there.
check changed "$@" <<END
$first

/// The length of the first token.
pub fn length(alloc: Global, set: &mut FileSet, names: &mut Names) -> usize {
    let kept = first(alloc, &*set, names);
    let _ = set.add("b.c", Vec::new(alloc));
    match kept {
        Some(token) => token.spelling().len(),
        None => 0,
    }
}
END
refused 'error[borrow-e0502]: cannot borrow `*set` as mutable because it is also borrowed as immutable'

# With a set that the caller lends it is returned.
check lent "$@" <<END
/// The first token.
pub $first
END
case $status:$(tail -n 1 "$room/lent/said") in
    0:logic=proved*) pass ;;
    *) fail "lent: status $status: $(head -n 3 "$room/lent/said")" ;;
esac

verdict
