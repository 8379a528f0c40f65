#!/bin/sh
# Shows that two misuses of a pre-open book do not compile, each beside the right use, which does.
# A check that was not made here before proves the crates below first, which takes some minutes.
here=$(cd "$(dirname "$0")/.." && pwd) || exit 2
work=$(mktemp -d) || exit 2
trap 'rm -rf "$work"' EXIT
trap 'exit 2' HUP INT TERM

# A copy of the repository's sources with one crate more.
mkdir -p "$work/crates/misuse/src" &&
    (cd "$here" && tar cf - --exclude=out crates crates.txt) | (cd "$work" && tar xf -) || exit 2
echo 'misuse: prices records orders ordered_run lines rules tape auction matching book' >>"$work/crates.txt"

failed=0

# Compiles the text on standard input, and prints it with what the compiler says of it.
compile() { # WHAT
    text=$(cat)
    {
        echo '#![tactic(auto)]'
        echo 'use book::PreOpenBook;'
        echo 'use lines::Line;'
        echo 'use orders::Order;'
        echo 'use orders::PlainOrder;'
        echo "$text"
    } >"$work/crates/misuse/src/lib.rt"
    (cd "$work/crates/misuse" && rt check) >"$work/said" 2>&1
    status=$?
    echo "$1:"
    echo "$text" | sed 's/^/    /'
    grep -E '^(so far: )?(\./)?src/' "$work/said" | grep -F 'error[' | sort -u
}

# The text on standard input must compile: the check comes as far as its proof, which is not asked for here.
accept() { # WHAT
    compile "$1"
    if grep -q '^fn misuse::' "$work/said" && ! grep -qF 'error[' "$work/said"; then echo 'compiled'; else
        cat "$work/said"
        echo 'WRONG: this is the right use, and should compile'
        failed=1
    fi
    echo
}

# The text on standard input must be refused, with that error.
refuse() { # WHAT ERROR
    compile "$1"
    if [ "$status" -eq 1 ] && grep -qF "error[$2]" "$work/said"; then echo 'refused'; else
        echo "WRONG: this is a misuse, and should be refused with $2"
        failed=1
    fi
    echo
}

accept 'A plain order given to a pre-open book' <<'END'
pub fn enter_early<L: Line>(book: &mut PreOpenBook<'_, L>, plain: PlainOrder) -> bool {
    book.enter(plain).is_ok()
}
END

refuse 'A market order given to a pre-open book' mismatched-types <<'END'
pub fn enter_early<L: Line>(book: &mut PreOpenBook<'_, L>, market: Order) -> bool {
    book.enter(market).is_ok()
}
END

accept 'A withdrawal from a pre-open book, which is called afterwards' <<'END'
pub fn withdraw_and_call<L: Line>(book: PreOpenBook<'_, L>) -> bool {
    let mut early = book;
    let done = early.withdraw(1).is_ok();
    let _ = early.call();
    done
}
END

refuse 'A withdrawal from a pre-open book that was called' borrow-e0382 <<'END'
pub fn call_and_withdraw<L: Line>(book: PreOpenBook<'_, L>) -> bool {
    let mut early = book;
    let _ = early.call();
    early.withdraw(1).is_ok()
}
END

exit "$failed"
