#!/usr/bin/env bash
# Backquotes in single quotes are the compiler's.
# shellcheck disable=SC2016
# An answer can't be made outside tpcc_book, nor be given another purse than the one that it was served for. The
# compiler has to refuse a crate that builds an answer, or takes a served one apart and builds it anew with another
# purse, for its private fields and nothing else; and a crate that says anew how a purse is carried, so as to carry
# another one, since it declares no purse. It has to take the same crate without each of these. No must-fail edit can
# show this, since the refusal comes before the prover. Works in a scratch copy and leaves the repository as it is.
set -u -o pipefail
top=$(cd "$(dirname "$0")/.." && pwd)
export PATH="/opt/rattle/bin:$PATH"
scratch=$(mktemp -d)
trap 'rm -rf "$scratch"' EXIT

mkdir "$scratch/crates"
cp "$top/crates.txt" "$top/HANDLES" "$scratch/"
for crate in "$top"/crates/*; do
    mkdir "$scratch/crates/$(basename "$crate")"
    find "$crate" -mindepth 1 -maxdepth 1 ! -name out -exec cp -r {} "$scratch/crates/$(basename "$crate")/" \;
done
git -C "$scratch" init -q
echo "seal_probe: tpcc_book tpcc_rows" >> "$scratch/crates.txt"
probe="$scratch/crates/seal_probe"
mkdir -p "$probe/src"

# What the honest probe has in the three places where another has something else.
makes_none='let _ = (request, refusal, purse); None'
keeps_it='let _ = other; answer'
own_type='Bag<N>'

# Writes the probe with these two bodies and this type that carries a purse, and compiles it.
compile() {
    cat > "$probe/src/lib.rt" <<END
//! Whether an answer can be made outside its crate, or joined with another purse.
#![tactic(auto)]

use tpcc_book::{Answer, CarriesPurse, Naming, Purse};
use tpcc_rows::{Refusal, Request};

/// An answer for a request and a purse.
pub fn answered<P: Drop>(request: Request, refusal: Refusal, purse: P) -> Option<Answer<P>> {
    $1
}

/// A served answer, where another purse of its book is at hand.
pub fn joined<N: Naming>(answer: Answer<Purse<N>>, other: Purse<N>) -> Answer<Purse<N>> {
    $2
}

/// A purse in a type of this crate.
#[derive(Drop)]
pub struct Bag<N: Naming> {
    /// What is in it.
    pub purse: Purse<N>,
}

impl<N: Naming> CarriesPurse for $3 {
    type Purse = Purse<N>;

    type Rest = Self;

    ghost fits = { λ purse other. Unit {0} };

    ghost carrying = { λ purse other. other };

    ghost purse_in = { λ bag. bag.purse };

    fn carry(purse: Purse<N>, other: Self) -> Self {
        let _ = purse;
        other
    }
}

#[test]
fn nothing(rt: HostRuntime) {
    let _ = rt;
}
END
    (cd "$probe" && rt try --test) > "$scratch/log" 2>&1
}

fail() {
    echo "seal: $1"
    cat "$scratch/log"
    exit 1
}

# Fails unless what was compiled last was refused for this error, with this text, and for no other.
for_nothing_but() {
    if grep 'error' "$scratch/log" | grep -qv "error\[$1\]"; then
        fail "$3 was refused for something else"
    fi
    grep -q "error\[$1\]: $2" "$scratch/log" || fail "$3 was not refused for that"
}

echo "seal: a crate that makes no answer, one that makes one up, one that joins one with another purse, and one that carries another"
compile "$makes_none" "$keeps_it" "$own_type" || fail "the honest probe was refused"
if compile 'Some(Answer { turned: tpcc_book::Turned { request, outcome: Err(refusal), place: None }, purse })' "$keeps_it" "$own_type"; then
    fail "an answer was made outside its crate"
fi
for_nothing_but private-field 'field `turned` of struct `Answer` is private' "the made-up answer"
if compile "$makes_none" 'let (request, outcome, place, _) = answer.into_parts(); Answer { turned: tpcc_book::Turned { request, outcome, place }, purse: other }' "$own_type"; then
    fail "a served answer was joined with another purse"
fi
for_nothing_but private-field 'field `purse` of struct `Answer` is private' "the joined answer"
if compile "$makes_none" 'answer.carried_with::<Purse<N>>(other)' 'Purse<N>'; then
    fail "a served answer was carried on with another purse"
fi
for_nothing_but orphan-impl "an impl of another crate's trait must name a type of this crate" "the carried answer"
echo "seal: 4 passed, 0 failed"
