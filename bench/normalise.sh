#!/usr/bin/env bash
# Measures `normalise` of nrca_normal on terms that no script of the allowed length makes: chains of lets, each of a sum of the
# variable before. Prints for each chain its lets, the rewritings, the processor seconds and the peak memory. Makes a small
# repository of its own in a temporary folder; run it from anywhere.
#
# - `once N`: N lets whose variable is used once. What each binds becomes a number, which is put in. The time grows with the
#   square of N, since each is put in by a walk over the lets that are left.
# - `deep N`: 50 lets of a sum of the variable before and N numbers.
set -eu
. "$(dirname "$0")/crates.sh"
begin nrca_normal nrca_ranges nrca_term aql_ty aql_value anyhow
cat > "$work/crates/measure/specs/Lib.antt" <<'MEASURE'
pub mod Chains
MEASURE
cat > "$work/crates/measure/specs/Chains.antt" <<'MEASURE'
-- Terms that are numbers where the innermost variable is one.
use Rattle.std.proofs.Common.{List, [], ◌∷◌}
use Rattle.aql_ty.specs.Types.{Ty, natural}
use Rattle.nrca_term.specs.Term.{Term}
use Rattle.nrca_term.specs.Typing.{ctyped, instances}

-- the term is a number, whatever variables there are behind the innermost one
unfoldable pub IsSum : Term → Type 0
IsSum t = (env : List Ty) → ctyped (instances []) (natural ∷ env) t natural
MEASURE
cat > "$work/crates/measure/proofs/Lib.antt" <<'MEASURE'
pub mod Typing
MEASURE
cat > "$work/crates/measure/proofs/Typing.antt" <<'MEASURE'
-- What the chains are made of is typed.
use Rattle.std.proofs.Common.{◌≡◌, ℕ, [], ◌∷◌, Box, Global, refl, sym, subst}
use Rattle.aql_value.specs.declared.ops.ArithOp.{ArithOp}
use Rattle.aql_ty.specs.Types.{natural}
use Rattle.nrca_term.specs.declared.term.Core.TheVariants.{Var, Nat, Arith, Let}
use Rattle.nrca_term.specs.declared.term.Core.{Core}
use Rattle.nrca_term.specs.Term.{Term}
use Rattle.nrca_term.specs.Nodes.{variable, number, arith_term, let_term}
use Rattle.nrca_term.specs.Typing.{IsTyped, arg}
use Rattle.nrca_term.specs.View.{term_of}
use Rattle.nrca_term.specs.Laws.Equations.{term_of-Var, term_of-Nat, term_of-Arith, term_of-Let}
use Rattle.measure.specs.Chains.{IsSum}

variable-sum : IsSum (variable 0)
unfolding IsSum
variable-sum = λ env. (tt, [], (refl, refl), refl)

number-sum : (n : ℕ) → IsSum (number n)
unfolding IsSum
number-sum n = λ env. (tt, [], ([], refl, (refl, refl)), refl)

arith-sum : (op : ArithOp) (a b : Term) → IsSum a → IsSum b → IsSum (arith_term op a b)
unfolding IsSum
arith-sum op a b h k = λ env. (tt, arg [] natural ∷ arg [] natural ∷ [], (natural ∷ natural ∷ [], refl, (refl, refl)),
    (arg [] natural, arg [] natural ∷ [], refl, refl, h env, (arg [] natural, [], refl, refl, k env, refl)))

let-sum : (a b : Term) → IsSum a → IsSum b → IsSum (let_term a b)
unfolding IsSum
let-sum a b h k = λ env. (tt, arg [] natural ∷ arg (natural ∷ []) natural ∷ [], (natural, refl),
    (arg [] natural, arg (natural ∷ []) natural ∷ [], refl, refl, h env, (arg (natural ∷ []) natural, [], refl, refl, k (natural ∷ env), refl)))

pub sum-Var : (t : Core) → t ≡ Var 0 → IsSum (term_of t)
sum-Var t e = subst (λ x. IsSum (term_of x)) (sym e) (subst IsSum (sym (term_of-Var 0)) variable-sum)

pub sum-Nat : (n : ℕ) → IsSum (term_of (Nat n))
sum-Nat n = subst IsSum (sym (term_of-Nat n)) (number-sum n)

pub sum-Arith : (op : ArithOp) (a b : Box Core Global) → IsSum (term_of a.value) → IsSum (term_of b.value) → IsSum (term_of (Arith op a b))
sum-Arith op a b h k = subst IsSum (sym (term_of-Arith op a b)) (arith-sum op (term_of a.value) (term_of b.value) h k)

pub sum-Let : (a b : Box Core Global) → IsSum (term_of a.value) → IsSum (term_of b.value) → IsSum (term_of (Let a b))
sum-Let a b h k = subst IsSum (sym (term_of-Let a b)) (let-sum (term_of a.value) (term_of b.value) h k)

-- the whole: a let of a number around a sum is a closed typed term
closed-let : (n : ℕ) (b : Term) → IsSum b → IsTyped (let_term (number n) b)
unfolding IsSum
closed-let n b k = ([], natural, (tt, arg [] natural ∷ arg (natural ∷ []) natural ∷ [], (natural, refl),
    (arg [] natural, arg (natural ∷ []) natural ∷ [], refl, refl, (tt, [], ([], refl, (refl, refl)), refl), (arg (natural ∷ []) natural, [], refl, refl, k [], refl))))

pub typed-Let : (n : ℕ) (a b : Box Core Global) → a.value ≡ Nat n → IsSum (term_of b.value) → IsTyped (term_of (Let a b))
typed-Let n a b e k =
    subst IsTyped (sym (term_of-Let a b)) (subst (λ x. IsTyped (let_term (term_of x) (term_of b.value))) (sym e) (subst (λ x. IsTyped (let_term x (term_of b.value))) (sym (term_of-Nat n)) (closed-let n (term_of b.value) k)))

-- an equal term
pub sum-as : (x y : Core) → x ≡ y → IsSum (term_of y) → IsSum (term_of x)
sum-as x y e h = subst (λ z. IsSum (term_of z)) (sym e) h

pub ruleset sums = (sum-Var, sum-Nat, sum-Arith, sum-Let, typed-Let)
MEASURE
cat > "$work/crates/measure/src/main.rt" <<'PROGRAM'
#![tactic(auto, using(crate::proofs::Typing::sums))]

ghost use Rattle.std.specs.Prelude.{IfOk};
ghost use Rattle.nrca_term.specs.Typing.{IsTyped};
ghost use Rattle.nrca_term.specs.View.{term_of};
ghost use Rattle.measure.specs.Chains.{IsSum};

use anyhow::{Result, anyhow};
use aql_value::{ArithOp, Memory};
use nrca_normal::normalise;
use nrca_ranges::{GlobalShapes, is_small};
use nrca_term::Core;
use std::alloc::Global;

#[derive(Clone, Copy)]
enum Kind {
    Once,
    Deep,
}

// The sum of two terms.
fn sum(alloc: Global, a: Core, b: Core) -> Result<Core, Memory>
    requires left { IsSum (term_of a) }
    requires right { IsSum (term_of b) }
    ensures { IfOk result (λ t. IsSum (term_of t)) }
{
    let a = Box::new(alloc, a)?;
    let b = Box::new(alloc, b)?;
    Ok(Core::Arith(ArithOp::Add, a, b))
}

// The variable, and so many numbers.
fn sum_of(alloc: Global, n: u64) -> Result<Core, Memory>
    ensures { IfOk result (λ t. IsSum (term_of t)) }
{
    let mut made = Core::Var(0);
    for _ in 0..n {
        made = sum(alloc, made, Core::Nat(1))?;
    }
    Ok(made)
}

// So many numbers.
fn numbers(alloc: Global, n: u64) -> Result<Core, Memory>
    ensures { IfOk result (λ t. IsSum (term_of t)) }
{
    let mut made = Core::Nat(1);
    for _ in 0..n {
        made = sum(alloc, made, Core::Nat(1))?;
    }
    Ok(made)
}

// What a let of a chain binds.
fn bound(alloc: Global, kind: Kind, n: u64) -> Result<Core, Memory>
    ensures { IfOk result (λ t. IsSum (term_of t)) }
{
    match kind {
        Kind::Once => {
            let made = sum_of(alloc, 1)?;
            Ok(made)
        }
        Kind::Deep => {
            let made = sum_of(alloc, n)?;
            Ok(made)
        }
    }
}

// A let around a body.
fn around(alloc: Global, bound: Core, body: Core) -> Result<Core, Memory>
    requires left { IsSum (term_of bound) }
    requires right { IsSum (term_of body) }
    ensures { IfOk result (λ t. IsSum (term_of t)) }
{
    let bound = Box::new(alloc, bound)?;
    let body = Box::new(alloc, body)?;
    Ok(Core::Let(bound, body))
}

// So many lets around a sum of 100 numbers and the variable.
fn chain(alloc: Global, kind: Kind, lets: u64, n: u64) -> Result<Core, Memory>
    ensures { IfOk result (λ t. IsSum (term_of t)) }
{
    let some = numbers(alloc, 100)?;
    let mut made = sum(alloc, Core::Var(0), some)?;
    for _ in 0..lets {
        let bound = bound(alloc, kind, n)?;
        made = around(alloc, bound, made)?;
    }
    Ok(made)
}

// The chain, its first variable a number.
fn closed(alloc: Global, body: Core) -> Result<Core, Memory>
    requires { IsSum (term_of body) }
    ensures { IfOk result (λ t. IsTyped (term_of t)) }
{
    let body = Box::new(alloc, body)?;
    let first = Box::new(alloc, Core::Nat(1))?;
    Ok(Core::Let(first, body))
}

// How many rewritings lead to the plan; none where the term is not small.
fn steps(alloc: Global, term: &Core) -> Result<u64, Memory>
    requires { IsTyped (term_of term.now) }
{
    if is_small(term, 0) {
        let plan = normalise(alloc, term, &GlobalShapes::new(alloc))?;
        return Ok(plan.trace.0.len() as u64);
    }
    Ok(0)
}

fn measured(alloc: Global, kind: Kind, n: u64, built: bool) -> Result<u64, Memory> {
    let lets = match kind {
        Kind::Deep => 50,
        _ => n,
    };
    let body = chain(alloc, kind, lets, n)?;
    let whole = closed(alloc, body)?;
    if built {
        return Ok(0);
    }
    let done = steps(alloc, &whole)?;
    Ok(done)
}

fn main(rt: HostRuntime) -> Result<()> {
    let mut args = std::env::args(&rt)?;
    let _program = args.next();
    let name = args.next().ok_or_else(|| anyhow!("no kind"))?;
    let kind = match name.as_str() {
        "once" => Kind::Once,
        _ => Kind::Deep,
    };
    let count = args.next().ok_or_else(|| anyhow!("no number"))?;
    let n = count.parse::<u64>().map_err(|_| anyhow!("no number"))?;
    let built = args.next().is_some();
    let done = measured(rt.alloc(), kind, n, built).map_err(|_| anyhow!("out of memory"))?;
    println!(rt; "{done}")?;
    Ok(())
}
PROGRAM
for function in sum_of numbers; do
    mkdir -p "$work/crates/measure/proofs/$function"
    cat > "$work/crates/measure/proofs/$function/Invariants.antt" <<MEASURE
use Rattle.nrca_term.specs.View.{term_of}
use Rattle.measure.specs.Chains.{IsSum}
use Rattle.measure.proofs.$function.Given as goal

abbrev pub invariant-loop : goal.invariant-loop
invariant-loop l = IsSum (term_of l.made)
MEASURE
done
mkdir -p "$work/crates/measure/proofs/chain"
sed 's/numbers/chain/' "$work/crates/measure/proofs/numbers/Invariants.antt" > "$work/crates/measure/proofs/chain/Invariants.antt"
for function in sum around closed; do mkdir -p "$work/crates/measure/proofs/$function"; done
cat > "$work/crates/measure/proofs/sum/Answers.antt" <<'MEASURE'
use Rattle.std.proofs.Common.{rules}
use Rattle.aql_value.specs.declared.ops.ArithOp.TheVariants.{Add}
use Rattle.measure.proofs.Typing.{sum-Arith, sum-as}
use Rattle.measure.proofs.sum.Goals as goal

pub returns : goal.returns
returns c = sum-Arith Add c.in_ok-a.a c.in_ok-b.b (sum-as c.in_ok-a.a.value c.args.a (search rules) c.requires.left) (sum-as c.in_ok-b.b.value c.args.b (search rules) c.requires.right)
MEASURE
cat > "$work/crates/measure/proofs/around/Answers.antt" <<'MEASURE'
use Rattle.std.proofs.Common.{rules}
use Rattle.measure.proofs.Typing.{sum-Let, sum-as}
use Rattle.measure.proofs.around.Goals as goal

pub returns : goal.returns
returns c = sum-Let c.in_ok-bound.bound c.in_ok-body.body (sum-as c.in_ok-bound.bound.value c.args.bound (search rules) c.requires.left) (sum-as c.in_ok-body.body.value c.args.body (search rules) c.requires.right)
MEASURE
cat > "$work/crates/measure/proofs/closed/Answers.antt" <<'MEASURE'
use Rattle.std.proofs.Common.{rules}
use Rattle.measure.proofs.Typing.{typed-Let, sum-as}
use Rattle.measure.proofs.closed.Goals as goal

pub returns : goal.returns
returns c = typed-Let 1 c.in_ok-first.first c.in_ok-body.body (search rules) (sum-as c.in_ok-body.body.value c.args.body (search rules) c.requires)
MEASURE
cd "$work/crates/measure"
rt run -- once 1 > "$work/log" 2>&1 || { cat "$work/log"; exit 1; }
program=$(find "$work/crates/measure/out" -maxdepth 1 -type f -perm -u+x | head -1)
measure() {
    /usr/bin/env time -f '%U %S %M' "$program" "$@" > "$work/steps" 2> "$work/time"
    python3 - "$1" "$2" "$(cat "$work/steps")" "$(tail -1 "$work/time")" <<'MEASURE'
import sys

kind, n, steps, used = sys.argv[1:]
user, system, kib = used.split()
print(f"| {kind} | {n} | {steps} | {float(user) + float(system):.2f} | {kib} |")
MEASURE
}
echo "| chain | N | rewritings | seconds | KiB |"
echo "|---|---|---|---|---|"
if [ $# -gt 0 ]; then
    measure "$@"
else
    measure deep 195
    measure once 1000
    measure once 2000
    measure once 3000
    measure once 9990
fi
