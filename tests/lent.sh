# What must not compile: a fleet, or an accepted program, that outlives the bytes that it runs, and bytes that are
# changed meanwhile. A crate on a copy of these has functions that do so, each with the words of the compiler's refusal,
# and functions that do what is near by and right, of which it has to say nothing. `rt try` compiles and proves nothing.
# Part of tests/examples.sh.

if has rt; then
    mkdir "$work/lent"
    (cd "$root" && tar -cf - --exclude=out crates.txt HANDLES crates) | (cd "$work/lent" && tar -xf -)
    echo 'fleet_lent: fleet_run fleet_verify fleet_code fleet_scen fleet_grid fleet_model' >> "$work/lent/crates.txt"
    lent=$work/lent/crates/fleet_lent
    mkdir -p "$lent/src"
    cat > "$lent/src/main.rt" <<'EOF_RT'
//! Fleets and accepted programs over bytes that are lent.
#![tactic(auto)]

use fleet_code::{CodeView, view};
use fleet_grid::Grid;
use fleet_run::Fleet;
use fleet_scen::Instance;
use fleet_verify::{Accepted, verify};
use std::alloc::Global;

type Runs<'g> = Fleet<'g, CodeView<'g>>;
type Is<'g> = Accepted<'g, CodeView<'g>>;

fn accepted<'g>(alloc: Global, bytes: &'g [u8], grid: &'g Grid, tasks: &'g Instance) -> Option<Is<'g>> {
    let program = view(alloc, bytes).ok()?;
    verify(alloc, program, grid, tasks).ok()
}

fn started<'g>(alloc: Global, bytes: &'g [u8], grid: &'g Grid, tasks: &'g Instance) -> Option<Runs<'g>> {
    Fleet::start(alloc, accepted(alloc, bytes, grid, tasks)?).ok()
}

fn fleet_ends_first(alloc: Global, grid: &Grid, tasks: &Instance) -> Option<u16> {
    let mut bytes = vec![in alloc; 0; 40].ok()?;
    let fleet = started(alloc, bytes.as_slice(), grid, tasks)?;
    let agents = fleet.agents();
    bytes[4] = 1;
    bytes.push(0).ok()?;
    Some(agents)
}

fn fleet_outlives<'g>(alloc: Global, grid: &'g Grid, tasks: &'g Instance) -> Option<Runs<'g>> {
    let bytes = vec![in alloc; 0; 40].ok()?;
    started(alloc, bytes.as_slice(), grid, tasks) // refused: cannot return value referencing local variable `bytes`
}

fn bytes_are_changed_under_a_fleet(alloc: Global, bytes: &mut Vec<u8>, grid: &Grid, tasks: &Instance) -> Option<u16> {
    let fleet = started(alloc, bytes.as_slice(), grid, tasks)?;
    bytes[4] = 1; // refused: cannot borrow `*bytes` as mutable because it is also borrowed as immutable
    Some(fleet.agents())
}

fn bytes_grow_under_a_fleet(alloc: Global, bytes: &mut Vec<u8>, grid: &Grid, tasks: &Instance) -> Option<u16> {
    let fleet = started(alloc, bytes.as_slice(), grid, tasks)?;
    bytes.push(0).ok()?; // refused: cannot borrow `*bytes` as mutable because it is also borrowed as immutable
    Some(fleet.agents())
}

fn accepted_ends_first(alloc: Global, grid: &Grid, tasks: &Instance) -> Option<u32> {
    let mut bytes = vec![in alloc; 0; 40].ok()?;
    let accepted = accepted(alloc, bytes.as_slice(), grid, tasks)?;
    let chain = accepted.chain();
    bytes[4] = 1;
    Some(chain)
}

fn accepted_outlives<'g>(alloc: Global, grid: &'g Grid, tasks: &'g Instance) -> Option<Is<'g>> {
    let bytes = vec![in alloc; 0; 40].ok()?;
    accepted(alloc, bytes.as_slice(), grid, tasks) // refused: cannot return value referencing local variable `bytes`
}

fn bytes_are_changed_under_accepted(alloc: Global, bytes: &mut Vec<u8>, grid: &Grid, tasks: &Instance) -> Option<u32> {
    let accepted = accepted(alloc, bytes.as_slice(), grid, tasks)?;
    bytes[4] = 1; // refused: cannot borrow `*bytes` as mutable because it is also borrowed as immutable
    Some(accepted.chain())
}

fn main(rt: HostRuntime) {
    let _ = rt;
}
EOF_RT
    (cd "$lent" && timeout 300 rt try) > "$work/lent/said" 2>&1
    status=$?
    sed -n 's/: note: .*//; s/^src\/main.rt:\([0-9]*\):[0-9]*: error[^:]*: /\1: /p' "$work/lent/said" > "$work/out"
    awk 'sub(/.*\/\/ refused: /, "") { print NR ": " $0 }' "$lent/src/main.rt" > "$work/want.out"
    : > "$work/err"
    : > "$work/want.err"
    judge 'nothing outlives or changes bytes that are run' 'rt try' 1
    rm -rf "$work/lent"
else
    skip 'what must not compile: there is no rt'
fi
