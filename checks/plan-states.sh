#!/bin/bash
# Shows what the compiler stops: setting a need on a released plan, and writing from a working one.
# Each wrong program is its right one less the line that changes the plan's state; the right one must compile and run, and
# the wrong one must be refused for the missing method alone. Nothing is proved, so this takes a minute or less.
set -euo pipefail
cd "$(dirname "$0")/.."
scratch=$(mktemp -d)
trap 'rm -rf "$scratch"' EXIT

# the crates as they stand, with the programs beside them, outside the checkout
cp -r --parents crates.txt crates/*/src crates/*/specs "$scratch"
git init -q "$scratch"

add_program() { # NAME: its text comes from standard input
    mkdir -p "$scratch/crates/$1/src"
    cat >"$scratch/crates/$1/src/main.rt"
    echo "$1: plan rules table_board tasks" >>"$scratch/crates.txt"
}

compile() { # PROGRAM: what is said goes to PROGRAM.said
    (cd "$scratch/crates/$1" && rt try) >"$scratch/$1.said" 2>&1
}

fail() { # PROGRAM MESSAGE
    echo "plan states: $1: $2" >&2
    head -n 5 "$scratch/$1.said" >&2
    exit 1
}

must_compile() { # PROGRAM
    compile "$1" || fail "$1" "is refused, and should not be"
    grep -q '^run=ended status=0' "$scratch/$1.said" || fail "$1" "does not run"
    echo "plan states: $1: compiles"
}

must_be_refused() { # PROGRAM METHOD STATE
    ! compile "$1" || fail "$1" "compiles, and should not"
    [ "$(grep -c 'error\[' "$scratch/$1.said")" = 1 ] || fail "$1" "is refused for more than one reason"
    grep -q "error\[unknown-method\].*\`$2\`.*is called on \`Plan<[^\`]*, $3>\`" "$scratch/$1.said" || fail "$1" "is refused for another reason than that a ${3}Plan has no $2"
    echo "plan states: $1: refused, since a ${3}Plan has no $2"
}

add_program need_after_reopen <<'END'
use plan::states::WorkingPlan;
use rules::Even;
use table_board::TableBoard;

fn main() {
    let mut numbers = [0; 3];
    let mut board = TableBoard::make(1, 1, &mut numbers);
    let plan = WorkingPlan::make(&mut board, Even);
    let plan = plan.release();
    let plan = plan.reopen();
    let mut plan = plan;
    let _ = plan.set_need(0, 0, 1);
    plan.end();
}
END
grep -v 'plan.reopen()' "$scratch/crates/need_after_reopen/src/main.rt" | add_program need_on_released

add_program write_after_release <<'END'
use plan::states::WorkingPlan;
use rules::Even;
use table_board::TableBoard;
use tasks::table::TaskTable;

fn main() {
    let mut numbers = [0; 3];
    let mut board = TableBoard::make(1, 1, &mut numbers);
    let tasks = TaskTable::new();
    let mut file = [0; 64];
    let plan = WorkingPlan::make(&mut board, Even);
    let plan = plan.release();
    let _ = plan.write(&tasks, 101, &mut file);
}
END
grep -v 'plan.release()' "$scratch/crates/write_after_release/src/main.rt" | add_program write_from_working

must_compile need_after_reopen
must_be_refused need_on_released set_need Released
must_compile write_after_release
must_be_refused write_from_working write Working
