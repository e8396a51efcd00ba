#!/usr/bin/env python3
"""Processor times of `basic_solver`, at equations that are asserted one after another: python3 docs/measure_solver.py

It copies the crates to a temporary folder, writes a program over them there, lets `rt` prove and build it, and times it."""
import os
import shutil
import subprocess
import sys
import tempfile

RUNS = 30
SIZES = (100, 400)
FORMS = ('chain', 'backward', 'merged_last', 'merged_first')
CRATES = ('lists', 'classical', 'tree_model', 'tree_facts', 'flat_form', 'flat_facts', 'basic_solver')

PROGRAM = r'''//! Asserts equations one after another: `clock FORM COUNT`.
#![tactic(auto)]

ghost use Rattle.std.specs.Prelude.{◌≡◌, ℕ, ◌+◌, ◌<◌, IfOk, OnOk};
ghost use Rattle.flat_form.specs.Numbering.{AtomOver};
ghost use Rattle.basic_solver.specs.Stores.{open_in};

use basic_solver::Store;
use flat_form::{Args, Flat};
use std::alloc::Global;
use std::env;
use std::process::ExitCode;
use tree_model::{NoMemory, Symbol};

// u = f(v)
fn equation(alloc: Global, u: usize, v: usize) -> Result<Flat, NoMemory>
    ensures { IfOk result (λ atom. (m : ℕ) → u < m → v < m → AtomOver m atom) }
{
    let mut args = Args::new(alloc);
    args.push(v)?;
    Ok(Flat::VarTerm(u, Symbol::Named(0), args))
}

fn put(store: &mut Store, atom: &Flat) -> Result<(), NoMemory>
    requires { AtomOver (open_in store.old.scopes) atom.now }
    ensures { OnOk result (open_in store.new.scopes ≡ open_in store.old.scopes) }
{
    let _ = store.assert(atom)?;
    Ok(())
}

// Each variable is f of the next one, and in a ring the last is f of the first.
fn put_all(
    alloc: Global,
    store: &mut Store,
    start: usize,
    count: usize,
    ring: bool,
) -> Result<(), NoMemory>
    requires room { start + count < open_in store.old.scopes }
    requires fits { start + count < usize.MAX }
    ensures { OnOk result (open_in store.new.scopes ≡ open_in store.old.scopes) }
{
    for i in 0..count {
        let next = if ring && i + 1 == count { 0 } else { i + 1 };
        let atom = equation(alloc, start + i, start + next)?;
        put(store, &atom)?;
    }
    Ok(())
}

// The equations of a chain, the last one first.
fn put_back(alloc: Global, store: &mut Store, count: usize) -> Result<(), NoMemory>
    requires room { count < open_in store.old.scopes }
    requires fits { count < usize.MAX }
    ensures { OnOk result (open_in store.new.scopes ≡ open_in store.old.scopes) }
{
    for i in 0..count {
        let place = count - 1 - i;
        let atom = equation(alloc, place, place + 1)?;
        put(store, &atom)?;
    }
    Ok(())
}

fn chain(alloc: Global, count: usize) -> Result<(), NoMemory>
    requires { count < usize.MAX }
{
    let mut store = Store::new(alloc, count + 1)?;
    put_all(alloc, &mut store, 0, count, false)
}

fn backward(alloc: Global, count: usize) -> Result<(), NoMemory>
    requires { count < usize.MAX }
{
    let mut store = Store::new(alloc, count + 1)?;
    put_back(alloc, &mut store, count)
}

fn put_both(
    alloc: Global,
    store: &mut Store,
    left: usize,
    right: usize,
) -> Result<(), NoMemory>
    requires room { left + right < open_in store.old.scopes }
    requires fits { left + right < usize.MAX }
    ensures { OnOk result (open_in store.new.scopes ≡ open_in store.old.scopes) }
{
    put_all(alloc, store, 0, left, true)?;
    put_all(alloc, store, left, right, true)
}

fn merged_last(alloc: Global, left: usize, right: usize) -> Result<(), NoMemory>
    requires { left + right < usize.MAX }
{
    let mut store = Store::new(alloc, left + right + 1)?;
    put_both(alloc, &mut store, left, right)?;
    put(&mut store, &Flat::VarVar(0, left))
}

fn merged_first(alloc: Global, left: usize, right: usize) -> Result<(), NoMemory>
    requires { left + right < usize.MAX }
{
    let mut store = Store::new(alloc, left + right + 1)?;
    put(&mut store, &Flat::VarVar(0, left))?;
    put_both(alloc, &mut store, left, right)
}

fn solve(alloc: Global, form: &str, count: usize) -> Result<(), NoMemory> {
    if count < 1 || count > 10_000 {
        return Ok(());
    }
    match form {
        "chain" => chain(alloc, count),
        "backward" => backward(alloc, count),
        "merged_last" => merged_last(alloc, (count - 1) / 2, count / 2),
        "merged_first" => merged_first(alloc, (count - 1) / 2, count / 2),
        _ => Ok(()),
    }
}

fn main(rt: HostRuntime) -> ExitCode {
    let Ok(args) = env::args(&rt) else {
        return ExitCode::from(1);
    };
    let mut form = String::new(rt.alloc());
    let mut count = 0;
    for word in args.skip(1) {
        match word.parse::<usize>() {
            Ok(number) => {
                count = number;
            }
            Err(_) => {
                form = word;
            }
        }
    }
    match solve(rt.alloc(), form.as_str(), count) {
        Ok(()) => ExitCode::from(0),
        Err(_) => ExitCode::from(1),
    }
}
'''

FILES = {
    'src/main.rt': PROGRAM,
    'proofs/put/Answers.antt': '''use Rattle.basic_solver.proofs.Stored.{answer_keeps}
use Rattle.clock.proofs.put.Goals as goal

pub returns : goal.returns
returns c = (answer_keeps c.args.store.now.scopes c.assert.new.self.scopes c.args.atom.now c.in_ok-assert.field-0 c.in_ok-assert.ensures.answer).0
''',
}
for loop in ('put_all', 'put_back'):
    FILES['proofs/%s/Invariants.antt' % loop] = '''use Rattle.std.proofs.Common.{◌≡◌}
use Rattle.basic_solver.specs.Stores.{open_in}
use Rattle.clock.proofs.%s.Given as goal

abbrev pub invariant-loop-i : goal.invariant-loop-i
invariant-loop-i l = open_in l.store.scopes ≡ open_in l.initial.store.scopes
''' % loop


def build(top, folder):
    """The program, built over a copy of the crates; without it, what rt wrote last."""
    with open(os.path.join(top, 'crates.txt')) as file:
        lines = [line for line in file if line.split(':')[0] in CRATES]
    with open(os.path.join(folder, 'crates.txt'), 'w') as file:
        file.write(''.join(lines) + 'clock: tree_model flat_form basic_solver\n')
    for crate in CRATES:
        for part in ('src', 'specs', 'proofs'):
            old = os.path.join(top, 'crates', crate, part)
            if os.path.isdir(old):
                shutil.copytree(old, os.path.join(folder, 'crates', crate, part))
    clock = os.path.join(folder, 'crates', 'clock')
    for name, text in FILES.items():
        path = os.path.join(clock, name)
        os.makedirs(os.path.dirname(path), exist_ok=True)
        with open(path, 'w') as file:
            file.write(text)
    run = subprocess.run(['rt', 'run'], cwd=clock, stdout=subprocess.PIPE, stderr=subprocess.STDOUT, text=True)
    if run.returncode != 0:
        sys.exit(run.stdout[-2000:])
    return os.path.join(clock, 'out', 'clock')


def least(program, form, count):
    """The least processor's time of a run, in milliseconds."""
    times = []
    for _ in range(RUNS):
        run = subprocess.Popen([program, form, str(count)])
        _, status, used = os.wait4(run.pid, 0)
        assert status == 0, status
        times.append((used.ru_utime + used.ru_stime) * 1000)
    return min(times)


def main():
    top = os.path.dirname(os.path.dirname(os.path.abspath(__file__)))
    with tempfile.TemporaryDirectory() as folder:
        program = build(top, folder)
        start = least(program, 'none', 1)
        print("no equation: %.2f ms" % start)
        for form in FORMS:
            few, many = (least(program, form, count) - start for count in SIZES)
            print('%s: %d equations %.1f ms, %d equations %.1f ms, ratio %.1f' % (form, SIZES[0], few, SIZES[1], many, many / few))


main()
