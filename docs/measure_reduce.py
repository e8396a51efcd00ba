#!/usr/bin/env python3
"""Processor times of `reduce` of `cube_reduction`: python3 docs/measure_reduce.py

It copies the crates to a temporary folder, writes a program over them there, lets `rt` prove and build it, and times it."""
import os
import random
import shutil
import subprocess
import sys
import tempfile

RUNS = 30
SIZES = (100, 400)
CUBES = 10000
CRATES = ('lists', 'classical', 'tree_model', 'tree_facts', 'flat_form', 'flat_facts', 'cube_facts', 'step_facts',
          'reachability', 'numbering', 'basic_solver', 'cube_reduction')

PROGRAM = r'''//! Reduces a chain of equations, or each cube of a file: `clock chain COUNT`, `clock cubes FILE`, `clock read FILE`.
#![tactic(auto)]

ghost use Rattle.std.specs.Prelude.{◌≡◌, ℕ, ◌+◌, ◌<◌, IfOk, All};
ghost use Rattle.flat_form.specs.Numbering.{AtomOver, BasicOver, PartOver, IsWellNumbered};

use cube_reduction::reduce;
use flat_form::{Args, Basic, Cube, Flat, Part, Parts};
use lists::NoMemory;
use std::alloc::Global;
use std::env;
use std::fs;
use std::process::ExitCode;
use tree_model::Symbol;

// u = f(v)
fn equation(alloc: Global, u: usize, v: usize) -> Result<Flat, NoMemory>
    ensures { IfOk result (λ atom. (m : ℕ) → u < m → v < m → AtomOver m atom) }
{
    let mut args = Args::new(alloc);
    args.push(v)?;
    Ok(Flat::VarTerm(u, Symbol::Named(0), args))
}

// Each of so many variables, from `start` on, is f of the next one.
fn chain(alloc: Global, start: usize, count: usize) -> Result<Basic, NoMemory>
    requires { start + count < usize.MAX }
    ensures { IfOk result (λ atoms. (m : ℕ) → start + count < m → BasicOver m atoms) }
{
    let mut atoms = Basic::new(alloc);
    for i in 0..count {
        let atom = equation(alloc, start + i, start + i + 1)?;
        atoms.push(atom)?;
    }
    Ok(atoms)
}

// A chain behind that of a cube.
fn chain_part(alloc: Global, count: usize) -> Result<Part, NoMemory>
    requires { count < 100_000 }
    ensures { IfOk result (PartOver (1 + count)) }
{
    Ok(Part {
        inner: count,
        basic: chain(alloc, count, count)?,
    })
}

fn one_part(alloc: Global, count: usize) -> Result<Parts, NoMemory>
    requires { count < 100_000 }
    ensures { IfOk result (All (PartOver (1 + count))) }
{
    let mut parts = Parts::new(alloc);
    parts.push(chain_part(alloc, count)?)?;
    Ok(parts)
}

fn chain_cube(alloc: Global, count: usize) -> Result<Cube, NoMemory>
    requires { count < 100_000 }
    ensures { IfOk result IsWellNumbered }
{
    Ok(Cube {
        free: 1,
        outer: count,
        basic: chain(alloc, 0, count)?,
        parts: one_part(alloc, count)?,
    })
}

fn reduce_chain(alloc: Global, count: usize) -> Result<(), NoMemory> {
    if count < 100_000 {
        let raw = chain_cube(alloc, count)?;
        let _ = reduce(alloc, &raw)?;
    }
    Ok(())
}

// A cube is written as in the tests of `cube_reduction`.
READER
fn reduce_all(alloc: Global, text: &[u8], reduced: bool) -> Result<(), NoMemory> {
    let mut at = 0;
    for _place in 0..10_000 {
        let raw = cube(alloc, text, &mut at)?;
        let _ = next(text, &mut at);
        if reduced {
            let _ = reduce(alloc, &raw)?;
        }
    }
    Ok(())
}

fn run(alloc: Global, form: &str, count: usize, text: &[u8]) -> Result<(), NoMemory> {
    match form {
        "chain" => reduce_chain(alloc, count),
        "cubes" => reduce_all(alloc, text, true),
        _ => reduce_all(alloc, text, false),
    }
}

fn main(rt: HostRuntime) -> ExitCode {
    let Ok(args) = env::args(&rt) else {
        return ExitCode::from(1);
    };
    let mut form = String::new(rt.alloc());
    let mut count = 0;
    for word in args.skip(1) {
        match word.parse::<usize>() {
            Ok(number) => {
                count = number;
            }
            Err(_) => {
                form = word;
            }
        }
    }
    let Ok(text) = fs::read_to_string(&rt, "cubes") else {
        return ExitCode::from(1);
    };
    match run(rt.alloc(), form.as_str(), count, text.as_str().as_bytes()) {
        Ok(()) => ExitCode::from(0),
        Err(_) => ExitCode::from(1),
    }
}
'''

INVARIANT = '''use Rattle.std.proofs.Common.{ℕ, ◌+◌, ◌<◌}
use Rattle.flat_form.specs.Numbering.{BasicOver}
use Rattle.clock.proofs.chain.Given as goal

abbrev pub invariant-loop-i : goal.invariant-loop-i
invariant-loop-i l = (m : ℕ) → l.start + l.count < m → BasicOver m l.atoms
'''

ANSWERS = '''use Rattle.std.proofs.Common.{List, [], ◌∷◌, sym, subst, arith}
use Rattle.std.proofs.lemmas.List.Elements.{All-nil, All-cons, All-append}
use Rattle.flat_form.specs.declared.atom.Flat.{Flat}
use Rattle.flat_form.specs.Numbering.{AtomOver, BasicOver}
use Rattle.clock.proofs.chain.Goals as goal

pub loop-i-preserved : goal.loop-i-preserved
loop-i-preserved c m less =
    let atom = c.in_ok-atom.atom in
    subst (λ (z : List Flat). BasicOver m z) (sym c.in_ok-push.ensures.ok)
    (All-append (AtomOver m) c.loop-i.atoms (atom ∷ []) (c.loop-i.invariant m less)
    (All-cons (AtomOver m) atom [] (c.in_ok-atom.ensures m (omega (arith, less, c.loop-i-test.true)) (omega (arith, less, c.loop-i-test.true))) (All-nil (AtomOver m))))
'''


def reader(top):
    """The functions of the tests that read a cube."""
    with open(os.path.join(top, 'crates', 'cube_reduction', 'src', 'tests.rt')) as file:
        text = file.read()
    return text[text.index('// The next byte'):text.index('// Reads a cube, and')]


def variable(n):
    return chr(ord('A') + random.randrange(n))


def atom(n):
    kind = random.random()
    if kind < 0.2:
        return '!' + variable(n)
    if kind < 0.5:
        return '=' + variable(n) + variable(n)
    count = random.randrange(3)
    return '%d%s%s%s' % (count, variable(n), 'bcd'[count], ''.join(variable(n) for _ in range(count)))


def cube():
    """A random cube of up to eight atoms and three parts."""
    free, outer = random.randint(1, 3), random.randint(0, 3)
    m = free + outer
    basic = [atom(m) for _ in range(random.randint(0, 8))]
    parts = []
    for _ in range(random.randint(0, 3)):
        inner = random.randint(0, 2)
        atoms = [atom(m + inner) for _ in range(random.randint(1, 3))]
        parts.append('%d%d%s' % (inner, len(atoms), ''.join(atoms)))
    return '%d%d%d%d%s%s' % (free, outer, len(basic), len(parts), ''.join(basic), ''.join(parts))


def build(top, folder):
    """The program, built over a copy of the crates; without it, what rt wrote last."""
    with open(os.path.join(top, 'crates.txt')) as file:
        lines = [line for line in file if line.split(':')[0] in CRATES]
    with open(os.path.join(folder, 'crates.txt'), 'w') as file:
        file.write(''.join(lines) + 'clock: lists tree_model flat_form cube_reduction\n')
    for crate in CRATES:
        for part in ('src', 'specs', 'proofs'):
            old = os.path.join(top, 'crates', crate, part)
            if os.path.isdir(old):
                shutil.copytree(old, os.path.join(folder, 'crates', crate, part))
    clock = os.path.join(folder, 'crates', 'clock')
    files = {'src/main.rt': PROGRAM.replace('READER', reader(top)), 'proofs/chain/Invariants.antt': INVARIANT,
             'proofs/chain/Answers.antt': ANSWERS}
    for name in ('basic', 'cube'):
        with open(os.path.join(top, 'crates', 'cube_reduction', 'proofs', 'tests', name, 'Invariants.antt')) as file:
            files['proofs/%s/Invariants.antt' % name] = file.read().replace('Rattle.cube_reduction.proofs.tests.', 'Rattle.clock.proofs.')
    for name, text in files.items():
        path = os.path.join(clock, name)
        os.makedirs(os.path.dirname(path), exist_ok=True)
        with open(path, 'w') as file:
            file.write(text)
    run = subprocess.run(['rt', 'run'], cwd=clock, stdout=subprocess.PIPE, stderr=subprocess.STDOUT, text=True)
    program = os.path.join(clock, 'out', 'clock')
    if not os.path.exists(program):
        sys.exit(run.stdout[-2000:])
    return program


def least(program, folder, form, count):
    """The least processor's time of a run, in milliseconds."""
    times = []
    for _ in range(RUNS):
        run = subprocess.Popen([program, form, str(count)], cwd=folder)
        _, status, used = os.wait4(run.pid, 0)
        assert status == 0, status
        times.append((used.ru_utime + used.ru_stime) * 1000)
    return min(times)


def main():
    top = os.path.dirname(os.path.dirname(os.path.abspath(__file__)))
    random.seed(1)
    with tempfile.TemporaryDirectory() as folder:
        with open(os.path.join(folder, 'cubes'), 'w') as file:
            file.write(''.join(cube() + '\n' for _ in range(CUBES)))
        program = build(top, folder)
        start = least(program, folder, 'chain', 100000)
        few, many = (least(program, folder, 'chain', count) - start for count in SIZES)
        print('chain: %d equations %.2f ms, %d equations %.2f ms, ratio %.1f' % (SIZES[0], few, SIZES[1], many, many / few))
        read = least(program, folder, 'read', 0)
        each = (least(program, folder, 'cubes', 0) - read) * 1000 / CUBES
        print('%d random cubes: %.2f microseconds each' % (CUBES, each))


main()
