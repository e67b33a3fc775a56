#!/usr/bin/env python3
"""Times the tables of this checkout beside those of an earlier commit, in one program.

A repository is made in a folder of its own: `table_old` is `table_core` as it stood at the commit, `table_core` the
present one, and `timed` a program that does the same work with both and tells the microseconds of each; `kept_old`
and `kept_new` make 10^6 tables of two fields, whose memory is told by the greatest that the program had. All of it
is proved by `rt run`, since only proved code is built, which takes some minutes the first time.

    bench/tables.py [--commit COMMIT] [--folder FOLDER]
"""
import argparse
import pathlib
import shutil
import subprocess
import sys

ROOT = pathlib.Path(__file__).resolve().parent.parent

CRATES = """int_core: itoa
table_old: int_core indexmap
table_core: int_core indexmap
timed: table_old table_core int_core indexmap
kept_old: table_old int_core indexmap
kept_new: table_core int_core indexmap
"""

WORK = '''// The same work over one of the two tables.
use MODULE::{Key, StrId, Table, Value};
use std::alloc::{AllocError, Global};

fn put(table: &mut Table, key: Value, value: Value) -> Result<(), AllocError> {
    if let Some(key) = Key::of(key) {
        table.set(key, value)?;
    }
    Ok(())
}

fn add(sum: i64, value: Value) -> i64 {
    match value {
        Value::Int(n) => sum.wrapping_add(n),
        _ => sum,
    }
}

fn list(alloc: Global, n: i64) -> Result<Table, AllocError> {
    let mut table = Table::new(alloc);
    for i in 0..n {
        let i = i.wrapping_add(1);
        put(&mut table, Value::Int(i), Value::Int(i))?;
    }
    Ok(table)
}

fn named(alloc: Global, n: usize) -> Result<Table, AllocError> {
    let mut table = Table::new(alloc);
    for i in 0..n {
        put(&mut table, Value::Str(StrId(i)), Value::Int(1))?;
    }
    Ok(table)
}

pub fn fill(alloc: Global, n: i64) -> Result<i64, AllocError> {
    Ok(list(alloc, n)?.border())
}

pub fn get_integers(alloc: Global, n: i64, times: i64) -> Result<i64, AllocError> {
    let table = list(alloc, n)?;
    let mut sum = 0;
    for _ in 0..times {
        for i in 0..n {
            let i = i.wrapping_add(1);
            sum = add(sum, GETINT);
        }
    }
    Ok(sum)
}

pub fn set_integers(alloc: Global, n: i64, times: i64) -> Result<i64, AllocError> {
    let mut table = list(alloc, n)?;
    for _ in 0..times {
        for i in 0..n {
            let i = i.wrapping_add(1);
            SETINT
        }
    }
    Ok(table.border())
}

pub fn get_sparse(alloc: Global, n: i64, times: i64) -> Result<i64, AllocError> {
    let mut table = Table::new(alloc);
    for i in 0..n {
        put(&mut table, Value::Int(i.wrapping_mul(7919)), Value::Int(i))?;
    }
    let mut sum = 0;
    for _ in 0..times {
        for i in 0..n {
            let i = i.wrapping_mul(7919);
            sum = add(sum, GETINT);
        }
    }
    Ok(sum)
}

pub fn set_sparse(alloc: Global, n: i64, times: i64) -> Result<i64, AllocError> {
    let mut table = Table::new(alloc);
    for _ in 0..times {
        for i in 0..n {
            put(&mut table, Value::Int(i.wrapping_mul(7919)), Value::Int(i))?;
        }
    }
    Ok(table.border())
}

pub fn get_fields(alloc: Global, n: usize, times: i64) -> Result<i64, AllocError> {
    let table = named(alloc, n)?;
    let mut sum = 0;
    for _ in 0..times {
        for i in 0..n {
            let id = StrId(i);
            sum = add(sum, GETSTR);
        }
    }
    Ok(sum)
}

pub fn set_fields(alloc: Global, n: usize, times: i64) -> Result<i64, AllocError> {
    let mut table = named(alloc, n)?;
    for _ in 0..times {
        for i in 0..n {
            let id = StrId(i);
            SETSTR
        }
    }
    Ok(table.border())
}

pub fn small_tables(alloc: Global, n: usize) -> Result<i64, AllocError> {
    let mut tables = Vec::with_capacity(alloc, n)?;
    for _ in 0..n {
        tables.push(named(alloc, 2)?)?;
    }
    let mut sum = 0;
    for table in tables.iter() {
        sum = add(sum, table.get(Value::Str(StrId(1))));
    }
    Ok(sum)
}

pub fn queue(alloc: Global, n: i64, length: i64) -> Result<i64, AllocError> {
    let mut table = Table::new(alloc);
    for i in 0..n {
        let i = i.wrapping_add(1);
        put(&mut table, Value::Int(i), Value::Int(i))?;
        if i > length {
            put(&mut table, Value::Int(i.wrapping_sub(length)), Value::Nil)?;
        }
    }
    Ok(table.border())
}

pub fn stack(alloc: Global, n: i64, times: i64) -> Result<i64, AllocError> {
    let mut table = Table::new(alloc);
    for _ in 0..times {
        for _ in 0..n {
            let next = table.border().wrapping_add(1);
            put(&mut table, Value::Int(next), Value::Int(next))?;
        }
        for _ in 0..n {
            let last = table.border();
            put(&mut table, Value::Int(last), Value::Nil)?;
        }
    }
    Ok(table.border())
}

pub fn append(alloc: Global, n: i64) -> Result<i64, AllocError> {
    let mut table = Table::new(alloc);
    for i in 0..n {
        let next = table.border().wrapping_add(1);
        put(&mut table, Value::Int(next), Value::Int(i))?;
    }
    Ok(table.border())
}
'''

CALLS = {
    "new": ["table.get_integer(i)", "table.get_string(id)", "table.set_integer(i, Value::Int(i));", "table.set_string(id, Value::Int(2));"],
    "old": ["table.get(Value::Int(i))", "table.get(Value::Str(id))", "put(&mut table, Value::Int(i), Value::Int(i))?;", "put(&mut table, Value::Str(id), Value::Int(2))?;"],
}

MEASURES = [
    ("fill 10^6 in order", "fill(alloc, 1000000)"),
    ("get 10^6 in order, 5 times", "get_integers(alloc, 1000000, 5)"),
    ("set 10^6 in order, 5 times", "set_integers(alloc, 1000000, 5)"),
    ("get 1000 in order, 5000 times", "get_integers(alloc, 1000, 5000)"),
    ("set 1000 in order, 5000 times", "set_integers(alloc, 1000, 5000)"),
    ("fill 10^6 sparse and get each", "get_sparse(alloc, 1000000, 1)"),
    ("get 1000 sparse, 1000 times", "get_sparse(alloc, 1000, 1000)"),
    ("set 1000 sparse, 1000 times", "set_sparse(alloc, 1000, 1000)"),
    ("get 2 fields, 10^6 times", "get_fields(alloc, 2, 1000000)"),
    ("set 2 fields, 10^6 times", "set_fields(alloc, 2, 1000000)"),
    ("get 8 fields, 250000 times", "get_fields(alloc, 8, 250000)"),
    ("get 40 fields, 50000 times", "get_fields(alloc, 40, 50000)"),
    ("set 40 fields, 50000 times", "set_fields(alloc, 40, 50000)"),
    ("get 1000 fields, 2000 times", "get_fields(alloc, 1000, 2000)"),
    ("make 10^6 tables of 2 fields", "small_tables(alloc, 1000000)"),
    ("queue of 1000, 10^6 pushed", "queue(alloc, 1000000, 1000)"),
    ("stack of 1000, 1000 times", "stack(alloc, 1000, 1000)"),
    ("t[#t+1] = i, 2 * 10^5 times", "append(alloc, 200000)"),
]

MEASURE = '''fn measure_NUMBER(rt: &(impl Print + Clock), alloc: Global) -> Result<(), io::Error> {
    let start = Instant::now(rt)?;
    let a = old_table::CALL.unwrap_or(-1);
    let old = start.elapsed(rt)?.as_micros();
    let start = Instant::now(rt)?;
    let b = new_table::CALL.unwrap_or(-2);
    let new = start.elapsed(rt)?.as_micros();
    println!(rt; "NAME\\t{old}\\t{new}\\t{a}\\t{b}")?;
    Ok(())
}

'''

TIMED = '''// Times the table beside the one that it took the place of.
#![tactic(auto)]

mod new_table;
mod old_table;

use std::alloc::Global;
use std::io;
use std::rt::Clock;
use std::time::Instant;

FUNCTIONS
fn main(rt: HostRuntime) -> Result<(), io::Error> {
    let alloc = rt.alloc();
    for _ in 0..5 {
MEASURED    }
    Ok(())
}
'''

KEPT = '''// Makes tables of two fields, for the memory that they take.
#![tactic(auto)]

mod tables;

use std::io;

fn main(rt: HostRuntime) -> Result<(), io::Error> {
    let sum = tables::small_tables(rt.alloc(), 1000000).unwrap_or(0);
    println!(rt; "{sum}")
}
'''


def write(path, text):
    path.parent.mkdir(parents=True, exist_ok=True)
    path.write_text(text)


def work(module, which):
    text = WORK.replace("MODULE", module)
    for word, call in zip(["GETINT", "GETSTR", "SETINT", "SETSTR"], CALLS[which]):
        text = text.replace(word, call)
    return text


def make(folder, commit):
    """Writes the repository that is timed."""
    crates = folder / "crates"
    write(folder / "crates.txt", CRATES)
    for name in ["int_core", "table_core"]:
        shutil.rmtree(crates / name / "src", ignore_errors=True)
        shutil.copytree(ROOT / "crates" / name, crates / name, ignore=shutil.ignore_patterns("out", "must-fail", "tests.rt"), dirs_exist_ok=True)
    tree = subprocess.run(["git", "archive", commit, "crates/table_core"], cwd=ROOT, check=True, capture_output=True).stdout
    old = folder / "old"
    old.mkdir(parents=True, exist_ok=True)
    subprocess.run(["tar", "x", "-C", str(old)], input=tree, check=True)
    shutil.copytree(old / "crates/table_core", crates / "table_old", ignore=shutil.ignore_patterns("must-fail", "tests.rt"), dirs_exist_ok=True)
    for path in (crates / "table_old").rglob("*"):
        if path.suffix in (".rt", ".antt") and "out" not in path.parts:
            path.write_text(path.read_text().replace("table_core", "table_old"))
    for name in ["table_core", "table_old"]:
        library = crates / name / "src/lib.rt"
        library.write_text(library.read_text().replace("#[cfg(test)]\nmod tests;\n", ""))
    functions = "".join(MEASURE.replace("NUMBER", str(n)).replace("CALL", call).replace("NAME", name) for n, (name, call) in enumerate(MEASURES))
    measured = "".join(f"        measure_{n}(&rt, alloc)?;\n" for n in range(len(MEASURES)))
    write(crates / "timed/src/main.rt", TIMED.replace("FUNCTIONS", functions).replace("MEASURED", measured))
    for which, module in [("old", "table_old"), ("new", "table_core")]:
        write(crates / f"timed/src/{which}_table.rt", work(module, which))
        write(crates / f"kept_{which}/src/tables.rt", work(module, which))
        write(crates / f"kept_{which}/src/main.rt", KEPT)


def run(folder, name):
    """Proves and runs a program, and gives what it wrote."""
    ran = subprocess.run(["rt", "run"], cwd=folder / "crates" / name, capture_output=True, text=True)
    if ran.returncode != 0:
        sys.exit(ran.stdout + ran.stderr)
    return ran.stdout


def main():
    options = argparse.ArgumentParser(description=__doc__.split("\n")[0])
    options.add_argument("--commit", default="533f92c", help="the commit whose tables are the older ones")
    options.add_argument("--folder", type=pathlib.Path, default=pathlib.Path("/tmp/tables_timed"))
    given = options.parse_args()
    make(given.folder, given.commit)
    least = {}
    for line in run(given.folder, "timed").splitlines():
        if line.count("\t") == 4:
            name, old, new, a, b = line.split("\t")
            assert a == b, line
            was = least.setdefault(name, (int(old), int(new)))
            least[name] = (min(was[0], int(old)), min(was[1], int(new)))
    for name, (old, new) in least.items():
        print(f"{name:32} {old:8} {new:8} {old / max(new, 1):6.1f}")
    for which in ["old", "new"]:
        run(given.folder, f"kept_{which}")
        program = given.folder / f"crates/kept_{which}/out/kept_{which}"
        ran = subprocess.run(["/usr/bin/time", "-f", "%M", str(program)], capture_output=True, text=True, check=True)
        print(f"10^6 tables of 2 fields, {which}: {ran.stderr.strip()} KB")


if __name__ == "__main__":
    main()
