#!/usr/bin/env bash
# SQLite reads a write-ahead log that wal_frames wrote. Run it from anywhere, with `rt`, `python3` and its module sqlite3
# on the path: it ends with status 0 and a line where SQLite shows the rows of the log, and another where the tool sqlite3
# is on the path and shows them too. No part of the gate, and nothing is proved here.
#
# A database in mode WAL gets a second row, of which its file knows nothing: the pages with that row are written as a
# log by a small program over wal_frames, and the log is put beside a copy of the file from before.
set -eu
repository=$(cd "$(dirname "$0")/.." && pwd)
rt=${RT:-rt}
place=$(mktemp -d)
trap 'rm -rf "$place"' EXIT
mkdir -p "$place/crates"
for crate in dq_base wal_frames; do
    mkdir "$place/crates/$crate"
    cp -r "$repository/crates/$crate/src" "$repository/crates/$crate/specs" "$repository/crates/$crate/proofs" "$place/crates/$crate"
done
cd "$place"
: >crates.txt
"$rt" new crates/wal_sample start_io >/dev/null
rm -rf crates/wal_sample/*
cat >crates.txt <<'TEXT'
dq_base: byteorder thiserror
wal_frames: dq_base byteorder thiserror
wal_sample: dq_base wal_frames
TEXT
mkdir crates/wal_sample/src
cat >crates/wal_sample/src/main.rt <<'TEXT'
//! Writes the pages of its input as a log, the last of them with the size of the database.
#![tactic(auto)]

use dq_base::{PAGE_SIZE, Page};
use std::io::{self, Read, Write};
use wal_frames::{Frame, write_wal};

fn main(rt: HostRuntime) -> io::Result<()> {
    let mut bytes = Vec::new(rt.alloc());
    rt.reader().read_to_end(&mut bytes)?;
    let count = bytes.len() / PAGE_SIZE;
    let mut frames = Vec::new(rt.alloc());
    for index in 0..count {
        let start = index * PAGE_SIZE;
        let number = index as u32 + 1;
        frames.push(Frame {
            number,
            commit: if index + 1 == count { number } else { 0 },
            page: Page::from_slice(&bytes[start..start + PAGE_SIZE]),
        })?;
    }
    let log = write_wal(rt.alloc(), 7, frames.as_slice())?;
    io::writer(&rt).write_all(log.as_slice())
}
TEXT
cat >before_and_after.py <<'TEXT'
import sqlite3
con = sqlite3.connect("grown.db")
con.execute("pragma page_size = 4096")
con.execute("pragma journal_mode = wal")
con.execute("create table t (x)")
con.execute("insert into t values ('before')")
con.commit()
con.execute("pragma wal_checkpoint(truncate)")
open("base.db", "wb").write(open("grown.db", "rb").read())
con.execute("insert into t values ('after')")
con.executemany("insert into t values (?)", [("x" * 900,)] * 20)
con.commit()
con.execute("pragma wal_checkpoint(truncate)")
TEXT
cat >read.py <<'TEXT'
import os, shutil, sqlite3
rows = "select x from t order by rowid"
shutil.copy("base.db", "alone.db")
alone = [x for (x,) in sqlite3.connect("alone.db").execute(rows)]
shutil.copy("base.db", "read.db")
shutil.copy("log", "read.db-wal")
con = sqlite3.connect("read.db")
found = [x for (x,) in con.execute(rows)]
check = con.execute("pragma integrity_check").fetchone()[0]
assert alone == ["before"], alone
assert found == ["before", "after"] + ["x" * 900] * 20, found
assert check == "ok", check
print("SQLite", sqlite3.sqlite_version, "reads", len(found), "rows from", os.path.getsize("log"), "bytes of a log")
TEXT
python3 before_and_after.py
(cd crates/wal_sample && "$rt" try) <grown.db >log 2>try.log || { cat try.log >&2; exit 1; }
python3 read.py
if command -v sqlite3 >/dev/null; then
    cp base.db tool.db
    cp log tool.db-wal
    found=$(sqlite3 tool.db "select count(*), sum(x = 'before'), sum(x = 'after'), sum(length(x) = 900) from t; pragma integrity_check")
    if [ "$found" != "22|1|1|20
ok" ]; then
        echo "the tool sqlite3 reads: $found" >&2
        exit 1
    fi
    echo "the tool sqlite3 $(sqlite3 --version | cut -d' ' -f1) reads them too"
fi
