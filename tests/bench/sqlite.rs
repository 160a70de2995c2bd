//! The few functions of libsqlite3 that the benchmark needs.

use crate::draft::RawTable;
use std::ffi::{CStr, CString};
use std::os::raw::{c_char, c_int, c_uchar, c_void};
use std::ptr;

#[link(name = "sqlite3")]
extern "C" {
    fn sqlite3_open(name: *const c_char, db: *mut *mut c_void) -> c_int;
    fn sqlite3_exec(
        db: *mut c_void,
        sql: *const c_char,
        callback: *const c_void,
        argument: *mut c_void,
        message: *mut *mut c_char,
    ) -> c_int;
    fn sqlite3_prepare_v2(
        db: *mut c_void,
        sql: *const c_char,
        bytes: c_int,
        statement: *mut *mut c_void,
        tail: *mut *const c_char,
    ) -> c_int;
    fn sqlite3_step(statement: *mut c_void) -> c_int;
    fn sqlite3_reset(statement: *mut c_void) -> c_int;
    fn sqlite3_finalize(statement: *mut c_void) -> c_int;
    fn sqlite3_column_count(statement: *mut c_void) -> c_int;
    fn sqlite3_column_name(statement: *mut c_void, column: c_int) -> *const c_char;
    fn sqlite3_column_int64(statement: *mut c_void, column: c_int) -> i64;
    fn sqlite3_column_text(statement: *mut c_void, column: c_int) -> *const c_uchar;
    fn sqlite3_column_bytes(statement: *mut c_void, column: c_int) -> c_int;
    fn sqlite3_errmsg(db: *mut c_void) -> *const c_char;
    fn sqlite3_close(db: *mut c_void) -> c_int;
}

const OK: c_int = 0;
const ROW: c_int = 100;
const DONE: c_int = 101;

/// Tables t0, t1 and on in memory, with columns c0, c1 and on, the draws as a
/// table of one column if there are any, and one prepared statement over them.
pub struct Query {
    db: *mut c_void,
    statement: *mut c_void,
    columns: c_int,
}

impl Query {
    pub fn new(tables: &[RawTable], draws: &[i64], sql: &str) -> Query {
        let mut query = Query { db: ptr::null_mut(), statement: ptr::null_mut(), columns: 0 };
        let text = CString::new(sql).unwrap();
        let memory = CString::new(":memory:").unwrap();
        unsafe {
            let opened = sqlite3_open(memory.as_ptr(), &mut query.db);
            query.expect(opened == OK);
            for (number, table) in tables.iter().enumerate() {
                query.load(&format!("t{number}"), table);
            }
            if !draws.is_empty() {
                let cells = draws.iter().map(|&draw| (draw, 0)).collect();
                query.load("draws", &RawTable::new(1, cells));
            }
            let none = ptr::null_mut();
            let prepared =
                sqlite3_prepare_v2(query.db, text.as_ptr(), -1, &mut query.statement, none);
            query.expect(prepared == OK);
            query.columns = sqlite3_column_count(query.statement);
        }
        query
    }

    unsafe fn load(&self, name: &str, table: &RawTable) {
        let names: Vec<String> = (0..table.columns).map(|c| format!("c{c} INTEGER")).collect();
        self.execute(&format!("CREATE TABLE {name}({})", names.join(",")));
        for row in table.cells.chunks(table.columns) {
            let values: Vec<String> = row.iter().map(|cell| cell.0.to_string()).collect();
            self.execute(&format!("INSERT INTO {name} VALUES({})", values.join(",")));
        }
    }

    unsafe fn execute(&self, sql: &str) {
        let text = CString::new(sql).unwrap();
        let none = ptr::null_mut();
        let done = sqlite3_exec(self.db, text.as_ptr(), ptr::null(), none, ptr::null_mut());
        self.expect(done == OK);
    }

    fn expect(&self, condition: bool) {
        if !condition {
            let message = unsafe { CStr::from_ptr(sqlite3_errmsg(self.db)) };
            panic!("sqlite: {}", message.to_string_lossy());
        }
    }

    /// Adds a line with this field for each column.
    fn line<'a>(&self, text: &mut Vec<u8>, field: impl Fn(c_int) -> &'a [u8]) {
        for column in 0..self.columns {
            if column > 0 {
                text.push(b',');
            }
            text.extend_from_slice(field(column));
        }
        text.extend_from_slice(b"\r\n");
    }

    /// Runs the statement and reads every value, and once more as text if one
    /// is wanted, comma-separated; answers rows and columns.
    pub fn run(&mut self, output: &mut [i64], mut text: Option<&mut Vec<u8>>) -> (usize, usize) {
        let columns = self.columns as usize;
        let mut rows = 0;
        unsafe {
            if let Some(text) = &mut text {
                text.clear();
                self.line(text, |column| {
                    CStr::from_ptr(sqlite3_column_name(self.statement, column)).to_bytes()
                });
            }
            loop {
                match sqlite3_step(self.statement) {
                    ROW => {
                        for column in 0..columns {
                            output[rows * columns + column] =
                                sqlite3_column_int64(self.statement, column as c_int);
                        }
                        if let Some(text) = &mut text {
                            self.line(text, |column| {
                                let start = sqlite3_column_text(self.statement, column);
                                let length = sqlite3_column_bytes(self.statement, column);
                                std::slice::from_raw_parts(start, length as usize)
                            });
                        }
                        rows += 1;
                    }
                    other => {
                        self.expect(other == DONE);
                        break;
                    }
                }
            }
            sqlite3_reset(self.statement);
        }
        (rows, columns)
    }
}

impl Drop for Query {
    fn drop(&mut self) {
        unsafe {
            sqlite3_finalize(self.statement);
            sqlite3_close(self.db);
        }
    }
}
