//! Rows in SQLite, and the tree of their digests in memory: `sqlite_rows FILE ADDRESS`. table.rs has the rows, and
//! ../rows_service what the service does.
#[path = "../../rows_service/mod.rs"]
mod rows_service;
mod table;

fn main() -> rows_service::Result<()> {
    rows_service::run("sqlite_rows FILE ADDRESS")
}
